//! Grids that keep the rules, and damage to grid files.
use super::Random;
use crate::paper::grid_file::TRAILER;
use shepard::Grid;

/// Numbers at the ends of the rules and of two bytes, and just beyond.
const EDGES: [u16; 12] = [0, 1, 2, 63, 64, 65, 4032, 4095, 4096, 32767, 32768, 65535];

impl Random {
    pub fn bytes(&mut self, count: u32) -> Vec<u8> {
        (0..count).map(|_| self.below(256) as u8).collect()
    }

    /// A first coordinate and a step that keep so many columns or rows in the domain.
    fn axis(&mut self, count: u32) -> (u16, u16) {
        let step = 1 + self.below(4095 / (count - 1).max(1));
        (self.below(4096 - (count - 1) * step) as u16, step as u16)
    }

    pub fn grid(&mut self) -> Grid {
        let side = if self.below(20) == 0 { 64 } else { 9 };
        let (columns, rows) = (1 + self.below(side), 1 + self.below(side));
        let ((x0, step_x), (y0, step_y)) = (self.axis(columns), self.axis(rows));
        Grid { x0, y0, step_x, step_y, columns: columns as u16, rows: rows as u16 }
    }
}

/// Sets a number of the trailer, or a half of its back distance, to an edge value or to one near to what it was.
fn set_number(random: &mut Random, file: &mut [u8]) {
    let Some(trailer) = file.len().checked_sub(TRAILER) else { return };
    let at = trailer + 2 * random.below(8) as usize;
    let was = u16::from_be_bytes([file[at], file[at + 1]]);
    let near = was.wrapping_add(random.below(5) as u16).wrapping_sub(2);
    let edge = EDGES[random.below(EDGES.len() as u32) as usize];
    let number = if random.below(2) == 0 { near } else { edge };
    file[at..at + 2].copy_from_slice(&number.to_be_bytes());
}

fn change_byte(random: &mut Random, file: &mut [u8]) {
    if !file.is_empty() {
        let at = random.below(file.len() as u32) as usize;
        file[at] ^= 1 << random.below(8);
    }
}

/// One damage to a file: a byte or a number changed, or bytes cut or added at one of its ends.
pub fn damage(random: &mut Random, file: &mut Vec<u8>) {
    let most = if random.below(4) == 0 { file.len() as u32 } else { 4 };
    let (count, length) = (1 + random.below(most), file.len());
    let cut = length.min(count as usize);
    match random.below(8) {
        0 | 1 => change_byte(random, file),
        2 | 3 => set_number(random, file),
        4 => file.truncate(length - cut),
        5 => *file = file.split_off(cut),
        6 => file.extend(random.bytes(count)),
        _ => *file = [random.bytes(count), file.clone()].concat(),
    }
}
