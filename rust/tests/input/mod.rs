//! Random points, numbers in and out of range, and damaged files; `shape` has how the points lie, `grid_file` grids and their files.
pub mod grid_file;
mod shape;

use crate::paper::{self, Point};
use shape::Shape;

/// splitmix64
pub struct Random(pub u64);

impl Random {
    pub fn below(&mut self, n: u32) -> u32 {
        self.0 = self.0.wrapping_add(0x9e37_79b9_7f4a_7c15);
        let mut v = self.0;
        v = (v ^ (v >> 30)).wrapping_mul(0xbf58_476d_1ce4_e5b9);
        v = (v ^ (v >> 27)).wrapping_mul(0x94d0_49bb_1331_11eb);
        ((((v ^ (v >> 31)) >> 32) * u64::from(n)) >> 32) as u32
    }

    pub fn coordinate(&mut self, side: u32) -> u32 {
        match self.below(40) {
            0 => 0,
            1 => 4095,
            2 => 4096 + self.below(3),
            3 => u32::MAX - self.below(3),
            _ => self.below(side),
        }
    }

    pub fn value(&mut self) -> i32 {
        match self.below(20) {
            0 => 127 + self.below(3) as i32,
            1 => -128 - self.below(3) as i32,
            2 => i32::MIN,
            _ => self.below(256) as i32 - 128,
        }
    }

    /// Two numbers, each below the same one.
    fn within(&mut self, side: u32) -> (u32, u32) {
        (self.below(side), self.below(side))
    }

    /// Points over the domain, along its diagonal, close together, on a line or nearly, in clusters, or on a lattice.
    pub fn points(&mut self, most: u32) -> Vec<Point> {
        let (shape, n) = (Shape::any(self), self.below(most + 1));
        let mut points: Vec<Point> = Vec::new();
        for _ in 0..n {
            let (x, y) = shape.location(self);
            if let Ok(more) = paper::add(&points, x, y, self.below(256) as i32 - 128) {
                points = more;
            }
        }
        points
    }
}

/// A file with some of its bytes changed, cut, or put in, and a preamble before it.
pub fn damaged(random: &mut Random, points: &[Point]) -> Vec<u8> {
    let mut file: Vec<u8> = (0..random.below(30)).map(|_| random.below(256) as u8).collect();
    file.extend(paper::write(points));
    for _ in 0..random.below(4) {
        let at = random.below(file.len() as u32 + 1) as usize;
        let near_end = file.len().saturating_sub(random.below(14) as usize);
        let at = if random.below(2) == 0 { at } else { near_end };
        match random.below(4) {
            0 => file.truncate(at),
            1 => file.insert(at, random.below(256) as u8),
            _ if at < file.len() => file[at] = file[at].wrapping_add(1 << random.below(8)),
            _ => {}
        }
    }
    file
}

/// Now and then the sum is made right again, so that damaged records are met.
pub fn mend_sum(random: &mut Random, file: &mut [u8]) {
    if file.len() < 12 || random.below(2) == 0 {
        return;
    }
    let trailer = file.len() - 12;
    let back = (5 * (256 * usize::from(file[trailer]) + usize::from(file[trailer + 1]))).min(trailer);
    let sum = file[trailer - back..trailer].iter().map(|&b| u32::from(b)).sum::<u32>() % 65536;
    file[trailer + 6..trailer + 8].copy_from_slice(&(sum as u16).to_be_bytes());
}
