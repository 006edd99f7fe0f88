//! The grid file in Rust, written from its rules alone: a file of six numbers and cells, and a file read or refused.
use super::{grid_refusal, word};
use shepard::{Grid, GridFile};

/// Bytes behind the cells: the six numbers, the back distance and RLG1.
pub const TRAILER: usize = 20;

pub fn six(g: &Grid) -> [u16; 6] {
    [g.x0, g.y0, g.step_x, g.step_y, g.columns, g.rows]
}

/// Whether some grid of 1 to 64 columns and rows has a file of this length.
fn is_a_length(length: usize) -> bool {
    (1..=64).any(|columns| (1..=64).any(|rows| length == 2 * columns * rows + TRAILER))
}

/// What a grid file holds, or its refusal: 9, 10, 7 or 12.
pub fn read(file: &[u8]) -> Result<GridFile, u8> {
    if !is_a_length(file.len()) {
        return Err(9);
    }
    let (cells, trailer) = file.split_at(file.len() - TRAILER);
    if &trailer[16..] != b"RLG1" {
        return Err(10);
    }
    let number = |i: usize| word(&trailer[2 * i..]) as u16;
    let grid = Grid { x0: number(0), y0: number(1), step_x: number(2), step_y: number(3), columns: number(4), rows: number(5) };
    if grid_refusal(&[], &grid) == 7 {
        return Err(7);
    }
    let back = 65536 * word(&trailer[12..]) + word(&trailer[14..]);
    let length = 2 * u64::from(grid.columns) * u64::from(grid.rows);
    if back != length || cells.len() as u64 != length {
        return Err(12);
    }
    Ok(GridFile { grid, cells: cells.chunks(2).map(|b| word(b) as u16 as i16).collect() })
}

pub fn write(file: &GridFile) -> Vec<u8> {
    let cells: Vec<u8> = file.cells.iter().flat_map(|cell| cell.to_be_bytes()).collect();
    let back = cells.len() as u32;
    [&cells[..], &six(&file.grid).map(u16::to_be_bytes).concat(), &back.to_be_bytes(), b"RLG1"].concat()
}
