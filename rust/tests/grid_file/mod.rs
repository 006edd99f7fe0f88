//! Grid files read by the library, held to their rules.
use crate::input::grid_file::damage;
use crate::input::Random;
use crate::paper::grid_file::{read, six, write, TRAILER};
use shepard::{bytes, Grid, GridFile, Survey};

const LENT_NUMBER: u16 = 0xa5a5;
const LENT_CELL: i16 = -23131;
const LENT_COUNT: usize = 0xa5a5_a5a5;

const TWO_CELLS: Grid = Grid { x0: 4090, y0: 7, step_x: 5, step_y: 65535, columns: 2, rows: 1 };

// The wrapper's own numbers are gone after a refusal, so what is lent is seen by calls without it.
extern "C" {
    fn shepard_grid_check(
        file: *const u8,
        file_length: usize,
        x0: *mut u16,
        y0: *mut u16,
        step_x: *mut u16,
        step_y: *mut u16,
        columns: *mut u16,
        rows: *mut u16,
    ) -> u8;
    fn shepard_grid_cells(file: *const u8, file_length: usize, cells: *mut i16, cells_length: usize, count: *mut usize) -> u8;
}

/// The number that a check gives, and the six lent numbers after it.
fn lent_numbers(file: &[u8]) -> (u8, [u16; 6]) {
    let mut lent = [LENT_NUMBER; 6];
    let [x0, y0, step_x, step_y, columns, rows] = &mut lent;
    // SAFETY: the pointer and the length are a slice's, and the six numbers are our own.
    let no = unsafe { shepard_grid_check(file.as_ptr(), file.len(), x0, y0, step_x, step_y, columns, rows) };
    (no, lent)
}

/// The number that a reading of cells gives, and after it the lent count and the lent cells.
fn lent_cells(file: &[u8], room: usize) -> (u8, usize, Vec<i16>) {
    let (mut count, mut lent) = (LENT_COUNT, vec![LENT_CELL; room]);
    // SAFETY: as in `lent_numbers`; the cells and the count are our own.
    let no = unsafe { shepard_grid_cells(file.as_ptr(), file.len(), lent.as_mut_ptr(), lent.len(), &mut count) };
    (no, count, lent)
}

/// The same as the rules have it: `room` cells, the first of them replaced unless the file is refused or has more.
fn expected_cells(room: usize, cells: Result<Vec<i16>, u8>) -> (u8, usize, Vec<i16>) {
    let mut lent = vec![LENT_CELL; room];
    match cells {
        Ok(cells) if cells.len() <= room => {
            lent[..cells.len()].copy_from_slice(&cells);
            (0, cells.len(), lent)
        }
        Ok(_) => (8, LENT_COUNT, lent),
        Err(no) => (no, LENT_COUNT, lent),
    }
}

/// Holds every reader of a grid file to the rules, with `room` cells lent; the number that the reading of cells gives.
fn hold(file: &[u8], room: usize) -> u8 {
    let want = read(file);
    let numbers = want.as_ref().map_or_else(|&no| (no, [LENT_NUMBER; 6]), |held| (0, six(&held.grid)));
    assert_eq!(lent_numbers(file), numbers, "{file:?}");
    assert_eq!(bytes::grid_check(file).map_err(|no| no.0), want.as_ref().map(|held| held.grid).map_err(|&no| no));
    assert_eq!(GridFile::read(file).map_err(|no| no.0), want);

    let (no, count, cells) = expected_cells(room, want.map(|held| held.cells));
    assert_eq!(lent_cells(file, room), (no, count, cells.clone()), "{file:?}");
    let mut lent = vec![LENT_CELL; room];
    assert_eq!(bytes::grid_cells(file, &mut lent).map_err(|no| no.0), if no == 0 { Ok(count) } else { Err(no) });
    assert_eq!(lent, cells);
    no
}

/// As many cells as the file has, or a few more or fewer.
fn some_room(random: &mut Random, file: &[u8]) -> usize {
    (file.len().saturating_sub(TRAILER) / 2 + random.below(5) as usize).saturating_sub(2)
}

/// A grid file of any cells, which a survey need not have.
fn any_file(random: &mut Random, grid: Grid) -> Vec<u8> {
    let cells = (0..grid.columns * grid.rows).map(|_| random.below(65536) as u16 as i16).collect();
    write(&GridFile { grid, cells })
}

/// A grid file that the library wrote.
fn written(random: &mut Random, grid: &Grid) -> Vec<u8> {
    let mut survey = Survey::new();
    for _ in 0..=random.below(12) {
        // a second point at a location is refused, and the survey has one less
        let _ = survey.add(random.below(4096), random.below(4096), random.below(256) as i32 - 128);
    }
    survey.grid_file(grid).unwrap()
}

/// Few bytes and a trailer of small numbers, which are a grid file now and then.
fn small_numbers(random: &mut Random) -> Vec<u8> {
    let length = 2 * random.below(5) + random.below(10) / 9;
    let mut file = random.bytes(length);
    for _ in 0..6 {
        file.extend([0, if random.below(12) == 0 { 0 } else { 1 + random.below(2) as u8 }]);
    }
    file.extend([0, 0, 0, 2 * random.below(5) as u8]);
    file.extend(b"RLG1");
    file
}

#[test]
fn what_the_library_writes() {
    let mut random = Random(8);
    for _ in 0..300 {
        let grid = random.grid();
        let file = written(&mut random, &grid);
        let held = read(&file).unwrap();
        assert_eq!((held.grid, write(&held)), (grid, file.clone()));
        for room in [held.cells.len(), held.cells.len() + 1 + random.below(9) as usize] {
            assert_eq!(hold(&file, room), 0);
        }
        for room in [held.cells.len() - 1, random.below(held.cells.len() as u32) as usize] {
            assert_eq!(hold(&file, room), 8);
        }
    }
}

#[test]
fn the_ends_of_the_rules() {
    let mut random = Random(9);
    for (columns, rows) in [(1, 1), (64, 1), (1, 64), (64, 64)] {
        for (x0, step) in [(0, 1), (0, 65), (4095 - 63, 1)] {
            let grid = Grid { x0, y0: x0, step_x: step, step_y: step, columns, rows };
            assert_eq!(hold(&written(&mut random, &grid), 4096), 0);
            assert_eq!(hold(&any_file(&mut random, grid), 4096), 0);
        }
    }
    assert_eq!(hold(&any_file(&mut random, TWO_CELLS), 2), 0);
    assert_eq!(hold(&any_file(&mut random, Grid { x0: 4091, ..TWO_CELLS }), 2), 7);
    // 65 cells are 13 columns and 5 rows to the length's rule, and one column or row too many to the grid's
    assert_eq!(hold(&any_file(&mut random, Grid { x0: 0, columns: 65, ..TWO_CELLS }), 65), 7);
    assert_eq!(hold(&any_file(&mut random, Grid { columns: 1, rows: 65, step_y: 1, ..TWO_CELLS }), 65), 7);
}

#[test]
fn every_length() {
    let lengths = (0..8300).chain([65535, 65536, 65537, 2 * 65536 + 22, 131072]);
    let found: Vec<u8> = lengths.map(|length| hold(&vec![0; length], 1)).collect();
    assert_eq!(found.iter().position(|&no| no == 10), Some(22));
    assert_eq!(found.iter().rposition(|&no| no == 10), Some(8212));
}

#[test]
fn every_byte() {
    let file = any_file(&mut Random(10), TWO_CELLS);
    for at in 0..file.len() {
        for byte in 0..=255 {
            let mut other = file.clone();
            other[at] = byte;
            hold(&other, 2);
        }
    }
}

#[test]
fn damaged_files() {
    let mut random = Random(11);
    let mut seen = [0; 13];
    for _ in 0..20_000 {
        let grid = random.grid();
        let mut file = if random.below(4) == 0 { written(&mut random, &grid) } else { any_file(&mut random, grid) };
        for _ in 0..=random.below(2) {
            damage(&mut random, &mut file);
        }
        let room = some_room(&mut random, &file);
        seen[usize::from(hold(&file, room))] += 1;
    }
    assert!([0, 7, 8, 9, 10, 12].iter().all(|&no| seen[no] > 500), "refusals met: {seen:?}");
}

#[test]
fn short_bytes() {
    let mut random = Random(12);
    let mut seen = [0; 13];
    for _ in 0..20_000 {
        let length = random.below(64);
        let file = if random.below(2) == 0 { random.bytes(length) } else { small_numbers(&mut random) };
        let room = some_room(&mut random, &file);
        seen[usize::from(hold(&file, room))] += 1;
    }
    assert!([0, 7, 8, 9, 10, 12].iter().all(|&no| seen[no] > 50), "refusals met: {seen:?}");
}

#[test]
fn order_of_refusals() {
    let file = any_file(&mut Random(13), TWO_CELLS);
    let with = |changes: &[(usize, u8)]| {
        let mut other = file.clone();
        changes.iter().for_each(|&(at, byte)| other[at] = byte);
        other
    };
    // bytes 4 to 15 are the six numbers, 16 to 19 the back distance, 20 to 23 RLG1
    let (magic, rows, back, one_column) = ((23, b'2'), (15, 0), (16, 1), (13, 1));
    for (file, no) in [
        ([with(&[magic]), vec![0]].concat(), 9),
        (with(&[magic])[1..].to_vec(), 9),
        (with(&[magic, rows, back]), 10),
        (with(&[rows, back]), 7),
        ([vec![0; 2], with(&[rows])].concat(), 7),
        (with(&[back]), 12),
        ([vec![0; 2], with(&[])].concat(), 12),
        (with(&[])[2..].to_vec(), 12),
        (with(&[one_column]), 12),
        (with(&[one_column, (19, 2)]), 12),
        (with(&[]), 8),
    ] {
        assert_eq!(hold(&file, 0), no, "{file:?}");
    }
}
