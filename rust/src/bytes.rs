//! The library's functions on slices, each as the static library has it. A refused call leaves what it is lent as it was.
//!
//! A file is a survey file's bytes, its preamble included. Of the numbers that a call can be refused with, those of the file, 9 to 15, come first.
//! 1,292 bytes are enough for every survey file that is written, 8,212 for every grid file, 57,434 for every Esri ASCII grid.
//!
//! ```
//! use shepard::{bytes, Refusal};
//! let (mut file, mut edited) = ([0; 1292], [0; 1292]);
//! let length = bytes::fresh(&mut file)?;
//! let length = bytes::add(&file[..length], 100, 200, -3, &mut edited)?;
//! let survey = &edited[..length];
//! assert_eq!(bytes::check(survey), Ok(1));
//! assert_eq!(bytes::lookup(survey, 120, 180)?.answer, -3 * 256);
//! assert_eq!(bytes::add(survey, 100, 200, 0, &mut file), Err(Refusal::POINT_THERE));
//! # Ok::<(), Refusal>(())
//! ```
use crate::{sys, Found, Grid, Refusal};

fn unless(no: u8) -> Result<(), Refusal> {
    if no == 0 {
        Ok(())
    } else {
        Err(Refusal(no))
    }
}

/// The file of a survey of no points to the front of `out`, and its length.
///
/// # Errors
/// 8 where `out` has under 12 bytes.
pub fn fresh(out: &mut [u8]) -> Result<usize, Refusal> {
    let mut length = 0;
    // SAFETY: the pointer and the length are a slice's, and `length` is a number of our own.
    unless(unsafe { sys::shepard_fresh(out.as_mut_ptr(), out.len(), &mut length) })?;
    Ok(length)
}

/// How many points the file has.
///
/// # Errors
/// 9 to 15 of the file.
pub fn check(file: &[u8]) -> Result<usize, Refusal> {
    let mut count = 0;
    // SAFETY: as in `fresh`.
    unless(unsafe { sys::shepard_check(file.as_ptr(), file.len(), &mut count) })?;
    Ok(count)
}

/// The file of the same points without its preamble.
///
/// # Errors
/// 9 to 15 of the file, then 8 where `out` is too short.
pub fn rewrite(file: &[u8], out: &mut [u8]) -> Result<usize, Refusal> {
    let mut length = 0;
    // SAFETY: as in `fresh`; the two slices do not overlap, since one is borrowed `mut`.
    unless(unsafe { sys::shepard_rewrite(file.as_ptr(), file.len(), out.as_mut_ptr(), out.len(), &mut length) })?;
    Ok(length)
}

/// The file with one point more.
///
/// # Errors
/// 9 to 15 of the file, then 1, 2, 3 or 5, then 8 where `out` is too short.
pub fn add(file: &[u8], x: u32, y: u32, z: i32, out: &mut [u8]) -> Result<usize, Refusal> {
    let mut length = 0;
    // SAFETY: as in `rewrite`.
    unless(unsafe { sys::shepard_add(file.as_ptr(), file.len(), x, y, z, out.as_mut_ptr(), out.len(), &mut length) })?;
    Ok(length)
}

/// The file with another value at a location.
///
/// # Errors
/// 9 to 15 of the file, then 1, 2 or 4, then 8 where `out` is too short.
pub fn change(file: &[u8], x: u32, y: u32, z: i32, out: &mut [u8]) -> Result<usize, Refusal> {
    let mut length = 0;
    // SAFETY: as in `rewrite`.
    unless(unsafe { sys::shepard_change(file.as_ptr(), file.len(), x, y, z, out.as_mut_ptr(), out.len(), &mut length) })?;
    Ok(length)
}

/// The file with a point taken out.
///
/// # Errors
/// 9 to 15 of the file, then 1 or 4, then 8 where `out` is too short.
pub fn drop(file: &[u8], x: u32, y: u32, out: &mut [u8]) -> Result<usize, Refusal> {
    let mut length = 0;
    // SAFETY: as in `rewrite`.
    unless(unsafe { sys::shepard_drop(file.as_ptr(), file.len(), x, y, out.as_mut_ptr(), out.len(), &mut length) })?;
    Ok(length)
}

/// The interpolated value at a location.
///
/// # Errors
/// 9 to 15 of the file, then 1 off the domain or 6 with no point present.
pub fn lookup(file: &[u8], x: u32, y: u32) -> Result<Found, Refusal> {
    let mut found = Found { answer: 0, count: 0, radius: 0 };
    // SAFETY: as in `fresh`.
    unless(unsafe { sys::shepard_lookup(file.as_ptr(), file.len(), x, y, &mut found.answer, &mut found.count, &mut found.radius) })?;
    Ok(found)
}

/// The same, and the records of the chosen points to the front of `records`, 10 bytes each: x (2), y (2), z (1), distance (4) and kind (1).
///
/// # Errors
/// 9 to 15 of the file, then 1 or 6, then 8 where `records` has under 100 bytes.
pub fn lookup_neighbours(file: &[u8], x: u32, y: u32, records: &mut [u8]) -> Result<Found, Refusal> {
    let mut found = Found { answer: 0, count: 0, radius: 0 };
    // SAFETY: as in `rewrite`.
    unless(unsafe {
        sys::shepard_lookup_neighbours(
            file.as_ptr(),
            file.len(),
            x,
            y,
            records.as_mut_ptr(),
            records.len(),
            &mut found.answer,
            &mut found.count,
            &mut found.radius,
        )
    })?;
    Ok(found)
}

/// Lookups at many locations, 4 bytes of `locations` each, x (2) and y (2), and 8 bytes of `out` for each: answer (2), count (2) and radius (4).
///
/// # Errors
/// 9 to 15 of the file, then 1 or 6 as the first lookup that is refused, then 8 where `out` is too short.
pub fn lookup_many(file: &[u8], locations: &[u8], out: &mut [u8]) -> Result<(), Refusal> {
    // SAFETY: as in `rewrite`.
    unless(unsafe { sys::shepard_lookup_many(file.as_ptr(), file.len(), locations.as_ptr(), locations.len(), out.as_mut_ptr(), out.len()) })
}

/// The grid file to the front of `out`, and its length.
///
/// # Errors
/// 9 to 15 of the file, then 7 for a grid that breaks a rule, 6 with no point present, then 8 where `out` is too short.
pub fn grid_file(file: &[u8], grid: &Grid, out: &mut [u8]) -> Result<usize, Refusal> {
    let mut length = 0;
    // SAFETY: as in `rewrite`.
    unless(unsafe {
        sys::shepard_grid_file(
            file.as_ptr(),
            file.len(),
            grid.x0,
            grid.y0,
            grid.step_x,
            grid.step_y,
            grid.columns,
            grid.rows,
            out.as_mut_ptr(),
            out.len(),
            &mut length,
        )
    })?;
    Ok(length)
}

/// The Esri ASCII grid to the front of `out`, and its length; none is longer than 57,434 bytes.
///
/// # Errors
/// 9 to 15 of the file, then 7, 16 where the two steps differ, 6, then 8 where `out` is too short.
pub fn esri(file: &[u8], grid: &Grid, out: &mut [u8]) -> Result<usize, Refusal> {
    let mut length = 0;
    // SAFETY: as in `rewrite`.
    unless(unsafe {
        sys::shepard_esri(
            file.as_ptr(),
            file.len(),
            grid.x0,
            grid.y0,
            grid.step_x,
            grid.step_y,
            grid.columns,
            grid.rows,
            out.as_mut_ptr(),
            out.len(),
            &mut length,
        )
    })?;
    Ok(length)
}

/// The six numbers of a grid file.
///
/// # Errors
/// 9 for a length that no grid file has, 10 for the last four bytes, 7 for a grid that breaks a rule, 12 for a back distance or a length that does
/// not go with the six numbers.
pub fn grid_check(file: &[u8]) -> Result<Grid, Refusal> {
    let mut g = Grid { x0: 0, y0: 0, step_x: 0, step_y: 0, columns: 0, rows: 0 };
    // SAFETY: as in `fresh`.
    unless(unsafe {
        sys::shepard_grid_check(file.as_ptr(), file.len(), &mut g.x0, &mut g.y0, &mut g.step_x, &mut g.step_y, &mut g.columns, &mut g.rows)
    })?;
    Ok(g)
}

/// The cells of a grid file to the front of `cells`, and how many there are.
///
/// # Errors
/// Those of `grid_check`, then 8 where `cells` is too short.
pub fn grid_cells(file: &[u8], cells: &mut [i16]) -> Result<usize, Refusal> {
    let mut count = 0;
    // SAFETY: as in `rewrite`.
    unless(unsafe { sys::shepard_grid_cells(file.as_ptr(), file.len(), cells.as_mut_ptr(), cells.len(), &mut count) })?;
    Ok(count)
}
