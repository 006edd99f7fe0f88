//! `shepard grid`: the answers over a grid, as a grid file, CSV or an Esri ASCII grid.
use crate::failure::{Failure, Outcome};
use crate::source::Input;
use crate::steps::steps;
use crate::words::Words;
use crate::{store, text};
use shepard::{Grid, GridFile, Refusal, Survey};
use std::ffi::OsStr;
use std::os::unix::ffi::OsStrExt;

/// How a grid is written.
#[derive(Clone, Copy)]
enum Form {
    Rlg,
    Csv,
    Esri,
}

pub fn run(words: &Words) -> Outcome {
    let (path, out) = (words.operand(0)?, words.out()?);
    let given = words.grid()?;
    let form = form(words, out)?;
    let input = Input::read(path)?;
    let (grid, bytes) = if input.is_grid_file() { of_grid_file(&input, given, form)? } else { of_survey(&input, given, form)? };
    store::deliver(out, &bytes, &format!("a grid of {}", text::size(&grid)))
}

/// The form of `--as`, or else that of the ending.
fn form(words: &Words, out: &OsStr) -> Result<Form, Failure> {
    match words.value("--as").map(OsStr::as_bytes) {
        Some(b"rlg") => Ok(Form::Rlg),
        Some(b"csv") => Ok(Form::Csv),
        Some(b"esri") => Ok(Form::Esri),
        Some(other) => Err(words.misuse(&format!("'{}' is no form: rlg, csv or esri", text::shown(other)))),
        None if out.as_bytes().ends_with(b".csv") => Ok(Form::Csv),
        None if out.as_bytes().ends_with(b".asc") => Ok(Form::Esri),
        None => Ok(Form::Rlg),
    }
}

fn of_survey(input: &Input, given: Option<Grid>, form: Form) -> Result<(Grid, Vec<u8>), Failure> {
    let (survey, grid) = input.survey_and_grid(given)?;
    let bytes = match form {
        Form::Rlg => survey.grid_file(&grid),
        Form::Csv => csv_of(&survey, &grid).map(String::into_bytes),
        Form::Esri => survey.esri(&grid).map(String::into_bytes),
    };
    Ok((grid, bytes.map_err(|refusal| input.refused(refusal))?))
}

fn of_grid_file(input: &Input, given: Option<Grid>, form: Form) -> Result<(Grid, Vec<u8>), Failure> {
    own_grid_alone(input, given)?;
    if matches!(form, Form::Esri) {
        return Err(Failure::Trouble(format!("{}: an Esri ASCII grid is made from a survey", input.name)));
    }
    let file = input.grid_file()?;
    let bytes = if matches!(form, Form::Csv) { csv(&file).into_bytes() } else { input.bytes.clone() };
    Ok((file.grid, bytes))
}

/// A grid file is not worked out over another grid.
pub fn own_grid_alone(input: &Input, given: Option<Grid>) -> Result<(), Failure> {
    match given {
        Some(_) => Err(Failure::Trouble(format!("{}: it is a grid file and has its own grid", input.name))),
        None => Ok(()),
    }
}

/// A survey's grid as CSV.
pub fn csv_of(survey: &Survey, grid: &Grid) -> Result<String, Refusal> {
    Ok(csv(&GridFile { grid: *grid, cells: survey.grid(grid)? }))
}

/// A line of each column's x, then a line for each row: its y and its cells in steps.
fn csv(file: &GridFile) -> String {
    let grid = &file.grid;
    let head: String = along(grid.x0, grid.step_x, grid.columns).map(|x| format!(",{x}")).collect();
    let rows = file.cells.chunks(usize::from(grid.columns).max(1)).zip(along(grid.y0, grid.step_y, grid.rows));
    let body = rows.map(|(cells, y)| format!("{y}{}\n", cells.iter().map(|&cell| format!(",{}", steps(cell.into()))).collect::<String>()));
    format!("y\\x{head}\n{}", body.collect::<String>())
}

/// The coordinates of columns or rows.
fn along(first: u16, step: u16, count: u16) -> impl Iterator<Item = u32> {
    (0..u32::from(count)).map(move |i| u32::from(first) + i * u32::from(step))
}

/// The locations of a grid's cells, row by row.
pub fn locations(grid: &Grid) -> impl Iterator<Item = (u32, u32)> + '_ {
    along(grid.y0, grid.step_y, grid.rows).flat_map(|y| along(grid.x0, grid.step_x, grid.columns).map(move |x| (x, y)))
}
