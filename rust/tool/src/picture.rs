//! `shepard picture`: a survey or a grid file as a map.
use crate::failure::{Failure, Outcome};
use crate::grid::{locations, own_grid_alone};
use crate::source::{Input, STANDARD_INPUT};
use crate::svg::{svg, Map, Of};
use crate::words::Words;
use crate::{store, text};
use shepard::{bytes, Grid, Point, Refusal, Survey};
use std::ffi::OsStr;
use std::os::unix::ffi::OsStrExt;
use std::path::Path;

/// What a map is made of.
struct Content {
    grid: Grid,
    cells: Vec<i64>,
    points: Vec<Point>,
}

pub fn run(words: &Words) -> Outcome {
    let (path, out) = (words.operand(0)?, words.out()?);
    let given = words.grid()?;
    let of = of(words)?;
    let input = Input::read(path)?;
    let content = if input.is_grid_file() { of_grid_file(&input, given, &of)? } else { of_survey(&input, given, &of)? };
    let Content { grid, cells, points } = &content;
    let map = svg(&Map { title: &title(path), grid: *grid, cells, points, of });
    store::deliver(out, map.as_bytes(), &format!("a map of {}", text::size(grid)))
}

fn of(words: &Words) -> Result<Of, Failure> {
    match words.value("--of").map(OsStr::as_bytes) {
        None | Some(b"answer") => Ok(Of::Answer),
        Some(b"support") => Ok(Of::Support),
        Some(other) => Err(words.misuse(&format!("'{}' is nothing to show: answer or support", text::shown(other)))),
    }
}

/// The file's name without its folders.
fn title(path: &OsStr) -> String {
    match Path::new(path).file_name() {
        _ if path == "-" => STANDARD_INPUT.to_string(),
        Some(name) => text::name(name),
        None => text::name(path),
    }
}

fn of_grid_file(input: &Input, given: Option<Grid>, of: &Of) -> Result<Content, Failure> {
    own_grid_alone(input, given)?;
    if matches!(of, Of::Support) {
        return Err(Failure::Trouble(format!("{}: a grid file has no points to measure from", input.name)));
    }
    let file = input.grid_file()?;
    Ok(Content { grid: file.grid, cells: file.cells.into_iter().map(i64::from).collect(), points: Vec::new() })
}

fn of_survey(input: &Input, given: Option<Grid>, of: &Of) -> Result<Content, Failure> {
    let (survey, grid) = input.survey_and_grid(given)?;
    let cells = match of {
        Of::Answer => survey.grid(&grid).map(|cells| cells.into_iter().map(i64::from).collect()),
        Of::Support => distances(&survey, &grid),
    };
    Ok(Content { grid, cells: cells.map_err(|refusal| input.refused(refusal))?, points: survey.points() })
}

/// How far the nearest point is from each cell. The library says first, with no byte lent, whether it would work the grid out.
fn distances(survey: &Survey, grid: &Grid) -> Result<Vec<i64>, Refusal> {
    match bytes::grid_file(survey.as_file(), grid, &mut []) {
        Ok(_) | Err(Refusal::TOO_SHORT) => locations(grid).map(|(x, y)| nearest(survey, x, y)).collect(),
        Err(refusal) => Err(refusal),
    }
}

fn nearest(survey: &Survey, x: u32, y: u32) -> Result<i64, Refusal> {
    let (_, neighbours) = survey.lookup_neighbours(x, y)?;
    neighbours.first().map(|first| first.distance.into()).ok_or(Refusal::EMPTY)
}
