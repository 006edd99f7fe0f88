//! `shepard check`: what survey and grid files hold, or why they are refused.
use crate::failure::{Failure, Outcome, DONE};
use crate::source::{Input, SurveyFile};
use crate::steps::steps;
use crate::words::Words;
use crate::{output, text};
use shepard::{GridFile, Point};
use std::ffi::OsStr;

pub fn run(words: &Words) -> Outcome {
    words.operand(0)?;
    let mut status = DONE;
    for path in words.operands() {
        match line(path) {
            Ok(line) => output::print(line.as_bytes())?,
            Err(failure) => status = status.max(failure.tell()),
        }
    }
    Ok(status)
}

fn line(path: &OsStr) -> Result<String, Failure> {
    let input = Input::read(path)?;
    let held = if input.is_grid_file() { of_grid(&input.grid_file()?) } else { of_survey(&input.either_as_survey()?) };
    Ok(format!("{}: {held}\n", input.name))
}

fn of_survey(file: &SurveyFile) -> String {
    let points = file.survey.points();
    let x = ends("x", &points, |point| point.x.into());
    let y = ends("y", &points, |point| point.y.into());
    let z = ends("z", &points, |point| point.z.into());
    format!("{}{x}{y}{z}{}", text::survey_of(points.len()), front(file))
}

/// `, x 10 to 3900`, or nothing where there is no point.
fn ends(name: &str, points: &[Point], of: impl Fn(&Point) -> i64) -> String {
    match (points.iter().map(&of).min(), points.iter().map(&of).max()) {
        (Some(least), Some(greatest)) => format!(", {name} {least} to {greatest}"),
        _ => String::new(),
    }
}

/// What stands before the records.
fn front(file: &SurveyFile) -> String {
    match file.own_grid() {
        Ok(grid) => format!(", grid {}", text::six(&grid)),
        _ if file.front.is_empty() => String::new(),
        _ => format!(", {} before its records", text::count(file.front.len(), "byte")),
    }
}

fn of_grid(file: &GridFile) -> String {
    let least = file.cells.iter().min().map_or(0, |&cell| cell.into());
    let greatest = file.cells.iter().max().map_or(0, |&cell| cell.into());
    format!("a grid of {}, grid {}, cells {} to {}", text::size(&file.grid), text::six(&file.grid), steps(least), steps(greatest))
}
