//! `shepard diff`: the cells in which two grids differ.
use crate::failure::{Failure, Outcome, DONE, REFUSED};
use crate::grid::locations;
use crate::source::{Input, SurveyFile};
use crate::steps::steps;
use crate::words::Words;
use crate::{output, text};
use shepard::{Grid, GridFile};

/// One of the two files.
struct Side {
    input: Input,
    held: Held,
}

enum Held {
    Grid(GridFile),
    Survey(SurveyFile),
}

pub fn run(words: &Words) -> Outcome {
    let (a, b) = (words.operand(0)?, words.operand(1)?);
    let given = words.grid()?;
    let (a, b) = (Input::read(a)?, Input::read(b)?);
    let (a, b) = (Side::of(a)?, Side::of(b)?);
    let grid = common_grid(&a, &b, given)?;
    let (before, after) = (a.cells(&grid)?, b.cells(&grid)?);
    let (text, status) = report(&grid, &before, &after);
    output::print(text.as_bytes())?;
    Ok(status)
}

impl Side {
    fn of(input: Input) -> Result<Side, Failure> {
        let held = if input.is_grid_file() { Held::Grid(input.grid_file()?) } else { Held::Survey(input.either_as_survey()?) };
        Ok(Side { input, held })
    }

    /// The grid that a grid file is of.
    fn fixed_grid(&self) -> Option<Grid> {
        match &self.held {
            Held::Grid(file) => Some(file.grid),
            Held::Survey(_) => None,
        }
    }

    /// The grid of this side, where a survey goes by the chosen one before its own.
    fn grid(&self, chosen: Option<Grid>) -> Result<Grid, Failure> {
        match &self.held {
            Held::Grid(file) => Ok(file.grid),
            Held::Survey(file) => self.input.chosen_grid(file, chosen),
        }
    }

    fn cells(self, grid: &Grid) -> Result<Vec<i16>, Failure> {
        match self.held {
            Held::Grid(file) => Ok(file.cells),
            Held::Survey(file) => file.survey.grid(grid).map_err(|refusal| self.input.refused(refusal)),
        }
    }
}

/// The grid of both sides; one that is given has to be that of a grid file, and goes before a survey's own.
fn common_grid(a: &Side, b: &Side, given: Option<Grid>) -> Result<Grid, Failure> {
    for side in [a, b] {
        if let (Some(given), Some(fixed)) = (given, side.fixed_grid()) {
            alike(&side.input.name, &fixed, "--grid", &given)?;
        }
    }
    let chosen = given.or(a.fixed_grid()).or(b.fixed_grid());
    let (of_a, of_b) = (a.grid(chosen)?, b.grid(chosen)?);
    alike(&a.input.name, &of_a, &b.input.name, &of_b)?;
    Ok(of_a)
}

fn alike(one: &str, of_one: &Grid, other: &str, of_other: &Grid) -> Result<(), Failure> {
    if of_one == of_other {
        return Ok(());
    }
    Err(Failure::Trouble(format!("{one} and {other} have unlike grids: {} and {}", text::six(of_one), text::six(of_other))))
}

/// A cell that differs.
struct Change {
    x: u32,
    y: u32,
    before: i64,
    after: i64,
}

impl Change {
    fn amount(&self) -> i64 {
        self.after - self.before
    }

    fn line(&self) -> String {
        format!("{},{},{},{},{}\n", self.x, self.y, steps(self.before), steps(self.after), steps(self.amount()))
    }
}

fn changes(grid: &Grid, before: &[i16], after: &[i16]) -> Vec<Change> {
    let cells = locations(grid).zip(before.iter().zip(after));
    let all = cells.map(|((x, y), (&before, &after))| Change { x, y, before: before.into(), after: after.into() });
    all.filter(|change| change.amount() != 0).collect()
}

/// The cells that differ and what they come to, with the exit status.
fn report(grid: &Grid, before: &[i16], after: &[i16]) -> (String, u8) {
    let (changes, all) = (changes(grid, before, after), before.len());
    let first_greatest = changes.iter().reduce(|most, next| if next.amount().abs() > most.amount().abs() { next } else { most });
    let Some(most) = first_greatest else { return (format!("none of {all} cells differs\n"), DONE) };
    let lines: String = changes.iter().map(Change::line).collect();
    let differ = if changes.len() == 1 { "differs" } else { "differ" };
    let greatest = format!("the greatest change is {} steps at ({}, {})", steps(most.amount()), most.x, most.y);
    (format!("x,y,before,after,change\n{lines}{} of {all} cells {differ}, {greatest}\n", changes.len()), REFUSED)
}
