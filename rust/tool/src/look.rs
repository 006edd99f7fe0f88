//! `shepard look`: the answer at a location, and the points that it goes by.
use crate::failure::{Outcome, DONE};
use crate::outside::outside;
use crate::source::Input;
use crate::steps::steps;
use crate::words::Words;
use crate::{output, table, text};
use shepard::{Kind, Neighbour, Refusal, Survey};
use std::ffi::OsStr;
use std::os::unix::ffi::OsStrExt;

pub fn run(words: &Words) -> Outcome {
    let (path, x, y) = (words.operand(0)?, words.operand(1)?, words.operand(2)?);
    let number = |word: &OsStr| table::whole(word.as_bytes()).ok_or_else(|| words.misuse(&format!("'{}' is no whole number", text::name(word))));
    let (x, y) = (table::coordinate(number(x)?), table::coordinate(number(y)?));
    let input = Input::read(path)?;
    let report = report(&input.survey()?.survey, x, y).map_err(|refusal| input.refused(refusal))?;
    output::print(report.as_bytes())?;
    Ok(DONE)
}

/// What a lookup finds, as lines.
pub fn report(survey: &Survey, x: u32, y: u32) -> Result<String, Refusal> {
    let (found, neighbours) = survey.lookup_neighbours(x, y)?;
    let (x, y) = (i64::from(x), i64::from(y));
    let mut report = format!("at ({x}, {y}): {} cycles, {} hours\n", 16 * x, 4 * y);
    report += &format!("answer {} steps ({}/256)\n", steps(found.answer.into()), found.answer);
    report += &format!("radius {} steps ({}/256)\n", steps(found.radius.into()), found.radius);
    report += &format!("by {}:\n", text::count(found.count, "point"));
    report += "     x     y     z  distance        kind\n";
    report.extend(neighbours.iter().map(row));
    if outside(&survey.points(), x, y) {
        report += "outside: a straight line parts it from every measured point\n";
    }
    Ok(report)
}

fn row(neighbour: &Neighbour) -> String {
    let Neighbour { x, y, z, distance, kind } = neighbour;
    let kind = match kind {
        Kind::Coincident => "coincident",
        Kind::Inverse => "inverse",
        Kind::Tapered => "tapered",
        Kind::Edge => "edge",
    };
    format!("{x:6}{y:6}{z:6}  {:16}{kind}\n", steps((*distance).into()))
}
