//! `shepard export`: a survey's points as a table.
use crate::failure::{Outcome, DONE};
use crate::source::Input;
use crate::store;
use crate::words::Words;
use shepard::Survey;
use std::ffi::OsStr;

pub fn run(words: &Words) -> Outcome {
    let survey = Input::read(words.operand(0)?)?.survey()?.survey;
    let text = format!("x,y,z\n{}", lines(&survey));
    store::put(words.value("-o").unwrap_or(OsStr::new("-")), text.as_bytes())?;
    Ok(DONE)
}

/// A line for each point, by x, then y.
pub fn lines(survey: &Survey) -> String {
    survey.points().iter().map(|point| format!("{},{},{}\n", point.x, point.y, point.z)).collect()
}
