//! `shepard edit`: a survey file changed by lines from standard input.
mod history;
mod lines;
mod order;
mod session;

use crate::failure::Outcome;
use crate::words::Words;
use session::Session;

pub fn run(words: &Words) -> Outcome {
    let file = words.operand(0)?;
    if file == "-" {
        return Err(words.misuse("'-' is no file to edit: the lines come from standard input"));
    }
    let mut session = Session::open(file)?;
    while session.turn()? {}
    Ok(session.status())
}
