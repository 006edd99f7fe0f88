//! The command `shepard`: finds the command that is asked for, does it, and ends with its status.
mod check;
mod commands;
mod diff;
mod edit;
mod export;
mod failure;
mod grid;
mod import;
mod look;
mod output;
mod outside;
mod picture;
mod source;
mod steps;
mod store;
mod svg;
mod table;
mod text;
mod words;

use failure::{Failure, Outcome, DONE};
use std::env;
use std::ffi::OsString;
use std::os::unix::ffi::OsStrExt;
use std::process::ExitCode;
use words::Words;

fn main() -> ExitCode {
    ExitCode::from(run(env::args_os().skip(1)).unwrap_or_else(|failure| failure.tell()))
}

fn run(mut given: impl Iterator<Item = OsString>) -> Outcome {
    let Some(first) = given.next() else { return Err(misuse("no command")) };
    let found = commands::ALL.iter().find(|command| first == command.name);
    match found {
        Some(command) => match Words::read(command, given)? {
            Some(words) => (command.run)(&words),
            None => answer(&command.full_help()),
        },
        None => alone(&first, given.next()),
    }
}

/// What is asked for without a command.
fn alone(first: &OsString, more: Option<OsString>) -> Outcome {
    let text = match first.as_bytes() {
        b"--help" => include_str!("help/shepard.txt"),
        b"--version" => concat!("shepard ", env!("CARGO_PKG_VERSION"), "\n"),
        [b'-', _, ..] => return Err(misuse(&format!("no option '{}'", text::name(first)))),
        _ => return Err(misuse(&format!("no command '{}'", text::name(first)))),
    };
    match more {
        Some(word) => Err(misuse(&format!("'{}' is one word too many", text::name(&word)))),
        None => answer(text),
    }
}

fn answer(text: &str) -> Outcome {
    output::print(text.as_bytes())?;
    Ok(DONE)
}

fn misuse(why: &str) -> Failure {
    Failure::Trouble(format!("shepard: {why}\nusage: shepard COMMAND ..., or shepard --help"))
}
