//! Standard output and standard error.
use crate::failure::Failure;
use std::fs::File;
use std::io::{self, Write};
use std::os::fd::AsFd;

/// What standard output is called in messages.
pub const NAME: &str = "standard output";

/// Writes to standard output at once. The standard library's own handle passes over a descriptor that cannot be written to, so a copy is used.
pub fn print(bytes: &[u8]) -> Result<(), Failure> {
    let written = io::stdout().as_fd().try_clone_to_owned().and_then(|copy| File::from(copy).write_all(bytes));
    written.map_err(|error| Failure::io(NAME, &error))
}

/// Writes a line to standard error; where that fails there is no place left to say so.
pub fn tell(line: &str) {
    let _ = io::stderr().write_all(format!("{line}\n").as_bytes());
}
