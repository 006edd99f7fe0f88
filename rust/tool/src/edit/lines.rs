//! Lines of standard input, one at a time.
use crate::failure::Failure;
use crate::source::{self, STANDARD_INPUT};
use std::fs::File;
use std::io::{BufRead, BufReader, Read};

/// Bytes of the longest line, its end among them; input that never ends a line is not read forever.
const LINE_MOST: usize = 65_536;

pub struct Lines {
    input: BufReader<File>,
    number: usize,
}

impl Lines {
    pub fn new() -> Result<Lines, Failure> {
        let input = source::standard_input().map_err(|error| Failure::io(STANDARD_INPUT, &error))?;
        Ok(Lines { input: BufReader::new(input), number: 0 })
    }

    /// The number of the line that was read last, counted from 1.
    pub fn number(&self) -> usize {
        self.number
    }

    /// The next line with its end, or nothing at the end of input.
    pub fn next(&mut self) -> Result<Option<Vec<u8>>, Failure> {
        let mut line = Vec::new();
        let read = self.input.by_ref().take(LINE_MOST as u64 + 1).read_until(b'\n', &mut line);
        read.map_err(|error| Failure::io(STANDARD_INPUT, &error))?;
        self.number += 1;
        if line.len() > LINE_MOST {
            return Err(Failure::Trouble(format!("{STANDARD_INPUT}: line {} is too long", self.number)));
        }
        Ok(Some(line).filter(|line| !line.is_empty()))
    }
}
