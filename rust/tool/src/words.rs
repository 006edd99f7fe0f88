//! The words behind a command: its operands and options, and what is said where they do not fit.
use crate::failure::{Failure, Outcome};
use crate::text;
use shepard::Grid;
use std::ffi::{OsStr, OsString};
use std::os::unix::ffi::OsStrExt;

/// The options that stand alone; every other one has a value.
const FLAGS: [&str; 1] = ["--skip-bad"];

/// A command: how it is called, what its help says, and the function that does it.
pub struct Command {
    pub name: &'static str,
    /// What stands behind the name in the usage line.
    pub takes: &'static str,
    pub operands: &'static [&'static str],
    /// Whether the last operand may stand more than once.
    pub many: bool,
    pub options: &'static [&'static str],
    pub help: &'static str,
    pub run: fn(&Words) -> Outcome,
}

impl Command {
    fn usage(&self) -> String {
        format!("usage: shepard {} {}", self.name, self.takes)
    }

    pub fn full_help(&self) -> String {
        format!("{}\n\n{}", self.usage(), self.help)
    }
}

/// The words behind a command, parted.
pub struct Words {
    command: &'static Command,
    operands: Vec<OsString>,
    options: Vec<(&'static str, OsString)>,
}

impl Words {
    /// The words, or nothing where the help is asked for.
    pub fn read(command: &'static Command, mut given: impl Iterator<Item = OsString>) -> Result<Option<Words>, Failure> {
        let mut words = Words { command, operands: Vec::new(), options: Vec::new() };
        let mut ended = false;
        while let Some(word) = given.next() {
            match word.as_bytes() {
                b"--" if !ended => ended = true,
                b"--help" if !ended => return Ok(None),
                [b'-', second, ..] if !ended && !second.is_ascii_digit() => words.take_option(&word, &mut given)?,
                _ => words.take_operand(word)?,
            }
        }
        Ok(Some(words))
    }

    fn take_operand(&mut self, word: OsString) -> Result<(), Failure> {
        if self.operands.len() >= self.command.operands.len() && !self.command.many {
            return Err(self.misuse(&format!("'{}' is one word too many", text::name(&word))));
        }
        self.operands.push(word);
        Ok(())
    }

    fn take_option(&mut self, word: &OsStr, more: &mut impl Iterator<Item = OsString>) -> Result<(), Failure> {
        let (name, value) = parted(word.as_bytes());
        let known = self.command.options.iter().find(|option| option.as_bytes() == name && (value.is_none() || !FLAGS.contains(option)));
        let Some(&option) = known else { return Err(self.misuse(&format!("no option '{}'", text::name(word)))) };
        if self.has(option) {
            return Err(self.misuse(&format!("'{option}' is given twice")));
        }
        let value = match value {
            Some(value) => Some(OsStr::from_bytes(value).to_os_string()),
            None if FLAGS.contains(&option) => Some(OsString::new()),
            None => more.next(),
        };
        self.options.push((option, value.ok_or_else(|| self.misuse(&format!("'{option}' needs a value")))?));
        Ok(())
    }

    pub fn has(&self, option: &str) -> bool {
        self.value(option).is_some()
    }

    /// The value of an option, where it is given.
    pub fn value(&self, option: &str) -> Option<&OsStr> {
        self.options.iter().find(|(name, _)| *name == option).map(|(_, value)| value.as_os_str())
    }

    pub fn operands(&self) -> &[OsString] {
        &self.operands
    }

    /// The operand at a place, counted from 0.
    pub fn operand(&self, place: usize) -> Result<&OsStr, Failure> {
        let name = self.command.operands.get(place).unwrap_or(&"operand");
        self.operands.get(place).map(OsString::as_os_str).ok_or_else(|| self.misuse(&format!("{name} is missing")))
    }

    /// The value of `-o`, for a command that has to have it.
    pub fn out(&self) -> Result<&OsStr, Failure> {
        self.value("-o").ok_or_else(|| self.misuse("'-o' is missing"))
    }

    /// The value of `--grid`, where it is given.
    pub fn grid(&self) -> Result<Option<Grid>, Failure> {
        let Some(value) = self.value("--grid") else { return Ok(None) };
        match grid(value.as_bytes().split(|&b| b == b',')) {
            Some(grid) => Ok(Some(grid)),
            None => Err(self.misuse(&no_grid(value.as_bytes()))),
        }
    }

    /// A failure with the usage line.
    pub fn misuse(&self, why: &str) -> Failure {
        Failure::Trouble(format!("shepard {}: {why}\n{}", self.command.name, self.command.usage()))
    }
}

/// `--grid=V` as its name and its value; a word with no value is a name.
fn parted(word: &[u8]) -> (&[u8], Option<&[u8]>) {
    match word.iter().position(|&b| b == b'=') {
        Some(at) if word.starts_with(b"--") => (&word[..at], Some(&word[at + 1..])),
        _ => (word, None),
    }
}

/// The grid of six whole numbers without sign.
pub fn grid<'a>(numbers: impl Iterator<Item = &'a [u8]>) -> Option<Grid> {
    let six: Vec<u16> = numbers.map(number).take(7).collect::<Option<_>>()?;
    let [x0, y0, step_x, step_y, columns, rows] = six[..] else { return None };
    Some(Grid { x0, y0, step_x, step_y, columns, rows })
}

/// What is said of six numbers that are no grid's.
pub fn no_grid(given: &[u8]) -> String {
    format!("'{}' is no grid: X0,Y0,SX,SY,C,R, six whole numbers", text::shown(given))
}

fn number(word: &[u8]) -> Option<u16> {
    let digits = str::from_utf8(word).ok().filter(|word| word.bytes().all(|b| b.is_ascii_digit()))?;
    digits.parse().ok()
}

#[cfg(test)]
mod tests {
    use super::*;

    fn six(text: &str) -> Option<Grid> {
        grid(text.as_bytes().split(|&b| b == b','))
    }

    #[test]
    fn a_grid_is_six_numbers() {
        assert_eq!(six("0,1,2,3,65535,007"), Some(Grid { x0: 0, y0: 1, step_x: 2, step_y: 3, columns: 65535, rows: 7 }));
        for text in [
            "",
            "0,0,65,65,64",
            "0,0,65,65,64,64,",
            "0,0,65,65,64,64,1",
            "0,0,65,65,64,65536",
            "0,0,65,65,64,+1",
            "0,0,65,65,64,-1",
            "0,0,65,65,64, 1",
        ] {
            assert_eq!(six(text), None, "{text}");
        }
    }

    #[test]
    fn a_long_option_may_have_its_value_in_one_word() {
        assert_eq!(parted(b"--grid=1=2"), (&b"--grid"[..], Some(&b"1=2"[..])));
        assert_eq!(parted(b"--grid"), (&b"--grid"[..], None));
        assert_eq!(parted(b"-o=x"), (&b"-o=x"[..], None));
    }
}
