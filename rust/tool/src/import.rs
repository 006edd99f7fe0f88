//! `shepard import`: a survey file from a table.
use crate::failure::{Failure, Outcome};
use crate::source::{self, Input};
use crate::words::Words;
use crate::{output, store, table, text};
use shepard::{Refusal, Survey};
use std::collections::BTreeMap;

/// Bytes of the longest table.
const TABLE_MOST: u64 = 16 << 20;

pub fn run(words: &Words) -> Outcome {
    let (path, out) = (words.operand(0)?, words.out()?);
    let grid = words.grid()?;
    let input = Input::read_most(path, TABLE_MOST + 1)?;
    let mut import = Import::default();
    import.take(readable(&input)?);
    let survey = import.accepted(&input.name, words.has("--skip-bad"))?;
    let out_name = if out == "-" { output::NAME.to_string() } else { text::name(out) };
    if grid.is_some_and(|grid| !source::is_grid(&survey, &grid)) {
        return Err(Failure::refused(&out_name, Refusal::GRID_RULE));
    }
    let front = grid.map_or(Vec::new(), |grid| grid.to_bytes().to_vec());
    store::deliver(out, &[&front, survey.as_file()].concat(), &text::survey_of(survey.count()))
}

/// A table's text behind its byte order mark.
fn readable(input: &Input) -> Result<&[u8], Failure> {
    let refused = |why: &str| Err(Failure::Refused(format!("{}: {why}", input.name)));
    match input.bytes.as_slice() {
        [0xff, 0xfe, ..] | [0xfe, 0xff, ..] => refused("it is UTF-16 text; save it as UTF-8 or ASCII"),
        bytes if bytes.len() as u64 > TABLE_MOST => refused("it is too long for a table"),
        [0xef, 0xbb, 0xbf, rest @ ..] => Ok(rest),
        bytes => Ok(bytes),
    }
}

/// A survey that grows line by line, and which line each of its points came from.
#[derive(Default)]
struct Import {
    survey: Survey,
    lines: BTreeMap<(u32, u32), usize>,
    bad: usize,
}

impl Import {
    /// Adds what the lines hold, and tells the bad ones.
    fn take(&mut self, text: &[u8]) {
        let mut filled = table::lines(text).zip(1..).filter(|(line, _)| !line.is_empty()).peekable();
        filled.next_if(|(line, _)| table::is_header(line));
        for (line, number) in filled {
            if let Err(why) = self.add(line, number) {
                output::tell(&format!("line {number}: {}: {why}", text::shown_line(line)));
                self.bad += 1;
            }
        }
    }

    fn add(&mut self, line: &[u8], number: usize) -> Result<(), String> {
        let row = table::row(line)?;
        let place = (row.x, row.y);
        match self.survey.add(row.x, row.y, row.z) {
            Ok(()) => {
                self.lines.insert(place, number);
                Ok(())
            }
            Err(Refusal::POINT_THERE) => Err(format!("{} (line {})", Refusal::POINT_THERE.text(), self.lines.get(&place).unwrap_or(&0))),
            Err(refusal) => Err(refusal.text().to_string()),
        }
    }

    /// The survey, unless bad lines or the lack of points forbid it.
    fn accepted(self, name: &str, skip_bad: bool) -> Result<Survey, Failure> {
        let bad = text::count(self.bad, "bad line");
        if self.bad > 0 && !skip_bad {
            return Err(Failure::Refused(format!("{name}: {bad}, nothing is written")));
        }
        if self.survey.count() == 0 {
            return Err(Failure::Refused(format!("{name}: it has no points")));
        }
        if self.bad > 0 {
            output::tell(&format!("{name}: {bad} left out"));
        }
        Ok(self.survey)
    }
}
