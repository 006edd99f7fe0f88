//! A run of `shepard edit`: its lines are done one by one, in a script or on a terminal.
use super::history::History;
use super::lines::Lines;
use super::order::{order, Order};
use crate::failure::{self, Failure, DONE, REFUSED};
use crate::source::{self, Input, SurveyFile};
use crate::{export, grid, look, output, store, table, text};
use shepard::{bytes, Grid, Refusal, Survey};
use std::ffi::{OsStr, OsString};
use std::fs;
use std::io::{self, IsTerminal};

const HELP: &str = include_str!("../help/edit_lines.txt");
const DONE_LINE: &str = "ok\n";

pub struct Session {
    file: OsString,
    history: History,
    lines: Lines,
    terminal: bool,
    status: u8,
}

impl Session {
    pub fn open(file: &OsStr) -> Result<Session, Failure> {
        let terminal = io::stdin().is_terminal() && io::stdout().is_terminal();
        let history = History::new(opened(file)?);
        Ok(Session { file: file.to_os_string(), history, lines: Lines::new()?, terminal, status: DONE })
    }

    pub fn status(&self) -> u8 {
        self.status
    }

    /// Does one line; false at the end.
    pub fn turn(&mut self) -> Result<bool, Failure> {
        if self.terminal {
            output::print(b"> ")?;
        }
        let Some(line) = self.lines.next()? else { return self.leave() };
        let line = table::without_end(&line).trim_ascii();
        if line.is_empty() || line.starts_with(b"#") {
            return Ok(true);
        }
        let order = order(line);
        if order == Ok(Order::Quit) {
            return self.leave();
        }
        match order.map_err(Failure::Refused).and_then(|order| self.answer(order)) {
            Ok(answer) => output::print(answer.as_bytes())?,
            Err(failure) => self.tell(line, &failure),
        }
        Ok(true)
    }

    /// Says why a line is not done.
    fn tell(&mut self, line: &[u8], failure: &Failure) {
        if self.terminal {
            output::tell(failure.message());
            return;
        }
        output::tell(&format!("line {}: {}: {}", self.lines.number(), text::shown_line(line), failure.message()));
        self.status = self.status.max(failure.status());
    }

    fn answer(&mut self, order: Order) -> Result<String, Failure> {
        let now = self.history.now();
        match order {
            Order::Add(x, y, z) => self.edit(|survey| survey.add(x, y, z)),
            Order::Change(x, y, z) => self.edit(|survey| survey.change(x, y, z)),
            Order::Drop(x, y) => self.edit(|survey| survey.drop_point(x, y)),
            Order::Clear => self.take(SurveyFile { survey: Survey::new(), ..now.clone() }),
            Order::Load(path) => self.take(SurveyFile { survey: Input::read_named(path)?.survey()?.survey, ..now.clone() }),
            Order::Look(x, y) => look::report(&now.survey, x, y).map_err(refused),
            Order::List => Ok(export::lines(&now.survey)),
            Order::ShowGrid => cells(now),
            Order::SetGrid(grid) => self.take(with_grid(now, &grid)?),
            Order::Undo => self.undo(),
            Order::Write(path) => self.write(path),
            Order::Help => Ok(HELP.to_string()),
            Order::Quit => Ok(String::new()),
        }
    }

    fn edit(&mut self, edit: impl FnOnce(&mut Survey) -> Result<(), Refusal>) -> Result<String, Failure> {
        let mut next = self.history.now().clone();
        edit(&mut next.survey).map_err(refused)?;
        self.take(next)
    }

    /// Makes a change, unless the library would refuse the file that it gives: one that is too long.
    fn take(&mut self, next: SurveyFile) -> Result<String, Failure> {
        bytes::check(&next.bytes()).map_err(|refusal| match refusal {
            Refusal::FILE_LENGTH => Failure::Refused("refused 9: the file would have over 65,536 bytes".to_string()),
            _ => refused(refusal),
        })?;
        self.history.change(next);
        Ok(DONE_LINE.to_string())
    }

    fn undo(&mut self) -> Result<String, Failure> {
        if self.history.undo() {
            Ok(DONE_LINE.to_string())
        } else {
            Err(Failure::Refused("nothing to undo".to_string()))
        }
    }

    fn write(&mut self, path: Option<&OsStr>) -> Result<String, Failure> {
        let path = path.unwrap_or(&self.file);
        let now = self.history.now();
        store::write(path, &now.bytes())?;
        let answer = format!("{}: {}\n", text::name(path), text::survey_of(now.survey.count()));
        if is_same_file(path, &self.file) {
            self.history.mark_written();
        }
        Ok(answer)
    }

    /// Ends the run, unless somebody at a terminal wants to go on: whether to take another turn.
    fn leave(&mut self) -> Result<bool, Failure> {
        let (unwritten, them) = match self.history.unwritten() {
            0 => return Ok(false),
            1 => ("1 change is not written".to_string(), "it"),
            n => (format!("{n} changes are not written"), "them"),
        };
        if self.terminal {
            return self.ask(&format!("{unwritten}. Write {them}? (yes, no, or anything else to go on) "));
        }
        output::tell(&format!("{}: {unwritten}", text::name(&self.file)));
        self.status = self.status.max(REFUSED);
        Ok(false)
    }

    fn ask(&mut self, question: &str) -> Result<bool, Failure> {
        output::print(question.as_bytes())?;
        let answer = self.lines.next()?;
        match answer.as_deref().map(<[u8]>::trim_ascii) {
            None | Some(b"no" | b"n") => Ok(false),
            Some(b"yes" | b"y") => self.write_and_leave(),
            Some(_) => Ok(true),
        }
    }

    /// Ends the run where the file can be written.
    fn write_and_leave(&mut self) -> Result<bool, Failure> {
        match self.write(None) {
            Ok(answer) => output::print(answer.as_bytes()).map(|()| false),
            Err(failure) => {
                output::tell(failure.message());
                Ok(true)
            }
        }
    }
}

/// The survey of a file, or a fresh one where there is no such file.
fn opened(file: &OsStr) -> Result<SurveyFile, Failure> {
    let name = text::name(file);
    match source::named(file) {
        Ok(bytes) => Input { name, bytes }.survey(),
        Err(error) if error.kind() == io::ErrorKind::NotFound && store::has_folder(file) => {
            output::tell(&format!("{name}: a new survey"));
            Ok(SurveyFile { front: [].into(), survey: Survey::new() })
        }
        Err(error) => Err(Failure::io(&name, &error)),
    }
}

/// A refusal in a line, which has no file to name.
fn refused(refusal: Refusal) -> Failure {
    Failure::Refused(failure::why(refusal))
}

/// The cells over the file's own grid.
fn cells(file: &SurveyFile) -> Result<String, Failure> {
    let grid = file.own_grid().map_err(|why| Failure::Refused(format!("{why}; give grid X0,Y0,SX,SY,C,R")))?;
    grid::csv_of(&file.survey, &grid).map_err(refused)
}

/// The file with another grid in front: in place of the one that is there, or before what is there.
fn with_grid(file: &SurveyFile, grid: &Grid) -> Result<SurveyFile, Failure> {
    if !source::is_grid(&file.survey, grid) {
        return Err(refused(Refusal::GRID_RULE));
    }
    let kept = file.front.iter().skip(if file.own_grid().is_ok() { 12 } else { 0 });
    Ok(SurveyFile { front: grid.to_bytes().iter().chain(kept).copied().collect(), survey: file.survey.clone() })
}

/// Whether two names are of one file, which exists.
fn is_same_file(one: &OsStr, other: &OsStr) -> bool {
    one == other || fs::canonicalize(one).is_ok_and(|one| fs::canonicalize(other).is_ok_and(|other| one == other))
}
