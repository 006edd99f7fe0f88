//! Reading files: their bytes, which kind they are, and the grid of a survey.
use crate::failure::Failure;
use crate::text;
use shepard::{bytes, Grid, GridFile, Refusal, Survey};
use std::ffi::OsStr;
use std::fs::File;
use std::io::{self, Read};
use std::os::fd::AsFd;
use std::rc::Rc;

/// Bytes that are read of a file at most: one more than any accepted file has, so that the library refuses a longer one.
const FILE_MOST: u64 = 65_537;

/// What standard input is called in messages.
pub const STANDARD_INPUT: &str = "standard input";

/// A file's bytes with its name as messages have it.
pub struct Input {
    pub name: String,
    pub bytes: Vec<u8>,
}

impl Input {
    /// A survey file's or a grid file's bytes.
    pub fn read(path: &OsStr) -> Result<Input, Failure> {
        Input::read_most(path, FILE_MOST)
    }

    /// The first bytes of a file, or of standard input where it is called `-`.
    pub fn read_most(path: &OsStr, most: u64) -> Result<Input, Failure> {
        let name = if path == "-" { STANDARD_INPUT.to_string() } else { text::name(path) };
        let opened = if path == "-" { standard_input() } else { File::open(path) };
        let bytes = opened.and_then(|file| front(file, most)).map_err(|error| Failure::io(&name, &error))?;
        Ok(Input { name, bytes })
    }

    /// A survey file's bytes, `-` being a name as others.
    pub fn read_named(path: &OsStr) -> Result<Input, Failure> {
        let name = text::name(path);
        let bytes = named(path).map_err(|error| Failure::io(&name, &error))?;
        Ok(Input { name, bytes })
    }

    pub fn is_grid_file(&self) -> bool {
        self.bytes.ends_with(b"RLG1")
    }

    pub fn grid_file(&self) -> Result<GridFile, Failure> {
        GridFile::read(&self.bytes).map_err(|refusal| Failure::refused_grid_file(&self.name, refusal))
    }

    /// The survey of a file, for a command that takes nothing else.
    pub fn survey(&self) -> Result<SurveyFile, Failure> {
        if self.is_grid_file() {
            return Err(Failure::Refused(format!("{}: it is a grid file, not a survey", self.name)));
        }
        SurveyFile::read(&self.bytes).map_err(|refusal| self.refused(refusal))
    }

    /// The survey of a file, and the grid that it is worked out over.
    pub fn survey_and_grid(&self, given: Option<Grid>) -> Result<(Survey, Grid), Failure> {
        let file = self.either_as_survey()?;
        let grid = self.chosen_grid(&file, given)?;
        Ok((file.survey, grid))
    }

    /// The grid that is given, or else the survey's own.
    pub fn chosen_grid(&self, file: &SurveyFile, given: Option<Grid>) -> Result<Grid, Failure> {
        match given {
            Some(grid) => Ok(grid),
            None => file.own_grid().map_err(|why| Failure::Refused(format!("{}: {why}; give --grid X0,Y0,SX,SY,C,R", self.name))),
        }
    }

    /// The survey of a file that is no grid file, for a command that takes either.
    pub fn either_as_survey(&self) -> Result<SurveyFile, Failure> {
        SurveyFile::read(&self.bytes).map_err(|refusal| match refusal {
            Refusal::FILE_MAGIC => Failure::Refused(format!("{}: refused 10: its last four bytes are neither RLS1 nor RLG1", self.name)),
            _ => self.refused(refusal),
        })
    }

    pub fn refused(&self, refusal: Refusal) -> Failure {
        Failure::refused(&self.name, refusal)
    }
}

/// Why a survey file has no grid of its own, by the number of the grid programs.
const NO_GRID: &str = "refused 7: fewer than 12 bytes stand before its first record";
const BROKEN_GRID: &str = "refused 7: its first 12 bytes are a grid that breaks a rule";

/// A copy of standard input: the standard library's own handle takes a descriptor that cannot be read for an empty file.
pub fn standard_input() -> io::Result<File> {
    io::stdin().as_fd().try_clone_to_owned().map(File::from)
}

/// The bytes of the file of a name, as many as a survey or a grid file can have, and one more.
pub fn named(path: &OsStr) -> io::Result<Vec<u8>> {
    front(File::open(path)?, FILE_MOST)
}

fn front(file: File, most: u64) -> io::Result<Vec<u8>> {
    let mut bytes = Vec::new();
    file.take(most).read_to_end(&mut bytes)?;
    Ok(bytes)
}

/// A survey file: what stands before its records, shared since an edit keeps every earlier state, and its points.
#[derive(Clone)]
pub struct SurveyFile {
    pub front: Rc<[u8]>,
    pub survey: Survey,
}

impl SurveyFile {
    pub fn read(file: &[u8]) -> Result<SurveyFile, Refusal> {
        let survey = Survey::from_file(file)?;
        let front = file.len().saturating_sub(survey.as_file().len());
        Ok(SurveyFile { front: file.iter().copied().take(front).collect(), survey })
    }

    pub fn bytes(&self) -> Vec<u8> {
        [&self.front, self.survey.as_file()].concat()
    }

    /// The grid of its first twelve bytes, or why it has none.
    pub fn own_grid(&self) -> Result<Grid, &'static str> {
        let grid = self.front.first_chunk().map(Grid::from_bytes).ok_or(NO_GRID)?;
        if is_grid(&self.survey, &grid) {
            Ok(grid)
        } else {
            Err(BROKEN_GRID)
        }
    }
}

/// Whether the library accepts a grid: with no byte lent it refuses one that keeps the rules too, but for another reason.
pub fn is_grid(survey: &Survey, grid: &Grid) -> bool {
    bytes::grid_file(survey.as_file(), grid, &mut []) != Err(Refusal::GRID_RULE)
}
