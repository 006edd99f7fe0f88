//! Read-level maps by Shepard's interpolation, over the proved static library.
//!
//! `Survey` owns its points; `bytes` has the library's functions on slices, whose state is a survey file's bytes.
//! x is the wear in steps of 16 program/erase cycles and y the rest in steps of 4 hours, both 0 to 4,095; z is the shift in register steps, -128 to 127.
//! Answers, distances and radii count 256ths of a step.
//!
//! ```
//! use shepard::{Grid, Survey};
//! let mut survey = Survey::new();
//! survey.add(3, 0, 0)?;
//! survey.add(6, 0, 90)?;
//! assert_eq!(survey.lookup(0, 0)?.answer, 4608);
//! let grid = Grid { x0: 0, y0: 0, step_x: 1, step_y: 1, columns: 2, rows: 1 };
//! assert_eq!(survey.grid(&grid)?, [4608, 3178]);
//! assert!(survey.esri(&grid)?.ends_with("\n18.00000000 12.41406250\n"));
//! # Ok::<(), shepard::Refusal>(())
//! ```
pub mod bytes;
mod grid;
mod survey;
mod sys;

pub use grid::{Grid, GridFile};
pub use survey::Survey;

/// Why a call is refused, by the method's number.
#[derive(Clone, Copy, Debug, PartialEq, Eq)]
pub struct Refusal(pub u8);

impl Refusal {
    pub const OFF_DOMAIN: Refusal = Refusal(1);
    pub const OUT_OF_RANGE: Refusal = Refusal(2);
    pub const POINT_THERE: Refusal = Refusal(3);
    pub const NO_POINT_THERE: Refusal = Refusal(4);
    pub const FULL: Refusal = Refusal(5);
    pub const EMPTY: Refusal = Refusal(6);
    pub const GRID_RULE: Refusal = Refusal(7);
    pub const TOO_SHORT: Refusal = Refusal(8);
    pub const FILE_LENGTH: Refusal = Refusal(9);
    pub const FILE_MAGIC: Refusal = Refusal(10);
    pub const FILE_COUNT: Refusal = Refusal(11);
    pub const FILE_BACK: Refusal = Refusal(12);
    pub const FILE_SUM: Refusal = Refusal(13);
    pub const RECORD_DOMAIN: Refusal = Refusal(14);
    pub const RECORD_ORDER: Refusal = Refusal(15);
    pub const STEPS_DIFFER: Refusal = Refusal(16);

    /// Why, in words; 9 to 15 of a survey file.
    pub fn text(self) -> &'static str {
        match self {
            Refusal::OFF_DOMAIN => "the location is off the domain",
            Refusal::OUT_OF_RANGE => "the value is out of range",
            Refusal::POINT_THERE => "a point is there already",
            Refusal::NO_POINT_THERE => "no point is there",
            Refusal::FULL => "256 points are present",
            Refusal::EMPTY => "no point is present",
            Refusal::GRID_RULE => "the grid breaks a rule",
            Refusal::TOO_SHORT => "what is lent is too short",
            Refusal::FILE_LENGTH => "it has under 12 or over 65,536 bytes",
            Refusal::FILE_MAGIC => "its last four bytes are not RLS1",
            Refusal::FILE_COUNT => "its count is above 256",
            Refusal::FILE_BACK => "its back distance does not fit",
            Refusal::FILE_SUM => "the sum of its record bytes differs",
            Refusal::RECORD_DOMAIN => "a record is off the domain",
            Refusal::RECORD_ORDER => "a record is not after the one before",
            Refusal::STEPS_DIFFER => "the two steps of an Esri ASCII grid differ",
            _ => "no such refusal",
        }
    }

    /// Why a grid file is refused, in words.
    pub fn grid_file_text(self) -> &'static str {
        match self {
            Refusal::GRID_RULE => "its grid breaks a rule",
            Refusal::FILE_LENGTH => "no grid file has its length",
            Refusal::FILE_MAGIC => "its last four bytes are not RLG1",
            Refusal::FILE_BACK => "its back distance or its length does not go with its six numbers",
            _ => self.text(),
        }
    }
}

impl std::fmt::Display for Refusal {
    fn fmt(&self, f: &mut std::fmt::Formatter<'_>) -> std::fmt::Result {
        write!(f, "refused {}: {}", self.0, self.text())
    }
}

impl std::error::Error for Refusal {}

/// What a lookup finds: the answer, the count of chosen points and the radius R.
#[derive(Clone, Copy, Debug, PartialEq, Eq)]
pub struct Found {
    pub answer: i16,
    pub count: usize,
    pub radius: u32,
}

/// How a chosen point bears on the mean.
#[derive(Clone, Copy, Debug, PartialEq, Eq)]
pub enum Kind {
    Coincident,
    Inverse,
    Tapered,
    Edge,
}

/// A measured point.
#[derive(Clone, Copy, Debug, PartialEq, Eq)]
pub struct Point {
    pub x: u16,
    pub y: u16,
    pub z: i8,
}

/// A chosen point.
#[derive(Clone, Copy, Debug, PartialEq, Eq)]
pub struct Neighbour {
    pub x: u16,
    pub y: u16,
    pub z: i8,
    pub distance: u32,
    pub kind: Kind,
}
