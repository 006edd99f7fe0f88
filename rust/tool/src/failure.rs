//! Why a command is not done, and the exit statuses.
use crate::output;
use shepard::Refusal;
use std::io;

pub const DONE: u8 = 0;
pub const REFUSED: u8 = 1;
pub const TROUBLE: u8 = 2;

/// The exit status of a command, or why it is not done.
pub type Outcome = Result<u8, Failure>;

/// A message for standard error: of input that is refused, or of wrong usage and failed input or output.
pub enum Failure {
    Refused(String),
    Trouble(String),
}

impl Failure {
    /// A survey file, or a call on it, that the library refuses.
    pub fn refused(name: &str, refusal: Refusal) -> Failure {
        Failure::Refused(format!("{name}: {}", why(refusal)))
    }

    /// A grid file that the library refuses.
    pub fn refused_grid_file(name: &str, refusal: Refusal) -> Failure {
        Failure::Refused(format!("{name}: refused {}: {}", refusal.0, refusal.grid_file_text()))
    }

    /// Input or output that failed.
    pub fn io(name: &str, error: &io::Error) -> Failure {
        Failure::Trouble(format!("{name}: {error}"))
    }

    pub fn message(&self) -> &str {
        match self {
            Failure::Refused(message) | Failure::Trouble(message) => message,
        }
    }

    pub fn status(&self) -> u8 {
        match self {
            Failure::Refused(_) => REFUSED,
            Failure::Trouble(_) => TROUBLE,
        }
    }

    /// Tells it on standard error, and gives the status.
    pub fn tell(&self) -> u8 {
        output::tell(self.message());
        self.status()
    }
}

/// A refusal's number and its text, the rules with that of a grid.
pub fn why(refusal: Refusal) -> String {
    match refusal {
        Refusal::GRID_RULE => format!("{refusal}: steps of at least 1, 1 to 64 columns and rows, the last column and row in the domain"),
        _ => refusal.to_string(),
    }
}
