//! The reasons to refuse, with what comes back beside each number.

use std::fmt;

/// A refusal as it is handed to the caller.
#[derive(Clone, Copy, Debug, PartialEq, Eq)]
pub enum Refusal {
    /// 1 to 10: a place in the text. Column 0 means the line as a whole.
    Place { number: u8, line: u64, column: u64 },
    /// 11: the first area that is too short, 1 to 6, and the elements needed.
    Area { area: u8, need: u64 },
    /// 30: the output is too short.
    Output { need: u64 },
    /// 20 to 23, 31, and 7 "with no place" for a moved epoch.
    Bare { number: u8 },
}

impl Refusal {
    pub fn number(&self) -> u8 {
        match *self {
            Refusal::Place { number, .. } => number,
            Refusal::Area { .. } => 11,
            Refusal::Output { .. } => 30,
            Refusal::Bare { number } => number,
        }
    }
}

/// The one line of the program, without its LF.
impl fmt::Display for Refusal {
    fn fmt(&self, f: &mut fmt::Formatter) -> fmt::Result {
        match *self {
            Refusal::Place {
                number,
                line,
                column,
            } => write!(f, "refused {number} line {line} column {column}"),
            Refusal::Area { area, need } => write!(f, "refused 11 area {area} needs {need}"),
            Refusal::Output { need } => write!(f, "refused 30 needs {need}"),
            Refusal::Bare { number } => write!(f, "refused {number}"),
        }
    }
}

/// A refusal inside one line; the reader adds the line's number.
#[derive(Clone, Copy, Debug, PartialEq, Eq)]
pub struct Fault {
    pub number: u8,
    pub column: u64,
}

/// A fault as an error, to be handed up with `?`.
pub fn fault<T>(number: u8, column: u64) -> Result<T, Fault> {
    Err(Fault { number, column })
}
