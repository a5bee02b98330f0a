//! How a command ends.

use crate::files::shown;
use crate::json::Object;

/// The exit status; of several the highest.
#[derive(Clone, Copy, Debug, PartialEq, Eq, PartialOrd, Ord)]
pub enum Status {
    Done = 0,
    Refused = 1,
    /// The command is not understood, or a file cannot be read or written.
    Failed = 2,
    /// Of several files none could be chosen.
    Nothing = 3,
}

/// Why a command ends before it is done.
#[derive(Debug)]
pub enum Stop {
    /// The command is not understood.
    Usage(String),
    /// A file cannot be read.
    Unread { name: String, words: String },
    /// A file cannot be written, or is not what it should be.
    File(String),
    /// A text or a question is refused, in words for people, and for machines where there is such a form.
    Refused { words: String, json: Option<String> },
    /// Nobody reads the output any more.
    ClosedPipe,
}

impl Stop {
    /// Refused in words alone.
    pub fn refused(words: impl Into<String>) -> Stop {
        Stop::Refused {
            words: words.into(),
            json: None,
        }
    }

    /// The form for machines, and the status that goes with it.
    pub fn json(&self) -> Option<(Status, String)> {
        match self {
            Stop::Refused { json, .. } => Some((Status::Refused, json.clone()?)),
            Stop::Unread { name, words } => Some((Status::Failed, unread(name, words).to_string())),
            _ => None,
        }
    }
}

/// A file that cannot be read, for machines.
pub fn unread(name: &str, words: &str) -> Object {
    Object::new()
        .text("file", name)
        .text("status", "unread")
        .text("error", &format!("{}: {words}", shown(name)))
}

pub fn usage<T>(words: impl Into<String>) -> Result<T, Stop> {
    Err(Stop::Usage(words.into()))
}
