//! A line that tells how far a long run is, for people at a terminal.

use std::io::{self, IsTerminal, Write};
use std::time::{Duration, Instant};

/// Shorter runs show nothing, and no line is changed more often than a few times a second.
const FIRST: Duration = Duration::from_secs(1);
const AGAIN: Duration = Duration::from_millis(250);

pub struct Progress {
    /// What stands behind the count.
    words: String,
    /// The clock is looked at after so many only.
    every: u64,
    /// Nobody looks: the output goes to the terminal too, or there is none.
    hidden: bool,
    count: u64,
    next: Instant,
    shown: bool,
}

impl Progress {
    pub fn new(words: impl Into<String>, every: u64) -> Progress {
        Progress {
            words: words.into(),
            every,
            hidden: !io::stderr().is_terminal() || io::stdout().is_terminal(),
            count: 0,
            next: Instant::now() + FIRST,
            shown: false,
        }
    }

    /// One more is done.
    pub fn step(&mut self) {
        self.count += 1;
        if self.hidden || !self.count.is_multiple_of(self.every) || Instant::now() < self.next {
            return;
        }
        self.next = Instant::now() + AGAIN;
        self.shown = true;
        let _ = write!(io::stderr(), "\r{} {}", self.count, self.words);
    }
}

/// Takes the line away, however the run ends.
impl Drop for Progress {
    fn drop(&mut self) {
        if self.shown {
            let _ = write!(io::stderr(), "\r\x1b[K");
        }
    }
}
