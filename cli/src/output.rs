//! Standard output and error.

use crate::files;
use crate::status::{Status, Stop};
use std::env;
use std::io::{self, BufWriter, ErrorKind, IsTerminal, StdoutLock, Write};

/// Standard output. Its colours are those of a terminal, and none elsewhere.
pub struct Output {
    to: BufWriter<StdoutLock<'static>>,
    pub style: Style,
    /// The status of what was done so far, which stands when nobody reads on.
    pub reached: Status,
}

impl Output {
    pub fn new() -> Output {
        Output {
            to: BufWriter::with_capacity(1 << 16, io::stdout().lock()),
            style: Style::of(io::stdout().is_terminal()),
            reached: Status::Done,
        }
    }

    pub fn put(&mut self, bytes: impl AsRef<[u8]>) -> Result<(), Stop> {
        self.to.write_all(bytes.as_ref()).map_err(stop)
    }

    pub fn line(&mut self, line: &str) -> Result<(), Stop> {
        self.put(line)?;
        self.put("\n")
    }

    pub fn flush(&mut self) -> Result<(), Stop> {
        self.to.flush().map_err(stop)
    }
}

impl Default for Output {
    fn default() -> Self {
        Output::new()
    }
}

fn stop(fault: io::Error) -> Stop {
    match fault.kind() {
        ErrorKind::BrokenPipe => Stop::ClosedPipe,
        _ => Stop::File(format!(
            "standard output: not written: {}",
            files::words(&fault)
        )),
    }
}

/// A message beside the output. Where standard error is closed too there is nobody left to tell.
pub fn tell(words: &str) {
    let _ = io::stderr().write_all(format!("{words}\n").as_bytes());
}

/// Colours, or none.
#[derive(Clone, Copy, Debug, PartialEq, Eq)]
pub struct Style {
    colours: bool,
}

impl Style {
    pub const PLAIN: Style = Style { colours: false };

    fn of(terminal: bool) -> Style {
        let refused = env::var_os("NO_COLOR").is_some_and(|word| !word.is_empty());
        let dumb = env::var_os("TERM").is_none_or(|word| word == "dumb");
        Style {
            colours: terminal && !refused && !dumb,
        }
    }

    /// The colours of standard error.
    pub fn of_errors() -> Style {
        Style::of(io::stderr().is_terminal())
    }

    pub fn bold(self, words: &str) -> String {
        self.paint("1", words)
    }

    pub fn red(self, words: &str) -> String {
        self.paint("1;31", words)
    }

    pub fn green(self, words: &str) -> String {
        self.paint("1;32", words)
    }

    fn paint(self, code: &str, words: &str) -> String {
        if self.colours {
            format!("\x1b[{code}m{words}\x1b[0m")
        } else {
            words.to_string()
        }
    }
}
