//! What people write, read strictly: a word that is not understood is an error, and nothing is rounded.

use std::fmt;

/// A word that is no place, or no time.
#[derive(Clone, Debug, PartialEq, Eq)]
pub struct ParseError {
    found: String,
    expected: &'static str,
}

impl ParseError {
    pub(crate) fn new(found: &str, expected: &'static str) -> ParseError {
        ParseError {
            found: found.to_string(),
            expected,
        }
    }

    /// What should have stood there.
    pub fn expected(&self) -> &'static str {
        self.expected
    }
}

impl fmt::Display for ParseError {
    fn fmt(&self, f: &mut fmt::Formatter) -> fmt::Result {
        write!(f, "{:?}: expected {}", self.found, self.expected)
    }
}

impl std::error::Error for ParseError {}

/// The number of a word of digits alone.
pub(crate) fn digits(word: &str) -> Option<u64> {
    let right = !word.is_empty() && word.bytes().all(|byte| byte.is_ascii_digit());
    if right {
        word.parse().ok()
    } else {
        None
    }
}
