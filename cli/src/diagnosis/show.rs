//! A refused place as compilers print it: the line, a mark under the column, and words.

use super::Diagnosis;
use crate::output::Style;
use crate::text;
use std::fmt::Write;

/// More of a line is not shown: 80 columns and a few of what is too much.
const SHOWN: usize = 100;

/// The lines below `FILE:LINE:COLUMN: refused …`, without the last line end.
pub fn show(text: &[u8], diagnosis: &Diagnosis, style: Style) -> String {
    let mut out = String::new();
    let mut margin = 4;
    if let Some(mark) = diagnosis.mark {
        let number = mark.line.to_string();
        margin = number.len().max(4);
        let line = shown(text::line(text, mark.line).unwrap_or(b""));
        let blanks = " ".repeat(mark.column - 1);
        let tail = "~".repeat(mark.width.saturating_sub(1));
        let _ = writeln!(out, " {number:>margin$} | {line}");
        let mark = style.green(&format!("^{tail}"));
        let _ = writeln!(out, " {:margin$} | {blanks}{mark}", "");
    }
    let _ = write!(out, " {:margin$} = expected {}", "", diagnosis.expected);
    for hint in &diagnosis.hints {
        let _ = write!(out, "\n {:margin$} = hint: {hint}", "");
    }
    out
}

/// A line with one character for each byte; bytes that cannot be printed are shown as `?`.
fn shown(line: &[u8]) -> String {
    let printable = |&byte: &u8| match byte {
        32..=126 => char::from(byte),
        _ => '?',
    };
    let mut words: String = line.iter().take(SHOWN).map(printable).collect();
    words.truncate(words.trim_end().len());
    if line.len() > SHOWN {
        words.push_str(" ...");
    }
    words
}
