//! A refused text: one line as compilers print it, the line of the text, and what was expected there.

use crate::diagnosis::{diagnose, show};
use crate::files::shown;
use crate::json::{array, string, Object};
use crate::output::Style;
use crate::status::{Status, Stop};
use ionex::{MapSet, Refusal};

/// For people, without the last line end.
pub fn words(name: &str, text: &[u8], refusal: &Refusal, style: Style) -> String {
    let (number, line, column) = place(refusal);
    let diagnosis = diagnose(text, number, line, column);
    let place = style.bold(&format!("{}:{line}:{column}:", shown(name)));
    let refused = style.red(&format!("refused {number}:"));
    let below = show(text, &diagnosis, style);
    format!("{place} {refused} {}\n{below}", refusal.meaning())
}

/// For machines.
pub fn json(name: &str, text: &[u8], refusal: &Refusal) -> Object {
    let (number, line, column) = place(refusal);
    let diagnosis = diagnose(text, number, line, column);
    Object::new()
        .text("file", name)
        .text("status", "refused")
        .raw("number", number)
        .raw("line", line)
        .raw("column", column)
        .text("reason", refusal.meaning())
        .text("expected", &diagnosis.expected)
        .raw(
            "hints",
            array(diagnosis.hints.iter().map(|hint| string(hint))),
        )
}

fn place(refusal: &Refusal) -> (u64, u64, u64) {
    let [line, column] = [refusal.line(), refusal.column()].map(|part| part.unwrap_or(0));
    (refusal.number(), line, column)
}

/// A map set, or its refusal.
pub fn read(name: &str, text: &[u8]) -> Result<MapSet, Stop> {
    MapSet::read(text).map_err(|refusal| text_stop(name, text, &refusal))
}

/// A refused text, for people and for machines.
pub fn text_stop(name: &str, text: &[u8], refusal: &Refusal) -> Stop {
    Stop::Refused {
        words: words(name, text, refusal, Style::of_errors()),
        json: Some(json(name, text, refusal).to_string()),
    }
}

/// What is printed of a refused question: behind what was asked for machines, else for people.
pub fn question(asked: Option<Object>, number: u64, reason: &str) -> (Status, String) {
    let words = match asked {
        Some(asked) => asked
            .raw("refused", number)
            .text("reason", reason)
            .to_string(),
        None => format!("refused {number}: {reason}"),
    };
    (Status::Refused, words)
}
