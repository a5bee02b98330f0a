//! A refusal in words: what was expected at its place, and what people who met it did.

mod biases;
mod disagreements;
mod fields;
mod hints;
mod labels;
mod missing;
mod records;
mod show;
mod state;

pub use labels::distance;
pub use records::label_of;
pub use show::show;
pub use state::{kind_of, KINDS};

use crate::text::{self, Card};
use records::Record;
use state::{Stage, State};

/// What is told of a refused text beside its number, line and column.
pub struct Diagnosis {
    pub expected: String,
    pub hints: Vec<String>,
    /// The line that is shown, the first column of its mark and the mark's width.
    pub mark: Option<Mark>,
}

#[derive(Clone, Copy, Debug, PartialEq, Eq)]
pub struct Mark {
    pub line: u64,
    pub column: usize,
    pub width: usize,
}

/// A refused place with the line it lies on and what stands before it.
struct Place<'a> {
    text: &'a [u8],
    number: u64,
    line: u64,
    column: usize,
    bytes: &'a [u8],
    card: Card,
    record: Option<&'static Record>,
    state: State,
}

impl Place<'_> {
    fn label(&self) -> &'static str {
        self.record.map_or("", |record| record.label)
    }

    /// What columns of the line hold, for the reader of a message.
    fn found(&self, first: usize, width: usize) -> String {
        match text::columns(&self.card, first, width) {
            words if words.is_empty() => "blanks".to_string(),
            words => format!("`{words}`"),
        }
    }
}

/// Explains refusal `number`, 1 to 10, of a text at a line and column.
pub fn diagnose(text: &[u8], number: u64, line: u64, column: u64) -> Diagnosis {
    let bytes = text::line(text, line).unwrap_or(b"");
    let card = text::card(bytes);
    let state = State::before(text, line);
    let record = match state.stage {
        Stage::Aux => records::bias_record_of(&card),
        _ => records::record_of(&card),
    };
    let place = Place {
        text,
        number,
        line,
        column: usize::try_from(column).unwrap_or(0),
        bytes,
        card,
        record,
        state,
    };
    Diagnosis {
        expected: expected(&place),
        hints: hints::hints(&place),
        mark: mark(&place),
    }
}

/// Whether a text that ends before END OF FILE lacks nothing else: every kind of map that was begun has come to its last map.
pub fn ended(text: &[u8]) -> bool {
    let state = State::before(text, u64::MAX);
    state.tec_maps_stand() && state.broken_off().is_none()
}

fn expected(place: &Place) -> String {
    match place.number {
        1 => format!("at most 80 columns, found {}", place.bytes.len()),
        2 => byte(place),
        3 => labels::version(place),
        4 => labels::unknown(place),
        5 if place.state.stage == Stage::Aux => biases::twice(place),
        5 => labels::misplaced(place),
        6 => fields::ill_formed(place),
        7 => fields::out_of_range(place),
        8 => disagreements::disagreement(place),
        9 => missing::missing(place),
        10 => missing::cut_short(place),
        _ => String::new(),
    }
}

fn byte(place: &Place) -> String {
    let byte = place.bytes.get(place.column.wrapping_sub(1));
    let name = match byte {
        Some(b'\t') => " (a tab)",
        Some(b'\r') => " (CR)",
        Some(0) => " (NUL)",
        Some(128..) => " (no ASCII)",
        _ => "",
    };
    let byte = byte.copied().unwrap_or(0);
    format!("a printable ASCII byte, 32 to 126, found {byte}{name}")
}

/// The line shown is the refused one, or the last where the text ends too soon.
fn mark(place: &Place) -> Option<Mark> {
    if place.number == 10 {
        let (line, bytes) = text::last_line(place.text)?;
        return Some(Mark {
            line,
            column: bytes.len().min(80) + 1,
            width: 1,
        });
    }
    let (column, width) = marked(place);
    Some(Mark {
        line: place.line,
        column,
        width,
    })
}

/// The field that a column lies in, the label, or that one column; for column 0 all that the rule is about.
fn marked(place: &Place) -> (usize, usize) {
    let of_label = (61, text::columns(&place.card, 61, 20).len().max(1));
    let all_fields = || place.record.and_then(Record::span).unwrap_or(of_label);
    match (place.number, place.column) {
        (6, column) if missing::values_due(&place.state) > 0 => {
            (column, fields::value_width(place))
        }
        (7, 0) => all_fields(),
        (8, 1) if place.label() == "EPOCH OF CURRENT MAP" => all_fields(),
        (_, 0) | (3..=5, 61) => of_label,
        (3 | 6..=8, column) => match place.record.and_then(|record| record.field_at(column)) {
            Some(field) if field.column == column => (column, field.width),
            _ => (column, 1),
        },
        (_, column) => (column, 1),
    }
}
