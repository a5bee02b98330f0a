//! Refusals 6 and 7: fields that are ill-formed, and values that are not accepted.

use super::missing::{more_values, row_name, values_due};
use super::records::{Field, Form};
use super::Place;
use crate::text;

pub fn ill_formed(place: &Place) -> String {
    if values_due(&place.state) > 0 {
        return value(place);
    }
    let Some(record) = place.record else {
        return String::new();
    };
    match record.field_at(place.column) {
        Some(field) => format!(
            "{}: {}, found {}",
            field.name,
            form(field),
            place.found(field.column, field.width)
        ),
        None => {
            let (first, last) = record.gap_at(place.column);
            let found = place.found(place.column, 1);
            format!(
                "blanks in columns {first} to {last} of {}, found {found}",
                record.label
            )
        }
    }
}

fn form(field: &Field) -> String {
    let last = field.column + field.width - 1;
    match field.form {
        Form::Whole => format!("a whole number whose last digit stands in column {last}"),
        Form::Tenths => {
            format!("a number with a point and one digit more, which stands in column {last}")
        }
        Form::Thousandths => format!(
            "a number with a point and three digits more, the last of which stands in column {last}"
        ),
        Form::Text => "a text".to_string(),
    }
}

/// The columns that a value line may use, five for each value.
fn value_columns(place: &Place) -> usize {
    5 * values_due(&place.state).min(16) as usize
}

/// The width of what is wrong in a value line: a field of five columns, or a column behind the last.
pub fn value_width(place: &Place) -> usize {
    if place.column > value_columns(place) {
        1
    } else {
        5
    }
}

fn value(place: &Place) -> String {
    let due = values_due(&place.state);
    let all = place.state.longitudes.count();
    let row = row_name(&place.state);
    if !place.label().is_empty() {
        return format!(
            "{} of {row}, which has {all}, 16 to a line, found {}",
            more_values(due),
            place.label()
        );
    }
    if place.column > value_columns(place) {
        return format!(
            "blanks: the {all} values of {row} end before column {}",
            place.column
        );
    }
    let number = all - due + (place.column as i64 - 1) / 5 + 1;
    let last = place.column + 4;
    format!(
        "value {number} of {all} of {row}: a whole number whose last digit stands in column {last}, found {}",
        place.found(place.column, 5)
    )
}

pub fn out_of_range(place: &Place) -> String {
    let Some(record) = place.record else {
        return String::new();
    };
    match record.field_at(place.column) {
        Some(field) => {
            let found = place.found(field.column, field.width);
            format!("{}: {}, found {found}", field.name, accepted(place, field))
        }
        None if record.label == "END OF HEADER" => sizes(place),
        None => record.rule.to_string(),
    }
}

/// What is accepted; of a day, as many as the month has.
fn accepted(place: &Place, field: &Field) -> String {
    let [year, month] = [1, 7].map(|column| text::number(&place.card, column, 6).unwrap_or(0));
    match (field.name, month_days(year, month)) {
        ("the day", Some(days)) => format!("1 to {days} in {year:04}-{month:02}"),
        _ => field.accepted.to_string(),
    }
}

fn month_days(year: i64, month: i64) -> Option<i64> {
    let leap = year % 4 == 0 && (year % 100 != 0 || year % 400 == 0);
    let days = match month {
        2 if leap => 29,
        2 => 28,
        4 | 6 | 9 | 11 => 30,
        1..=12 => 31,
        _ => return None,
    };
    Some(days)
}

/// The limits of the grid at END OF HEADER.
fn sizes(place: &Place) -> String {
    let state = &place.state;
    let (rows, columns, layers) = (
        state.latitudes.count(),
        state.longitudes.count(),
        state.heights.count(),
    );
    let limits = [
        (rows, 361, "rows", "LAT1 / LAT2 / DLAT"),
        (columns, 721, "columns", "LON1 / LON2 / DLON"),
        (layers, 64, "layers", "HGT1 / HGT2 / DHGT"),
    ];
    for (count, limit, name, label) in limits {
        if count > limit {
            let line = state.line_of(label).unwrap_or(0);
            return format!("at most {limit} {name}, found {count} by {label} (line {line})");
        }
    }
    let maps = state.maps;
    let all = maps * layers * rows * columns;
    format!("at most 2000000 values, found {all}: {maps} maps of {layers} x {rows} x {columns}")
}
