//! Refusals 3 to 5: no version record, unknown labels, and labels that stand where they may not.

use super::missing::{map_name, row_name};
use super::records::RECORDS;
use super::state::{kind_of, Open, Stage, State};
use super::Place;
use crate::text;
use ionex::DESCRIPTIONS;

pub fn version(place: &Place) -> String {
    let record = &RECORDS[0];
    match record.field_at(place.column) {
        Some(field) => {
            let found = place.found(field.column, field.width);
            let version_1_0 = text::number(&place.card, 1, 8) == Some(10);
            let more = if field.column == 41 && version_1_0 {
                " GPS GLO"
            } else {
                ""
            };
            format!("{}: {}{more}, found {found}", field.name, field.accepted)
        }
        None => format!("`{}` from column 61 on, in the first record", record.label),
    }
}

pub fn unknown(place: &Place) -> String {
    let found = place.found(61, 20);
    let state = &place.state;
    match (state.stage, &state.open) {
        (Stage::After, _) => nothing_more(state),
        (Stage::Maps, Some(open)) if open.blocks > 0 && place.bytes.len() <= 60 => format!(
            "a label from column 61 on: all {} values of {} have come",
            state.longitudes.count(),
            row_name(state)
        ),
        _ => format!("a label of IONEX from column 61 on, found {found}"),
    }
}

fn nothing_more(state: &State) -> String {
    format!("blank lines only behind END OF FILE (line {})", state.since)
}

pub fn misplaced(place: &Place) -> String {
    match place.state.stage {
        Stage::Start | Stage::Header | Stage::Aux => in_header(place),
        Stage::Maps => in_maps(place),
        Stage::After => nothing_more(&place.state),
    }
}

fn in_header(place: &Place) -> String {
    let label = place.label();
    if label == "IONEX VERSION / TYPE" {
        return "one version record, the first of the text".to_string();
    }
    if label == "END OF AUX DATA" {
        return "START OF AUX DATA before it".to_string();
    }
    if label == "DESCRIPTION" {
        let last = place.state.line_of_last(label).unwrap_or(0);
        return format!("at most {DESCRIPTIONS} DESCRIPTION lines: line {last} is the last");
    }
    let same = |given: &&super::state::Given| {
        given.label == label && (!label.starts_with("SYS") || given.letter == place.card[5])
    };
    match place.state.given.iter().find(same) {
        Some(given) if label.starts_with("SYS") => {
            let letter = char::from(given.letter);
            format!("one record for system {letter}: line {} is it", given.line)
        }
        Some(given) => format!("{label} once: it stands on line {}", given.line),
        None => format!("END OF HEADER before {label}"),
    }
}

fn in_maps(place: &Place) -> String {
    let (label, state) = (place.label(), &place.state);
    let starts = label.starts_with("START OF ") && kind_of(label).is_some();
    match (label, &state.open) {
        ("EPOCH OF CURRENT MAP", Some(open)) => epoch(open),
        ("LAT/LON1/LON2/DLON/H", Some(open)) => block(state, open),
        ("EPOCH OF CURRENT MAP" | "LAT/LON1/LON2/DLON/H", None) => {
            format!("START OF TEC MAP, or of another map, before {label}")
        }
        (_, Some(open)) if starts || label == "END OF FILE" => {
            format!("END OF {} MAP before it, for {}", open.kind, map_name(open))
        }
        (_, Some(open)) if kind_of(label).is_some() => {
            format!("END OF {} MAP, for {}", open.kind, map_name(open))
        }
        (_, None) if kind_of(label).is_some() => format!(
            "{} before it: no map is open",
            label.replace("END", "START")
        ),
        _ => format!(
            "no {label} behind END OF HEADER (line {})",
            of_header(state)
        ),
    }
}

fn of_header(state: &State) -> u64 {
    state.line_of("END OF HEADER").unwrap_or(0)
}

fn epoch(open: &Open) -> String {
    match open.epoch {
        Some(line) => format!("one epoch in {}: it stands on line {line}", map_name(open)),
        None => format!("the epoch before the first block of {}", map_name(open)),
    }
}

fn block(state: &State, open: &Open) -> String {
    if open.kind == "TEC" && open.epoch.is_none() {
        return format!(
            "EPOCH OF CURRENT MAP before the first block of {}",
            map_name(open)
        );
    }
    let (kind, blocks) = (open.kind, state.blocks());
    format!(
        "END OF {kind} MAP: all {blocks} blocks of {} have come",
        map_name(open)
    )
}

/// The label that was meant, where one is likely: written small, in other columns, or with a slip or two.
pub fn meant(place: &Place) -> Option<String> {
    let written = text::columns(&place.card, 61, 20).to_uppercase();
    if let Some(label) = labels().find(|&label| label == written) {
        return Some(format!(
            "a label is written as `{label}`, from column 61 on"
        ));
    }
    if let Some((label, column)) = found(place.bytes) {
        return Some(elsewhere(label, column));
    }
    let near = labels()
        .map(|label| (distance(label, &written), label))
        .min()?;
    (near.0 <= 3 && !written.is_empty()).then(|| format!("`{}` may be meant", near.1))
}

/// The label that a line ends in, whatever its letters' case, and the column in which it begins.
pub fn found(line: &[u8]) -> Option<(&'static str, usize)> {
    let line = line.trim_ascii_end().to_ascii_uppercase();
    let ends = labels().filter(|label| line.ends_with(label.as_bytes()));
    let label = ends.max_by_key(|label| label.len())?;
    Some((label, line.len() - label.len() + 1))
}

pub fn elsewhere(label: &str, column: usize) -> String {
    format!("`{label}` stands from column {column} on, and belongs into column 61")
}

fn labels() -> impl Iterator<Item = &'static str> {
    RECORDS.iter().map(|record| record.label)
}

/// Whether a label begins so, and goes on.
pub fn begins(start: &str) -> bool {
    labels().any(|label| label.starts_with(start) && label != start)
}

/// How many letters must be changed, put in or taken out to make one text of the other.
pub fn distance(one: &str, other: &str) -> usize {
    let mut row: Vec<usize> = (0..=other.len()).collect();
    for (i, a) in one.bytes().enumerate() {
        let mut corner = i;
        row[0] = i + 1;
        for (j, b) in other.bytes().enumerate() {
            let best = (corner + usize::from(a != b))
                .min(row[j] + 1)
                .min(row[j + 1] + 1);
            corner = std::mem::replace(&mut row[j + 1], best);
        }
    }
    row[other.len()]
}

#[cfg(test)]
mod tests {
    use super::*;

    #[test]
    fn distances() {
        assert_eq!(distance("", "abc"), 3);
        assert_eq!(distance("END OF FILE", "END OF FILE"), 0);
        assert_eq!(distance("END OF FILE", "END OF FLIE"), 2);
        assert_eq!(distance("COMMENT", "COMENT"), 1);
    }
}
