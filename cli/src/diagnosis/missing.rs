//! Refusals 9 and 10: what has not come before an END record, or before the end of the text.

use super::records::NEEDED;
use super::state::{Open, Stage, State};
use super::Place;
use crate::numbers::{counted, tenths};

/// `1 more value`, `2 more values`
pub fn more_values(count: i64) -> String {
    counted(usize::try_from(count).unwrap_or(0), "more value")
}

/// The values that the open block still lacks.
pub fn values_due(state: &State) -> i64 {
    state.open.map_or(0, |open| open.due)
}

/// A map as people name it, with the line it starts on.
pub fn map_name(open: &Open) -> String {
    format!("{} map {} (line {})", open.kind, open.number, open.line)
}

/// The block of this number, counted from 0.
pub fn block_name(state: &State, block: i64) -> String {
    let rows = state.latitudes.count().max(1);
    let latitude = tenths(state.latitudes.at(block % rows));
    if state.heights.count() < 2 {
        return format!("latitude {latitude}");
    }
    let height = tenths(state.heights.at(block / rows));
    format!("latitude {latitude} at height {height}")
}

/// The block that was opened last, with its line.
pub fn row_name(state: &State) -> String {
    match &state.open {
        Some(open) => format!(
            "{} (line {})",
            block_name(state, open.blocks - 1),
            open.block_line
        ),
        None => String::new(),
    }
}

/// Map numbers as `map 3`, or `maps 3 to 5`.
fn maps(first: i64, last: i64) -> String {
    if first == last {
        format!("map {first}")
    } else {
        format!("maps {first} to {last}")
    }
}

/// The TEC maps that have not come, and the record that asks for them.
fn missing_maps(state: &State) -> String {
    let line = state.line_of("# OF MAPS IN FILE").unwrap_or(0);
    format!(
        "TEC {}: # OF MAPS IN FILE is {} (line {line})",
        maps(state.ended[0] + 1, state.maps),
        state.maps
    )
}

pub fn missing(place: &Place) -> String {
    let state = &place.state;
    match (place.label(), &state.open) {
        ("END OF HEADER", _) => format!("before it {}", missing_records(state).join(", ")),
        (_, Some(open)) => format!("before it {}", missing_blocks(state, open)),
        _ => format!("before it {}", missing_maps(state)),
    }
}

fn missing_records(state: &State) -> Vec<&'static str> {
    let lacks = |label: &&str| state.record(label).is_none();
    NEEDED.into_iter().filter(lacks).collect()
}

fn missing_blocks(state: &State, open: &Open) -> String {
    let lacks = state.blocks() - open.blocks;
    let epoch = if open.kind == "TEC" && open.epoch.is_none() {
        "EPOCH OF CURRENT MAP and "
    } else {
        ""
    };
    let name = block_name(state, open.blocks);
    let blocks = match lacks {
        1 => format!("the block of {name}"),
        _ => format!("{lacks} blocks from {name} on"),
    };
    format!("{epoch}{blocks}, in {}", map_name(open))
}

pub fn cut_short(place: &Place) -> String {
    let state = &place.state;
    match (state.stage, &state.open) {
        (Stage::Start, _) if place.text.is_empty() => "a text, found an empty file".to_string(),
        (Stage::Start, _) => "a text, found blank lines only".to_string(),
        (Stage::Header, _) => "END OF HEADER, maps and END OF FILE".to_string(),
        (Stage::Aux, _) => format!("END OF AUX DATA for the block of line {}", state.since),
        (_, Some(open)) if open.due > 0 => format!(
            "{} of {}, in {}",
            more_values(open.due),
            row_name(state),
            map_name(open)
        ),
        (_, Some(open)) if open.blocks == state.blocks() => {
            format!("END OF {} MAP for {}", open.kind, map_name(open))
        }
        (_, Some(open)) => missing_blocks(state, open),
        (_, None) if state.ended[0] < state.maps => missing_maps(state),
        (_, None) => format!("END OF FILE: all {} TEC maps have ended", state.maps),
    }
}
