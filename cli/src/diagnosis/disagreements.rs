//! Refusal 8: a record that disagrees with the header or an earlier record.

use super::missing::{block_name, map_name};
use super::state::{kind_of, State, KINDS};
use super::Place;
use crate::numbers::tenths;
use crate::text::{self, Card};
use crate::time;
use ionex::{Date, Epoch};

pub fn disagreement(place: &Place) -> String {
    let state = &place.state;
    match (place.label(), &state.open) {
        ("END OF HEADER", _) => dimension(state),
        ("EPOCH OF CURRENT MAP", _) => epoch(place),
        ("LAT/LON1/LON2/DLON/H", _) => block(place),
        (_, Some(open)) => format!(
            "number {}, as {} has it, found {}",
            open.number,
            map_name(open),
            place.found(1, 6)
        ),
        (label, None) => format!("{}, found {}", start(state, label), place.found(1, 6)),
    }
}

fn dimension(state: &State) -> String {
    let line = |label| state.line_of(label).unwrap_or(0);
    format!(
        "MAP DIMENSION 2 where DHGT is 0.0, else 3; found {} (line {}) and {} (line {})",
        state.number_of("MAP DIMENSION").unwrap_or(0),
        line("MAP DIMENSION"),
        tenths(state.heights.step),
        line("HGT1 / HGT2 / DHGT")
    )
}

/// The number that a START record should carry.
fn start(state: &State, label: &str) -> String {
    let kind = kind_of(label).unwrap_or("TEC");
    let last = state.ended[KINDS.iter().position(|&name| name == kind).unwrap_or(0)];
    let tec = state.ended[0];
    if kind != "TEC" {
        return match last < tec {
            true => format!(
                "the number of a TEC map that has ended, {} to {tec}, rising",
                last + 1
            ),
            false => format!(
                "a TEC map before it: TEC maps have ended up to {tec}, {kind} maps up to {last}"
            ),
        };
    }
    if tec < state.maps {
        return format!(
            "number {}: TEC maps carry 1 to {} in order",
            tec + 1,
            state.maps
        );
    }
    let line = state.line_of("# OF MAPS IN FILE").unwrap_or(0);
    format!(
        "no more TEC map: # OF MAPS IN FILE is {} (line {line})",
        state.maps
    )
}

/// The number of a block's opening that differs from the grid.
fn block(place: &Place) -> String {
    let state = &place.state;
    let Some(open) = &state.open else {
        return String::new();
    };
    let rows = state.latitudes.count().max(1);
    let grid = |value, name, label| {
        let line = state.line_of(label).unwrap_or(0);
        format!("{name} {} as in {label} (line {line})", tenths(value))
    };
    let axis = state.longitudes;
    let label = "LON1 / LON2 / DLON";
    let wanted = match place.column {
        9 => grid(axis.first, "LON1", label),
        15 => grid(axis.last, "LON2", label),
        21 => grid(axis.step, "DLON", label),
        27 => grid(
            state.heights.at(open.blocks / rows),
            "height",
            "HGT1 / HGT2 / DHGT",
        ),
        _ => format!("{}, the next of the grid", block_name(state, open.blocks)),
    };
    format!("{wanted}, found {}", place.found(place.column, 6))
}

/// The epoch that a record holds.
fn epoch_of(card: &Card) -> Option<Epoch> {
    let field = |column| u64::try_from(text::number(card, column, 6)?).ok();
    Epoch::from_date(Date {
        year: field(1)?,
        month: field(7)?,
        day: field(13)?,
        hour: field(19)?,
        minute: field(25)?,
        second: field(31)?,
    })
}

fn words(epoch: Option<Epoch>) -> String {
    epoch.map_or("no date".to_string(), time::words)
}

/// The epoch that a map should carry.
fn epoch(place: &Place) -> String {
    let state = &place.state;
    let wanted = match &state.open {
        Some(open) if open.kind != "TEC" => of_tec_map(state, open.number),
        Some(open) => of_map(place, open.number),
        None => String::new(),
    };
    format!("{wanted}, found {}", words(epoch_of(&place.card)))
}

fn of_tec_map(state: &State, number: i64) -> String {
    let card = usize::try_from(number - 1)
        .ok()
        .and_then(|place| state.epochs.get(place));
    let epoch = words(card.and_then(epoch_of));
    format!("the epoch of TEC map {number}, {epoch}")
}

/// TEC map `number`: the header's first epoch, then steps of INTERVAL, and the header's last epoch at the end.
fn of_map(place: &Place, number: i64) -> String {
    let state = &place.state;
    let of_header = |label| match state.record(label) {
        Some(given) => format!(
            "{label}, {} (line {})",
            words(epoch_of(&given.card)),
            given.line
        ),
        None => label.to_string(),
    };
    let Some(before) = state.epochs.last().and_then(epoch_of) else {
        return of_header("EPOCH OF FIRST MAP");
    };
    let interval = state.number_of("INTERVAL").unwrap_or(0);
    let here = epoch_of(&place.card).unwrap_or(before);
    let gap = here.seconds() as i64 - before.seconds() as i64;
    let fits = (1..=21_600).contains(&gap) && (interval == 0 || gap == interval);
    if fits && number == state.maps {
        return of_header("EPOCH OF LAST MAP");
    }
    let earlier = number - 1;
    if interval == 0 {
        return format!("1 to 21600 s after map {earlier}, {}", time::words(before));
    }
    let next = Epoch::from_seconds(before.seconds().saturating_add_signed(interval));
    format!(
        "{}, INTERVAL {interval} s after map {earlier}",
        time::words(next)
    )
}
