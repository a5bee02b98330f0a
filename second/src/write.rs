//! Writing: a map set as canonical text.

use crate::calendar;
use crate::fields;
use crate::header::{self, Axis, Header, Texts, CODES, SYSTEMS};
use crate::labels::{self, record, Label};
use crate::maps::{self, Grid, Kind, View, FIRST_EXPONENT, KINDS, NO_VALUE};
use crate::refusal::Refusal;

/// Writes the canonical text to the front of `out` and gives its length. "31
/// before 30"; a refusal and the bytes past the text leave `out` as it was.
pub fn write(
    header: &Header,
    texts: &Texts,
    areas: &View,
    out: &mut [u8],
) -> Result<usize, Refusal> {
    let text = canonical(header, texts, areas);
    if text.is_empty() {
        return Err(Refusal::Bare { number: 31 });
    }
    if out.len() < text.len() {
        return Err(Refusal::Output {
            need: text.len() as u64,
        });
    }
    out[..text.len()].copy_from_slice(&text);
    Ok(text.len())
}

/// The canonical text, or "the empty text from no map set".
pub fn canonical(header: &Header, texts: &Texts, areas: &View) -> Vec<u8> {
    match map_set(header, texts, areas) {
        Some(grid) => {
            let mut text = header_text(header, texts);
            maps_text(header, &grid, areas, &mut text);
            text.extend(record(Label::EndFile, &[], &[]));
            text
        }
        None => Vec::new(),
    }
}

/// The grid, when some accepted text has this map set as its meaning.
pub fn map_set(header: &Header, texts: &Texts, areas: &View) -> Option<Grid> {
    let grid = maps::frame(header, texts, areas)?;
    for kind in KINDS {
        let some = areas.marks[..grid.maps]
            .iter()
            .any(|&mark| maps::is_present(kind, mark));
        for map in 0..grid.maps {
            let present = maps::is_present(kind, areas.marks[map]);
            for block in 0..grid.blocks() {
                let exponent = areas.exponents[grid.exponent_place(kind, map, block)];
                if !exponent_is_valid(present, exponent) {
                    return None;
                }
                // "A kind with no map needs no value area": it is not looked at.
                if some && !block_values(&grid, areas, kind, map, block).all_valid(present) {
                    return None;
                }
            }
        }
    }
    Some(grid)
}

fn exponent_is_valid(present: bool, exponent: i32) -> bool {
    if present {
        header::exponent_fits(i64::from(exponent))
    } else {
        exponent == FIRST_EXPONENT
    }
}

/// The values of one block.
struct BlockValues<'a>(&'a [i32]);

impl BlockValues<'_> {
    /// "An absent RMS or height map reads as 9999 everywhere."
    fn all_valid(&self, present: bool) -> bool {
        self.0
            .iter()
            .all(|&v| maps::value_fits(v) && (present || v == NO_VALUE))
    }
}

fn block_values<'a>(
    grid: &Grid,
    areas: &View<'a>,
    kind: Kind,
    map: usize,
    block: usize,
) -> BlockValues<'a> {
    let start = grid.value_place(map, block);
    BlockValues(&areas.values(kind)[start..start + grid.columns])
}

/// "Header in the table's order, SYS in the order listed, without skipped records
/// or EXPONENT."
pub fn header_text(header: &Header, texts: &Texts) -> Vec<u8> {
    let mut text = Vec::new();
    // "The version record has `IONOSPHERE MAPS` in columns 21 to 35."
    let code: &[u8] = CODES[header.code as usize];
    text.extend(record(
        Label::Version,
        &[header.version],
        &[b"I", b"ONOSPHERE MAPS", code, b""],
    ));
    let program: [&[u8]; 3] = [&texts.program, &texts.agency, &texts.date];
    text.extend(record(Label::Program, &[], &program));
    // "canonical text writes them after PGM / RUN BY / DATE" (02, Ask 1)
    for line in &texts.descriptions[..header.descriptions as usize] {
        text.extend(record(Label::Description, &[], &[line]));
    }
    text.extend(epoch_text(Label::FirstEpoch, header.first_epoch));
    text.extend(epoch_text(Label::LastEpoch, header.last_epoch));
    text.extend(record(Label::Interval, &[header.interval], &[]));
    text.extend(record(Label::MapCount, &[header.maps], &[]));
    text.extend(record(Label::MappingFunction, &[], &[&texts.mapping]));
    text.extend(record(Label::ElevationCutoff, &[header.cutoff], &[]));
    text.extend(record(Label::Observables, &[], &[&texts.observables]));
    if header.stations.stands {
        text.extend(record(Label::Stations, &[header.stations.count], &[]));
    }
    if header.satellites.stands {
        text.extend(record(Label::Satellites, &[header.satellites.count], &[]));
    }
    for (letter, system) in SYSTEMS.iter().zip(&header.systems) {
        if system.stands {
            let counts = [system.stations, system.satellites];
            text.extend(record(Label::System, &counts, &[&[*letter]]));
        }
    }
    text.extend(record(Label::BaseRadius, &[header.radius], &[]));
    text.extend(record(Label::Dimension, &[header.dimension], &[]));
    text.extend(axis_text(Label::Heights, &header.heights));
    text.extend(axis_text(Label::Latitudes, &header.latitudes));
    text.extend(axis_text(Label::Longitudes, &header.longitudes));
    text.extend(record(Label::EndHeader, &[], &[]));
    text
}

fn axis_text(label: Label, axis: &Axis) -> Vec<u8> {
    record(label, &[axis.first, axis.last, axis.step], &[])
}

fn epoch_text(label: Label, epoch: u64) -> Vec<u8> {
    record(label, &calendar::date(epoch).unwrap_or_default(), &[])
}

fn start_label(kind: Kind) -> Label {
    match kind {
        Kind::Tec => Label::StartTec,
        Kind::Rms => Label::StartRms,
        Kind::Height => Label::StartHeight,
    }
}

fn end_label(kind: Kind) -> Label {
    match kind {
        Kind::Tec => Label::EndTec,
        Kind::Rms => Label::EndRms,
        Kind::Height => Label::EndHeight,
    }
}

/// "Then TEC maps, RMS maps, height maps. Only TEC maps carry their epoch."
fn maps_text(header: &Header, grid: &Grid, areas: &View, text: &mut Vec<u8>) {
    let mut in_force = FIRST_EXPONENT;
    for kind in KINDS {
        for map in 0..grid.maps {
            if !maps::is_present(kind, areas.marks[map]) {
                continue;
            }
            let number = map as i64 + 1;
            text.extend(record(start_label(kind), &[number], &[]));
            if kind == Kind::Tec {
                text.extend(epoch_text(Label::CurrentEpoch, areas.epochs[map]));
            }
            for block in 0..grid.blocks() {
                // "EXPONENT stands right before a block whose exponent differs
                // from the one in force."
                let exponent = areas.exponents[grid.exponent_place(kind, map, block)];
                if exponent != in_force {
                    text.extend(record(Label::Exponent, &[i64::from(exponent)], &[]));
                    in_force = exponent;
                }
                text.extend(block_opening(header, grid, block));
                for line in block_values(grid, areas, kind, map, block).0.chunks(16) {
                    text.extend(value_line(line));
                }
            }
            text.extend(record(end_label(kind), &[number], &[]));
        }
    }
}

/// "H is HGT1 in dimension 2", where DHGT is 0.
fn block_opening(header: &Header, grid: &Grid, block: usize) -> Vec<u8> {
    let layer = (block / grid.rows) as i64;
    let row = (block % grid.rows) as i64;
    let numbers = [
        header.latitudes.first + row * header.latitudes.step,
        header.longitudes.first,
        header.longitudes.last,
        header.longitudes.step,
        header.heights.first + layer * header.heights.step,
    ];
    record(Label::Block, &numbers, &[])
}

/// At most 16 values as one line with its LF.
pub fn value_line(values: &[i32]) -> Vec<u8> {
    let mut line = Vec::with_capacity(81);
    for &value in values {
        line.extend(fields::integer_text(i64::from(value), 5).bytes());
    }
    labels::end_line(&mut line);
    line
}

#[cfg(test)]
mod tests {
    use super::*;

    #[test]
    fn figure_of_01() {
        assert_eq!(value_line(&[100, 9999, -5]), b"  100 9999   -5\n");
    }

    #[test]
    fn no_map_set_makes_the_empty_text() {
        let areas = View {
            tec: &[],
            rms: &[],
            height: &[],
            exponents: &[],
            epochs: &[],
            marks: &[],
        };
        assert!(canonical(&Header::default(), &Texts::default(), &areas).is_empty());
    }
}
