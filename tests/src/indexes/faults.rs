//! Planted faults of indexes: the second program with one thing wrong, which the comparison must find.

use super::{calls, compare_call, made, Call, Indexes, Kept};
use crate::archive::Archive;
use crate::boundary::{self, Plain, HEADER, OLD_TEXTS, TEXTS};
use crate::gen;
use crate::rng::Rng;
use crate::tally;
use second::index::Node;
use second::maps::{Grid, KINDS};

listed! {
    /// One thing wrong with an index, or with what is answered by it.
    pub enum Fault {
        // Making.
        PositionOff,
        AbsentPosition,
        ExponentOff,
        KindsSwapped,
        MarkLost,
        Need,
        AreaOrder,
        EntriesWhenRefused,
        EntriesTail,
        HeaderWhenRefused,
        MakeLine,
        // The entry: LAT, LON1, LON2 and DLON, or H in dimension 3 not compared, H in dimension 2 compared.
        Latitude,
        Longitudes,
        Height3,
        Height2,
        ExponentNotTested,
        /// A blank line at the position skipped.
        BlankFirst,
        /// Only the values up to the column's line looked at.
        LaterValues,
        /// A blank line of any length or bytes in the block.
        LongBlank,
        AbsentAnswered,
        NoValueRefused,
        Scaled,
        MapFromZero,
        NextColumn,
        /// Bytes behind the last description not looked at.
        BehindDescriptions,
        /// 21 told before 31, 22 before 21.
        OutsideFirst,
        AbsentFirst,
        FoundWhenRefused,
        FoundTail,
        // The block's lines.
        WithLineEnd,
        Trimmed,
        ColumnFree,
        BoundsWhenRefused,
        BoundsTail,
    }
}

/// The seed and the difference at which the comparison with the library finds a fault, within `count` seeds.
pub fn find(fault: Fault, count: u64, seed: u64) -> Option<(u64, String)> {
    let differs = |call: &Call| compare_call(&Archive, &Faulty(fault), call).1;
    tally::first(count, seed, |seed| calls(seed).iter().find_map(differs))
}

/// The second program with one thing wrong.
struct Faulty(Fault);

impl Indexes for Faulty {
    fn index(&self, text: &[u8], lent: &mut Kept, place: &mut [u64]) -> u64 {
        let answer = Plain.index(text, lent, place);
        match answer {
            0 => self.made(lent),
            1..=11 => self.unmade(answer, lent, place),
            _ => {}
        }
        answer
    }

    fn indexed_node(&self, text: &[u8], kept: &Kept, node: &Node, found: &mut [i32]) -> u64 {
        let (text, kept, node) = self.asked(text, kept, node);
        let before = found.to_vec();
        let answer = Plain.indexed_node(&text, &kept, &node, found);
        match (self.0, answer) {
            (Fault::NoValueRefused, 0) if found[0] == 9999 => {
                found.copy_from_slice(&before);
                22
            }
            (Fault::Scaled, 0) => {
                found[0] *= 10_i32.pow((found[1] + 3) as u32);
                0
            }
            (Fault::FoundWhenRefused, 21..=50) => {
                found[0] ^= 1;
                answer
            }
            (Fault::FoundTail, 0) => {
                found.iter_mut().skip(2).for_each(|number| *number ^= 1);
                0
            }
            _ => answer,
        }
    }

    fn indexed_block(&self, text: &[u8], kept: &Kept, node: &Node, bounds: &mut [u64]) -> u64 {
        let mut node = *node;
        if self.0 == Fault::ColumnFree {
            node.column = 0;
        }
        let answer = Plain.indexed_block(text, kept, &node, bounds);
        match (self.0, answer) {
            (Fault::WithLineEnd, 0) => {
                let end = (bounds[0] + bounds[1]) as usize;
                let lf = text[end..].iter().position(|&b| b == b'\n');
                bounds[1] += lf.map_or(0, |lf| lf as u64 + 1);
            }
            (Fault::Trimmed, 0) => {
                let [start, length] = [bounds[0], bounds[1]].map(|bound| bound as usize);
                bounds[1] = text[start..start + length].trim_ascii_end().len() as u64;
            }
            (Fault::BoundsWhenRefused, 21..=50) => bounds[0] ^= 1,
            (Fault::BoundsTail, 0) => bounds.iter_mut().skip(2).for_each(|word| *word ^= 1),
            _ => {}
        }
        answer
    }
}

impl Faulty {
    fn made(&self, lent: &mut Kept) {
        let header = boundary::header_of(&lent.header).unwrap_or_default();
        let grid = Grid::of(&header);
        let all = grid.maps * grid.blocks();
        match self.0 {
            Fault::PositionOff => lent.positions[0] += 1,
            Fault::AbsentPosition => {
                let absent = lent.positions[..3 * all].iter_mut().find(|at| **at == 0);
                absent.into_iter().for_each(|at| *at = u64::MAX);
            }
            Fault::ExponentOff => lent.exponents[all - 1] -= 1,
            Fault::KindsSwapped => {
                let (rms, height) = lent.positions[all..3 * all].split_at_mut(all);
                rms.swap_with_slice(height);
            }
            Fault::MarkLost => lent.marks[0] = 0,
            Fault::EntriesTail => lent
                .positions
                .iter_mut()
                .skip(3 * all)
                .for_each(|at| *at ^= 1),
            _ => {}
        }
    }

    fn unmade(&self, answer: u64, lent: &mut Kept, place: &mut [u64]) {
        match (self.0, answer) {
            (Fault::Need, 11) => place[1] += 1,
            // Exponents looked at before positions.
            (Fault::AreaOrder, 11) if place[0] == 1 && (lent.exponents.len() as u64) < place[1] => {
                place[0] = 2
            }
            (Fault::MakeLine, 1..=10) => place[0] += 1,
            (Fault::EntriesWhenRefused, _) => lent.positions.iter_mut().for_each(|at| *at = 0),
            (Fault::HeaderWhenRefused, _) => lent.header[0] ^= 1,
            _ => {}
        }
    }

    /// What is asked in the place of a question, so that the fault shows.
    fn asked(&self, text: &[u8], kept: &Kept, node: &Node) -> (Vec<u8>, Kept, Node) {
        let (mut text, mut kept, mut node) = (text.to_vec(), kept.clone(), *node);
        let mut found = [0; 2];
        let answer = Plain.indexed_node(&text, &kept, &node, &mut found);
        match (self.0, answer) {
            (Fault::OutsideFirst, 31) if node.map == 0 => {
                // Asked of an index that is right, it is 21.
                kept = made(&gen::text(
                    &mut Rng::new(1),
                    &gen::map_set(&mut Rng::new(1)),
                ));
            }
            (Fault::BehindDescriptions, 31) => blank_behind(&mut kept),
            (Fault::AbsentFirst, 21) => {
                let maps = kept.header[6] as usize;
                let map = (node.map as usize).wrapping_sub(1);
                if map < maps && node.kind > 0 && kept.marks[map] & node.kind as u8 == 0 {
                    (node.layer, node.row, node.column) = (0, 0, 0);
                }
            }
            (Fault::AbsentAnswered, 22) => kept.marks[node.map as usize - 1] = 3,
            (Fault::MapFromZero, 0 | 21) => node.map = node.map.wrapping_add(1),
            (Fault::NextColumn, 0) => node.column ^= 1,
            (_, 0 | 50) => self.entry(answer, &mut text, &mut kept, &node),
            _ => {}
        }
        (text, kept, node)
    }

    /// The text or the entry changed so that what is not looked at is right.
    fn entry(&self, answer: u64, text: &mut Vec<u8>, kept: &mut Kept, node: &Node) {
        let header = boundary::header_of(&kept.header).unwrap_or_default();
        let grid = Grid::of(&header);
        let kind = KINDS[node.kind as usize];
        let block = node.layer as usize * grid.rows + node.row as usize;
        let at = grid.exponent_place(kind, node.map as usize - 1, block);
        let Some(start) = usize::try_from(kept.positions[at]).ok() else {
            return;
        };
        let axis = header.longitudes;
        match (self.0, header.dimension) {
            (Fault::Latitude, _) if answer == 50 => {
                let rows = header.latitudes;
                put(text, start, 0, rows.first + node.row as i64 * rows.step);
            }
            (Fault::Longitudes, _) if answer == 50 => {
                for (field, number) in (1..).zip([axis.first, axis.last, axis.step]) {
                    put(text, start, field, number);
                }
            }
            (Fault::Height3, 3) if answer == 50 => {
                let layers = header.heights;
                put(
                    text,
                    start,
                    4,
                    layers.first + node.layer as i64 * layers.step,
                );
            }
            (Fault::Height2, 2) if answer == 0 => {
                let height = second::fields::tenths(&text[start + 26..start + 32]);
                if height != Some(header.heights.first) {
                    kept.positions[at] = u64::MAX;
                }
            }
            (Fault::ExponentNotTested, _) => kept.exponents[at] = kept.exponents[at].clamp(-3, 0),
            (Fault::BlankFirst, _) => {
                let rest = text.get(start..).unwrap_or(b"");
                let blanks = rest.iter().take_while(|b| b" \r\n".contains(b)).count();
                let lf = rest[..blanks].iter().rposition(|&b| b == b'\n');
                kept.positions[at] += lf.map_or(0, |lf| lf as u64 + 1);
            }
            (Fault::LaterValues, _) if answer == 50 => {
                later_values(text, start, node.column, grid.columns)
            }
            (Fault::LongBlank, _) if answer == 50 => without_blanks(text, start),
            _ => {}
        }
    }
}

/// Blanks behind the last description, where their number is one that may be.
fn blank_behind(kept: &mut Kept) {
    let Some(&number @ 0..=20) = kept.header.get(HEADER - 1) else {
        return;
    };
    let behind = OLD_TEXTS + 60 * number as usize;
    if let Some(bytes) = kept.texts.get_mut(behind..TEXTS) {
        bytes.fill(b' ');
    }
}

/// A number in a field of the opening line.
fn put(text: &mut [u8], start: usize, field: usize, number: i64) {
    let bytes = second::fields::tenths_text(number, 6);
    let place = start.saturating_add(2 + 6 * field);
    if let Some(place) = text.get_mut(place..place.saturating_add(6)) {
        place.copy_from_slice(bytes.as_bytes());
    }
}

/// Good value lines in the place of those behind the column's.
fn later_values(text: &mut Vec<u8>, start: usize, column: u64, columns: usize) {
    let line = column as usize / 16;
    let rest = text.get(start..).unwrap_or(b"");
    let mut ends = rest.iter().enumerate().filter(|(_, &b)| b == b'\n');
    let Some((end, _)) = ends.nth(1 + line) else {
        return;
    };
    text.truncate(start + end + 1);
    let left = columns.saturating_sub(16 * (line + 1));
    for row in vec![0; left].chunks(16) {
        text.extend(second::write::value_line(row));
    }
}

/// Lines of blanks and tabs behind the opening line taken out.
fn without_blanks(text: &mut Vec<u8>, start: usize) {
    let Some(rest) = text.get(start..) else {
        return;
    };
    let mut lines = rest.split_inclusive(|&b| b == b'\n');
    let mut kept = lines.next().unwrap_or(b"").to_vec();
    for line in lines.filter(|line| line.iter().any(|b| !b" \t\0\r\n".contains(b))) {
        kept.extend(line);
    }
    text.truncate(start);
    text.extend(kept);
}
