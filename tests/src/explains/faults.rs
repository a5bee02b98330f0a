//! Planted faults of what is told of an answer: the second program with one thing wrong, which the comparison must find.

use super::{
    calls, compare_call, set_of, Call, Explains, ANSWER, COUNT, DENOMINATOR, EXPLAINED, LACKING,
    NODE, SIZE,
};
use crate::archive::Archive;
use crate::boundary::{self, Asked, Given, Plain, HEADER};
use crate::oracle::{self, Needed};
use crate::tally;

listed! {
    /// One thing wrong with what is told of an answer.
    pub enum Fault {
        // The weights, and what they are parts of.
        WeightOff,
        GapLeftOut,
        /// The gap before the last map at the last epoch too.
        GapAtLast,
        /// Longitudes in hundredths for maps that turn.
        Hundredths,
        /// Weights and denominator without what divides them all.
        Reduced,
        // The nodes.
        NodesSwapped,
        /// In the strip the last column before the first.
        StripByPlace,
        /// A node of weight zero listed.
        ZeroListed,
        RowColumnSwapped,
        MapFromZero,
        LayerFromOne,
        /// A value of an RMS or height map under the exponent of the TEC map.
        OtherExponent,
        /// The sum cut in the place of rounded.
        Cut,
        UnusedAsFound,
        NodesWhenRefused,
        NodesTail,
        // The node without a value: of two causes the exponent before the map, the number before the exponent or the map.
        CauseOrder(usize) in (0..3).map(Fault::CauseOrder),
        RangeAsNone,
        LastLacking,
        /// In the order map, column, row.
        ColumnsFirst,
        LackingSwapped,
        LackingWhenDone,
        LackingWhenRefused,
        LackingTail,
        // The call's own areas: 103 before 101, one number less served.
        OwnOrder,
        ShortNodes,
        ShortLacking,
    }
}

/// The seed and the difference at which the comparison with the library finds a fault, within `count` seeds.
pub fn find(fault: Fault, count: u64, seed: u64) -> Option<(u64, String)> {
    let differs = |call: &Call| compare_call(&Archive, &Faulty(fault), call).1;
    tally::first(count, seed, |seed| calls(seed).iter().find_map(differs))
}

/// The second program with one thing wrong.
pub struct Faulty(pub Fault);

impl Explains for Faulty {
    fn explain(&self, given: &Given, asked: &Asked, nodes: &mut [i64], lacking: &mut [u64]) -> u64 {
        let before = nodes.to_vec();
        match self.0 {
            Fault::OwnOrder if nodes.len() < EXPLAINED => return 103,
            Fault::ShortNodes if nodes.len() == EXPLAINED - 1 => {
                return Plain.explain(given, asked, &mut [0; EXPLAINED], lacking);
            }
            Fault::ShortLacking if lacking.len() == LACKING - 1 => {
                return Plain.explain(given, asked, nodes, &mut [0; LACKING]);
            }
            _ => {}
        }
        let answer = Plain.explain(given, asked, nodes, lacking);
        match answer {
            0 => {
                self.told(given, asked, &before, nodes);
                let done = self.0 == Fault::LackingWhenDone;
                lacking[..LACKING]
                    .iter_mut()
                    .for_each(|n| *n *= u64::from(!done));
            }
            22 => self.lacking(given, asked, lacking),
            _ => {}
        }
        match (self.0, answer) {
            (Fault::NodesWhenRefused, 20..=31) => nodes[COUNT] = 0,
            (Fault::LackingWhenRefused, 20 | 21 | 23..=31) => lacking[0] ^= 1,
            (Fault::NodesTail, 0..=31) => nodes[EXPLAINED..].fill(0),
            (Fault::LackingTail, 0..=31) => lacking[LACKING..].fill(0),
            _ => {}
        }
        answer
    }
}

impl Faulty {
    /// What is wrong with nodes that are told.
    fn told(&self, given: &Given, asked: &Asked, before: &[i64], nodes: &mut [i64]) {
        let count = nodes[COUNT] as usize;
        let end = NODE + SIZE * count;
        let (head, rest) = nodes.split_at_mut(NODE);
        let listed = &mut rest[..SIZE * count];
        match self.0 {
            Fault::WeightOff => listed[5] += 1,
            Fault::GapLeftOut | Fault::GapAtLast => {
                let last = given.header[4] as u64 == asked.second;
                let gap = gap(given, asked).filter(|_| matches!(asked.method, 1 | 2));
                match (self.0, gap, last) {
                    (Fault::GapLeftOut, Some(gap), false) => head[DENOMINATOR] /= gap,
                    (Fault::GapAtLast, Some(gap), true) => head[DENOMINATOR] *= gap,
                    _ => {}
                }
            }
            Fault::Hundredths if asked.method > 1 => {
                head[DENOMINATOR] /= 12;
                listed.chunks_mut(SIZE).for_each(|node| node[5] /= 12);
            }
            Fault::Reduced => {
                let weights = listed.chunks(SIZE).map(|node| node[5]);
                let common = weights.fold(head[DENOMINATOR], divisor);
                head[DENOMINATOR] /= common;
                listed.chunks_mut(SIZE).for_each(|node| node[5] /= common);
            }
            Fault::NodesSwapped if count > 1 => {
                let (first, second) = listed.split_at_mut(SIZE);
                first.swap_with_slice(&mut second[..SIZE]);
            }
            Fault::StripByPlace => strip_by_place(listed),
            Fault::RowColumnSwapped => listed.chunks_mut(SIZE).for_each(|node| node.swap(2, 3)),
            Fault::MapFromZero => listed.chunks_mut(SIZE).for_each(|node| node[0] -= 1),
            Fault::LayerFromOne => listed.chunks_mut(SIZE).for_each(|node| node[1] += 1),
            Fault::OtherExponent => other_exponent(given, asked, listed),
            Fault::Cut => {
                let nodes = listed.chunks(SIZE);
                let sum: i128 = nodes.map(|n| i128::from(n[4]) * i128::from(n[5])).sum();
                head[ANSWER] = (sum / i128::from(head[DENOMINATOR])) as i64;
            }
            Fault::ZeroListed if count < 8 => {
                head[COUNT] += 1;
                let last: Vec<i64> = listed[SIZE * (count - 1)..].to_vec();
                rest[SIZE * count..SIZE * count + SIZE - 1].copy_from_slice(&last[..SIZE - 1]);
            }
            Fault::UnusedAsFound => nodes[end..EXPLAINED].copy_from_slice(&before[end..EXPLAINED]),
            _ => {}
        }
    }

    /// What is wrong with the node that is named.
    fn lacking(&self, given: &Given, asked: &Asked, lacking: &mut [u64]) {
        match self.0 {
            Fault::CauseOrder(which) => {
                let others = causes(given, asked, lacking);
                let order: &[u64] = match which {
                    0 => &[2, 1, 3, 4],
                    1 => &[1, 3, 4, 2],
                    _ => &[3, 4, 1, 2],
                };
                let first = order.iter().find(|cause| others.contains(cause));
                lacking[4] = first.copied().unwrap_or(lacking[4]);
            }
            Fault::RangeAsNone if lacking[4] == 3 => lacking[4] = 4,
            Fault::LackingSwapped => lacking.swap(2, 3),
            Fault::LastLacking | Fault::ColumnsFirst => {
                let Some(set) = set_of(given) else {
                    return;
                };
                let needed = oracle::needed(&set, &boundary::question(asked));
                let mut without = needed.into_iter().filter(|node| node.value.is_err());
                let place = |node: &Needed| (node.map, node.column, node.row);
                let named = match self.0 {
                    Fault::LastLacking => without.next_back(),
                    _ => without.min_by_key(place),
                };
                if let Some(node) = named {
                    lacking[0] = node.map as u64 + 1;
                    lacking[2..4].copy_from_slice(&[node.row as u64, node.column as u64]);
                    lacking[4] = node.value.err().unwrap_or(0);
                }
            }
            _ => {}
        }
    }
}

/// The seconds between the maps around a second; at the last epoch those before it.
fn gap(given: &Given, asked: &Asked) -> Option<i64> {
    let epochs = given.areas.epochs.get(..given.header[6] as usize)?;
    let around = |pair: &&[u64]| pair[0] <= asked.second && asked.second <= pair[1];
    let pair = epochs.windows(2).rfind(around)?;
    Some((pair[1] - pair[0]) as i64)
}

fn divisor(a: i64, b: i64) -> i64 {
    match b {
        0 => a,
        _ => divisor(b, a % b),
    }
}

/// Two nodes of a row whose columns are no neighbours, the other way round.
fn strip_by_place(listed: &mut [i64]) {
    for pair in listed.chunks_exact_mut(2 * SIZE) {
        let (first, second) = pair.split_at_mut(SIZE);
        if first[..3] == second[..3] && second[3] > first[3] + 1 {
            first.swap_with_slice(second);
        }
    }
}

/// The values under the exponents of the TEC map.
fn other_exponent(given: &Given, asked: &Asked, listed: &mut [i64]) {
    let Some(set) = set_of(given) else {
        return;
    };
    let (grid, exponents) = (set.grid(), &set.areas.exponents);
    for node in listed.chunks_mut(SIZE) {
        let [map, layer, row] = [node[0] - 1, node[1], node[2]].map(|place| place as usize);
        let block = (map * grid.layers + layer) * grid.rows + row;
        let own = exponents[asked.kind as usize * grid.maps * grid.blocks() + block];
        let power = |exponent: i32| 10_i64.pow((exponent.clamp(-3, 0) + 3) as u32);
        node[4] = node[4] / power(own) * power(exponents[block]);
    }
}

/// Every cause that the node named has.
fn causes(given: &Given, asked: &Asked, lacking: &[u64]) -> Vec<u64> {
    let Some(set) = set_of(given).filter(|_| given.header.len() >= HEADER) else {
        return Vec::new();
    };
    let (grid, areas, kind) = (set.grid(), &set.areas, asked.kind as usize);
    let [map, layer, row, column] = [lacking[0] - 1, lacking[1], lacking[2], lacking[3]];
    let block = (map as usize * grid.layers + layer as usize) * grid.rows + row as usize;
    let values = [&areas.tec, &areas.rms, &areas.height][kind];
    let value = values.get(block * grid.columns + column as usize);
    let exponent = areas.exponents[kind * grid.maps * grid.blocks() + block];
    let has = [
        kind != 0 && areas.marks[map as usize] & kind as u8 == 0,
        !(-3..=0).contains(&exponent),
        value.is_some_and(|value| !(-9999..=99_999).contains(value)),
        value == Some(&9999),
    ];
    (1..5)
        .zip(has)
        .filter(|(_, has)| *has)
        .map(|(cause, _)| cause)
        .collect()
}
