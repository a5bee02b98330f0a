//! 02, Ask 5: the week in figures. Everything is counted over the nodes, in whole
//! numbers of 128 bits.

use crate::ask;
use crate::header::{Header, Texts};
use crate::maps::{Grid, Kind, View, KINDS};
use crate::refusal::Refusal;
use crate::write;

/// "a report over up to 100 map sets"
pub const SETS: i128 = 100;

/// What 01 allows: n·L·R·C of a set, and a node's thousandths, 99,999 under
/// exponent 0.
const NODES: i128 = 2_000_000;
const LARGEST: i128 = 99_999_000;

/// How many numbers a row of figures has.
pub const ROW: usize = 5;

/// "the number of nodes with a value, the number without, the smallest, the
/// largest and the sum in thousandths": of a TECU, or of a kilometre for height
/// maps.
#[derive(Clone, Copy, Debug, Default, PartialEq, Eq)]
pub struct Figures {
    pub with: i128,
    pub without: i128,
    /// Smallest and largest. "A map of absent nodes has count 0 and no smallest or
    /// largest."
    pub range: Option<(i128, i128)>,
    pub sum: i128,
}

impl Figures {
    fn of(nodes: &[Option<i64>]) -> Figures {
        let values: Vec<i128> = nodes.iter().flatten().map(|&v| i128::from(v)).collect();
        let (smallest, largest) = (values.iter().min(), values.iter().max());
        Figures {
            with: values.len() as i128,
            without: (nodes.len() - values.len()) as i128,
            range: smallest.copied().zip(largest.copied()),
            sum: values.iter().sum(),
        }
    }

    pub fn plus(&self, more: &Figures) -> Figures {
        let range = match (self.range, more.range) {
            (Some((a, b)), Some((c, d))) => Some((a.min(c), b.max(d))),
            (one, other) => one.or(other),
        };
        Figures {
            with: self.with + more.with,
            without: self.without + more.without,
            range,
            sum: self.sum + more.sum,
        }
    }

    /// Whether so many sets can have brought these. A week is handed in by the
    /// caller, so it may hold anything.
    pub fn can_be_of(&self, sets: i128) -> bool {
        let counts = self.with >= 0 && self.without >= 0;
        let range = match self.range {
            None => self.with == 0,
            Some((smallest, largest)) => self.with != 0 && smallest <= largest,
        };
        counts
            && self.with + self.without <= sets * NODES
            && self.sum.abs() <= self.with * LARGEST
            && range
    }

    /// Count with a value, count without, smallest, largest, sum; 0 for a smallest
    /// and largest that are not there.
    pub fn row(&self) -> [i128; ROW] {
        let (smallest, largest) = self.range.unwrap_or((0, 0));
        [self.with, self.without, smallest, largest, self.sum]
    }
}

/// The sets accepted so far, and the figures of TEC, RMS and height maps.
#[derive(Clone, Copy, Debug, Default, PartialEq, Eq)]
pub struct Week {
    pub sets: i128,
    pub kinds: [Figures; 3],
}

/// Adds a map set to a week and fills the front of `rows` with the set's own
/// figures: for each kind a row for each map, then one for the kind. "60 for a set
/// after the hundredth accepted one, then 31 for an invalid map set", also for a
/// week that no sets can have made, then 11; "after either the report so far is
/// kept".
pub fn add(
    week: &mut Week,
    header: &Header,
    texts: &Texts,
    areas: &View,
    rows: &mut [i64],
) -> Result<(), Refusal> {
    if week.sets >= SETS {
        return Err(Refusal::Bare { number: 60 });
    }
    let sane = week.kinds.iter().all(|kind| kind.can_be_of(week.sets));
    let grid = match write::map_set(header, texts, areas) {
        Some(grid) if sane => grid,
        _ => return Err(Refusal::Bare { number: 31 }),
    };
    let need = KINDS.len() * ROW * (grid.maps + 1);
    if rows.len() < need {
        return Err(Refusal::Area {
            area: 1,
            need: need as u64,
        });
    }
    let mut found = Vec::new();
    for kind in KINDS {
        let maps: Vec<Vec<Option<i64>>> = (0..grid.maps)
            .map(|map| nodes(&grid, areas, kind, map))
            .collect();
        found.extend(maps.iter().map(|nodes| Figures::of(nodes)));
        let all = Figures::of(&maps.concat());
        found.push(all);
        let so_far = &mut week.kinds[kind as usize];
        *so_far = so_far.plus(&all);
    }
    week.sets += 1;
    let numbers = found.iter().flat_map(Figures::row);
    for (place, number) in rows.iter_mut().zip(numbers) {
        *place = number as i64;
    }
    Ok(())
}

/// The L·R·C nodes of a map in thousandths, "a value as in asking"; those of an
/// absent map have none.
fn nodes(grid: &Grid, areas: &View, kind: Kind, map: usize) -> Vec<Option<i64>> {
    let mut nodes = Vec::with_capacity(grid.values());
    for block in 0..grid.blocks() {
        for column in 0..grid.columns {
            nodes.push(ask::node(grid, areas, kind, map, block, column).ok());
        }
    }
    nodes
}
