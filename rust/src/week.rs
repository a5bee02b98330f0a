//! The figures of up to a hundred map sets: nodes counted, smallest and largest values, and sums.

use crate::ffi;
use crate::mapset::MapSet;
use crate::refusal::Refusal;
use crate::value::{Answer, Kind};
use std::fmt;

/// How many numbers a row of figures has, and how many a week: its sets, and a row for each kind.
const ROW: usize = 5;
const NUMBERS: usize = 1 + 3 * ROW;

/// A valid set has no more maps.
const MOST_MAPS: usize = 300;

/// A sum of values with its unit, exact in whole thousandths.
#[derive(Clone, Copy, Debug, PartialEq, Eq, Hash)]
pub enum Sum {
    /// Thousandths of a TECU, of TEC or RMS maps.
    MilliTecu(i64),
    /// Thousandths of a kilometre, of height maps.
    MilliKm(i64),
}

impl Sum {
    fn of(kind: Kind, thousandths: i64) -> Sum {
        match kind {
            Kind::Tec | Kind::Rms => Sum::MilliTecu(thousandths),
            Kind::Height => Sum::MilliKm(thousandths),
        }
    }

    /// The thousandths of the unit.
    pub fn thousandths(self) -> i64 {
        match self {
            Sum::MilliTecu(thousandths) | Sum::MilliKm(thousandths) => thousandths,
        }
    }

    /// The unit: `TECU` or `km`.
    pub fn unit(self) -> &'static str {
        match self {
            Sum::MilliTecu(_) => "TECU",
            Sum::MilliKm(_) => "km",
        }
    }
}

/// Figures of the nodes of a map, of all maps of a kind in a set, or of a kind in all sets. The mean is `sum` by `with`,
/// two whole numbers.
#[derive(Clone, Copy, Debug, PartialEq, Eq, Hash)]
pub struct Figures {
    /// How many nodes have a value.
    pub with: u64,
    /// How many have none; all nodes of a map that is absent.
    pub without: u64,
    /// The smallest value; nothing where no node has one.
    pub smallest: Option<Answer>,
    /// The largest value; nothing where no node has one.
    pub largest: Option<Answer>,
    /// The sum of all values.
    pub sum: Sum,
}

impl Figures {
    /// Of the archive's row: two counts, smallest and largest, which are of 32 bits, and the sum.
    fn of(kind: Kind, row: &[i64]) -> Figures {
        let value = |thousandths: i64| (row[0] > 0).then(|| kind.answer(thousandths as i32));
        Figures {
            with: row[0] as u64,
            without: row[1] as u64,
            smallest: value(row[2]),
            largest: value(row[3]),
            sum: Sum::of(kind, row[4]),
        }
    }
}

impl fmt::Display for Figures {
    /// `6 with a value, 0 without, 0.100 TECU to 0.600 TECU, mean 2100/6 thousandths`
    fn fmt(&self, f: &mut fmt::Formatter) -> fmt::Result {
        write!(f, "{} with a value, {} without", self.with, self.without)?;
        if let (Some(smallest), Some(largest)) = (self.smallest, self.largest) {
            let sum = self.sum.thousandths();
            write!(
                f,
                ", {smallest} to {largest}, mean {sum}/{} thousandths",
                self.with
            )?;
        }
        Ok(())
    }
}

/// The figures of one set, map by map and kind by kind.
#[derive(Clone, Debug, PartialEq, Eq)]
pub struct SetFigures {
    maps: usize,
    /// Kind by kind a row for each map, then one for the kind.
    rows: Vec<i64>,
}

impl SetFigures {
    /// How many TEC maps the set has.
    pub fn maps(&self) -> usize {
        self.maps
    }

    /// Of one map, counted from 0, which may be absent; nothing where there is no such map.
    pub fn map(&self, kind: Kind, map: usize) -> Option<Figures> {
        (map < self.maps).then(|| self.row(kind, map))
    }

    /// Of all maps of a kind.
    pub fn kind(&self, kind: Kind) -> Figures {
        self.row(kind, self.maps)
    }

    fn row(&self, kind: Kind, row: usize) -> Figures {
        let at = ROW * ((self.maps + 1) * kind as usize + row);
        Figures::of(kind, &self.rows[at..at + ROW])
    }
}

/// The figures of the sets so far, up to a hundred; they do not depend on the order in which the sets came.
///
/// ```
/// use ionex::{Kind, MapSet, Sum, Week};
///
/// // Two TEC maps of six nodes, and an RMS map for the second, which lacks one value.
/// let maps = MapSet::read(&std::fs::read("../tests/examples/accepted-canonical.inx")?)?;
/// let mut week = Week::new();
/// let set = week.add(&maps)?;
/// assert_eq!(set.map(Kind::Rms, 1).unwrap().sum, Sum::MilliTecu(11_500));
/// assert_eq!(set.map(Kind::Rms, 0).unwrap().to_string(), "0 with a value, 6 without");
/// week.add(&maps)?;
/// let all = week.figures(Kind::Tec);
/// assert_eq!(all.to_string(), "24 with a value, 0 without, 0.100 TECU to 1.600 TECU, mean 20400/24 thousandths");
/// # Ok::<(), Box<dyn std::error::Error>>(())
/// ```
#[derive(Clone, Debug, Default, PartialEq, Eq)]
pub struct Week {
    numbers: [i64; NUMBERS],
}

impl Week {
    /// The week of no sets.
    pub fn new() -> Week {
        Week::default()
    }

    /// Adds a set and tells its own figures. Refusal 60 after the hundredth set, then 31 as [`MapSet::write`]; after either
    /// the week is as before.
    pub fn add(&mut self, set: &MapSet) -> Result<SetFigures, Refusal> {
        let maps = set.maps();
        let mut rows = vec![0; 3 * ROW * (maps.min(MOST_MAPS) + 1)];
        let given = set.as_areas().given();
        match ffi::week_add(&mut self.numbers, given, &mut rows, &mut [0; 2]) {
            0 => Ok(SetFigures { maps, rows }),
            number => Err(Refusal::plain(number)),
        }
    }

    /// How many sets were added.
    pub fn sets(&self) -> u64 {
        self.numbers[0] as u64
    }

    /// Of all maps of a kind in all sets.
    pub fn figures(&self, kind: Kind) -> Figures {
        let at = 1 + ROW * kind as usize;
        Figures::of(kind, &self.numbers[at..at + ROW])
    }
}
