//! Where an answer came from: the nodes that it needs, and the weight of each.

use crate::epoch::Epoch;
use crate::ffi;
use crate::mapset::MapSet;
use crate::place::Place;
use crate::refusal::Refusal;
use crate::value::{decimal, Answer, Kind, Method};
use std::fmt;

/// How many numbers tell of an answer (three, and six for each of eight nodes), and how many of a node without a value.
const EXPLAINED: usize = NODE + 8 * NODE_SIZE;
const NODE: usize = 3;
const NODE_SIZE: usize = 6;
const LACKING: usize = 5;

/// A node of one map: its place in the file, and where and when that is.
#[derive(Clone, Copy, Debug, PartialEq, Eq, Hash)]
pub struct Node {
    /// Counted from 1, as files number their maps.
    pub map: usize,
    /// The layer, counted from 0.
    pub layer: usize,
    /// The row, counted from 0.
    pub row: usize,
    /// The column, counted from 0.
    pub column: usize,
    /// The epoch of the map.
    pub epoch: Epoch,
    /// Its latitude, in tenths of a degree.
    pub lat: i64,
    /// Its longitude, in tenths of a degree.
    pub lon: i64,
}

/// A node that an answer needs, with its value and its weight.
#[derive(Clone, Copy, Debug, PartialEq, Eq, Hash)]
pub struct Weighted {
    /// Which node it is.
    pub node: Node,
    /// Its value.
    pub value: Answer,
    /// Positive: so many parts of the explanation's denominator.
    pub weight: u64,
}

/// The first needed node that has no value, and why it has none.
#[derive(Clone, Copy, Debug, PartialEq, Eq, Hash)]
pub struct Lacking {
    /// What was asked for.
    pub kind: Kind,
    /// Which node it is.
    pub node: Node,
    /// Why it has no value.
    pub cause: Cause,
}

/// Why a node has no value; of two causes the first of these is told. Of a set that was read, only the first and the last
/// can be.
#[derive(Clone, Copy, Debug, PartialEq, Eq, Hash)]
pub enum Cause {
    /// There is no map of the kind at that epoch.
    MapAbsent,
    /// The exponent of its row is outside -3 to 0.
    ExponentOutOfRange,
    /// Its number is outside -9999 to 99999.
    NumberOutOfRange,
    /// Its number is 9999.
    NoValue,
}

impl Cause {
    /// One or two words.
    pub fn as_str(self) -> &'static str {
        match self {
            Cause::MapAbsent => "map absent",
            Cause::ExponentOutOfRange => "exponent out of range",
            Cause::NumberOutOfRange => "number out of range",
            Cause::NoValue => "9999",
        }
    }
}

/// An answer, and the nodes that it came from. The weights add to the denominator; the answer is the sum of value times
/// weight over the denominator, rounded once.
///
/// Printed it is a table of the nodes, with the sum and the answer below.
#[derive(Clone, Debug, PartialEq, Eq)]
pub struct Explanation {
    /// What [`crate::MapSet::ask`] answers.
    pub answer: Answer,
    /// By map, row and column; one to eight of them.
    pub nodes: Vec<Weighted>,
    /// |DLAT| times DLON in hundredths of a degree, DLON in 1/1200 where maps turn; between two maps also times the seconds
    /// from one to the other. Not reduced.
    pub denominator: u64,
}

impl Explanation {
    /// The sum of value times weight, in thousandths: what the denominator divides.
    pub fn sum(&self) -> i128 {
        let products = self.nodes.iter().map(Weighted::product);
        products.sum()
    }
}

impl Explanation {
    /// The fraction, and as a decimal number with three digits more than an answer has.
    fn sum_in_words(&self) -> String {
        let (sum, whole) = (self.sum(), i128::from(self.denominator.max(1)));
        let millionths = 1000 * sum / whole;
        let exact = millionths * whole == 1000 * sum;
        let is = if exact { " =" } else { ", about" };
        let sign = if sum < 0 { "-" } else { "" };
        let (size, unit) = (millionths.unsigned_abs(), self.answer.unit());
        let decimals = format!("{sign}{}.{:06}", size / 1_000_000, size % 1_000_000);
        format!("{sum}/{whole} thousandths{is} {decimals} {unit}")
    }
}

impl Weighted {
    fn product(&self) -> i128 {
        i128::from(self.value.thousandths()) * i128::from(self.weight)
    }
}

impl fmt::Display for Explanation {
    fn fmt(&self, f: &mut fmt::Formatter) -> fmt::Result {
        writeln!(
            f,
            "{:>5}  {:<19}  {:>6}  {:>6}  {:>5}  {:>4}  {:>6}  {:>16}  {:>14}  {:>9}",
            "map", "epoch", "lat", "lon", "layer", "row", "column", "value", "weight", "share"
        )?;
        for Weighted {
            node,
            value,
            weight,
        } in &self.nodes
        {
            writeln!(
                f,
                "{:>5}  {:<19}  {:>6}  {:>6}  {:>5}  {:>4}  {:>6}  {:>16}  {:>14}  {:>9}",
                node.map,
                words(node.epoch),
                tenths(node.lat),
                tenths(node.lon),
                node.layer,
                node.row,
                node.column,
                value.to_string(),
                weight,
                share(*weight, self.denominator),
            )?;
        }
        writeln!(f, "sum of value times weight: {}", self.sum_in_words())?;
        write!(f, "rounded once: {}", self.answer)
    }
}

impl fmt::Display for Node {
    /// `map 2 (2010-12-04 01:00:00), layer 0, row 3 (latitude 80.0), column 5 (longitude -155.0)`
    fn fmt(&self, f: &mut fmt::Formatter) -> fmt::Result {
        write!(
            f,
            "map {} ({}), layer {}, row {} (latitude {}), column {} (longitude {})",
            self.map,
            words(self.epoch),
            self.layer,
            self.row,
            tenths(self.lat),
            self.column,
            tenths(self.lon)
        )
    }
}

impl fmt::Display for Lacking {
    fn fmt(&self, f: &mut fmt::Formatter) -> fmt::Result {
        write!(f, "{}: ", self.node)?;
        match self.cause {
            Cause::MapAbsent => write!(f, "there is no {} map at that epoch", self.kind),
            Cause::ExponentOutOfRange => write!(f, "the row's exponent is not within -3 to 0"),
            Cause::NumberOutOfRange => write!(f, "its number is not within -9999 to 99999"),
            Cause::NoValue => write!(f, "its number is 9999"),
        }
    }
}

/// `2010-12-04 06:30:00`
fn words(epoch: Epoch) -> String {
    epoch.to_string().replace('T', " ")
}

/// Tenths as a decimal number.
fn tenths(value: i64) -> String {
    let sign = if value < 0 { "-" } else { "" };
    let size = value.unsigned_abs();
    format!("{sign}{}.{}", size / 10, size % 10)
}

/// A part of a whole in thousandths of a percent, rounded.
fn share(part: u64, whole: u64) -> String {
    let (part, whole) = (u128::from(part), u128::from(whole.max(1)));
    let thousandths = (200_000 * part + whole) / (2 * whole);
    let words = decimal(i32::try_from(thousandths).unwrap_or(i32::MAX));
    format!("{words} %")
}

impl MapSet {
    /// Where the answer of [`MapSet::ask`] to the same question came from. Refused as that is; a refusal 22 names the first
    /// needed node that has no value, and why ([`Refusal::lacking`]).
    ///
    /// ```
    /// use ionex::{Cause, Kind, MapSet, Method};
    ///
    /// let maps = MapSet::read(&std::fs::read("../tests/examples/accepted-canonical.inx")?)?;
    /// // A quarter of the way from midnight to two o'clock, on the row 10.0, halfway between columns 0.0 and 10.0.
    /// let (place, time) = ("10.00,5.00".parse()?, "2000-01-01T00:30:00".parse()?);
    /// let why = maps.explain(Kind::Tec, Method::Between, 0, place, time)?;
    /// assert_eq!(why.nodes.len(), 4);
    /// assert_eq!(why.denominator, 1000 * 1000 * 7200);
    /// assert_eq!(why.nodes[3].value.to_string(), "1.200 TECU");
    /// assert_eq!(why.nodes[3].weight, 1000 * 500 * 1800);
    /// assert_eq!(why.answer, maps.ask(Kind::Tec, Method::Between, 0, place, time)?);
    /// println!("{why}");
    ///
    /// let refusal = maps.explain(Kind::Rms, Method::Between, 0, place, time).unwrap_err();
    /// let lacking = refusal.lacking().expect("a node");
    /// assert_eq!((lacking.node.map, lacking.cause), (1, Cause::MapAbsent));
    /// # Ok::<(), Box<dyn std::error::Error>>(())
    /// ```
    pub fn explain(
        &self,
        kind: Kind,
        method: Method,
        layer: u64,
        place: Place,
        time: Epoch,
    ) -> Result<Explanation, Refusal> {
        let asked = MapSet::asked(kind, method, layer, place, time);
        let (mut nodes, mut lacking) = ([0; EXPLAINED], [0; LACKING]);
        let given = self.as_areas().given();
        match ffi::explain(given, asked, &mut nodes, &mut lacking) {
            0 => Ok(self.explanation(kind, &nodes)),
            22 => {
                let [map, layer, row, column, cause] = lacking;
                let lacking = Lacking {
                    kind,
                    node: self.node([map, layer, row, column].map(|place| place as usize)),
                    cause: match cause {
                        1 => Cause::MapAbsent,
                        2 => Cause::ExponentOutOfRange,
                        3 => Cause::NumberOutOfRange,
                        _ => Cause::NoValue,
                    },
                };
                Err(Refusal::of_lacking(lacking))
            }
            number => Err(Refusal::plain(number)),
        }
    }

    /// What the archive tells of an answer.
    fn explanation(&self, kind: Kind, told: &[i64; EXPLAINED]) -> Explanation {
        // Every value and answer is of 32 bits.
        let answer = |thousandths: i64| kind.answer(thousandths as i32);
        let weighted = |told: &[i64]| Weighted {
            node: self.node([told[0], told[1], told[2], told[3]].map(|place| place as usize)),
            value: answer(told[4]),
            weight: told[5] as u64,
        };
        let nodes = told[NODE..].chunks_exact(NODE_SIZE).map(weighted);
        Explanation {
            answer: answer(told[2]),
            nodes: nodes.take(told[0] as usize).collect(),
            denominator: told[1] as u64,
        }
    }

    /// A node by its map, layer, row and column.
    fn node(&self, [map, layer, row, column]: [usize; 4]) -> Node {
        let header = self.header();
        let epoch = self.as_areas().epochs.get(map.wrapping_sub(1));
        Node {
            map,
            layer,
            row,
            column,
            epoch: epoch.map_or(header.first, |&second| Epoch::from_seconds(second)),
            lat: header.latitudes.at(row).unwrap_or(header.latitudes.first),
            lon: header
                .longitudes
                .at(column)
                .unwrap_or(header.longitudes.first),
        }
    }
}
