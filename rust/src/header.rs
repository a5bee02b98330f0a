//! The header's numbers by name.

use crate::epoch::Epoch;
use std::fmt;

/// How many numbers a header has.
pub const HEADER: usize = 45;
/// How many bytes its texts have.
pub const TEXTS: usize = 1324;

/// How many DESCRIPTION lines a header has room for.
pub const DESCRIPTIONS: usize = 20;
/// The columns of each.
pub const DESCRIPTION_COLUMNS: usize = 60;

/// The codes with their letters, as the archive numbers them from 0.
const CODES: [(Code, &str); 11] = [
    (Code::Ben, "BEN"),
    (Code::Env, "ENV"),
    (Code::Ers, "ERS"),
    (Code::Geo, "GEO"),
    (Code::Gns, "GNS"),
    (Code::Iri, "IRI"),
    (Code::Mix, "MIX"),
    (Code::Nns, "NNS"),
    (Code::Top, "TOP"),
    (Code::Gps, "GPS"),
    (Code::Glo, "GLO"),
];
const LETTERS: [char; 7] = ['G', 'R', 'E', 'C', 'J', 'I', 'S'];

/// The version of IONEX that a text is of.
#[derive(Clone, Copy, Debug, PartialEq, Eq, Hash)]
pub enum Version {
    /// IONEX 1.0.
    V1_0,
    /// IONEX 1.1.
    V1_1,
    /// Tenths that are no such version: no map set that was read has them.
    Unknown(i64),
}

impl Version {
    fn of(tenths: i64) -> Version {
        match tenths {
            10 => Version::V1_0,
            11 => Version::V1_1,
            other => Version::Unknown(other),
        }
    }

    /// 10 or 11.
    pub fn tenths(self) -> i64 {
        match self {
            Version::V1_0 => 10,
            Version::V1_1 => 11,
            Version::Unknown(tenths) => tenths,
        }
    }
}

impl fmt::Display for Version {
    /// `1.0` or `1.1`, `?` where it is unknown
    fn fmt(&self, f: &mut fmt::Formatter) -> fmt::Result {
        f.pad(match self {
            Version::V1_0 => "1.0",
            Version::V1_1 => "1.1",
            Version::Unknown(_) => "?",
        })
    }
}

/// The satellite system or the theoretical model that the maps are from: the code of the version record.
#[derive(Clone, Copy, Debug, PartialEq, Eq, Hash)]
pub enum Code {
    /// The model of Bent.
    Ben,
    /// ENVISAT.
    Env,
    /// ERS.
    Ers,
    /// Geostationary satellites.
    Geo,
    /// Navigation satellites (GNSS).
    Gns,
    /// The model IRI.
    Iri,
    /// Mixed or combined.
    Mix,
    /// NNSS, Transit.
    Nns,
    /// TOPEX/Poseidon.
    Top,
    /// GPS; of version 1.0 alone.
    Gps,
    /// GLONASS; of version 1.0 alone.
    Glo,
    /// A number that stands for no code: no map set that was read has it.
    Unknown(i64),
}

impl Code {
    fn of(number: i64) -> Code {
        let known = usize::try_from(number)
            .ok()
            .and_then(|place| CODES.get(place));
        known.map_or(Code::Unknown(number), |(code, _)| *code)
    }

    /// The archive's number.
    pub(crate) fn number(self) -> i64 {
        match self {
            Code::Unknown(number) => number,
            known => CODES.iter().take_while(|(code, _)| *code != known).count() as i64,
        }
    }

    /// Its three letters, `???` where it is unknown.
    pub fn as_str(self) -> &'static str {
        let found = CODES.iter().find(|(code, _)| *code == self);
        found.map_or("???", |(_, letters)| letters)
    }
}

impl fmt::Display for Code {
    fn fmt(&self, f: &mut fmt::Formatter) -> fmt::Result {
        f.pad(self.as_str())
    }
}

/// Equidistant nodes, in tenths of a degree or of a kilometre.
#[derive(Clone, Copy, Debug, PartialEq, Eq, Hash)]
pub struct Axis {
    /// The first node.
    pub first: i64,
    /// The last node.
    pub last: i64,
    /// From one node to the next; negative where they fall, 0 where there is one node only.
    pub step: i64,
}

impl Axis {
    /// How many nodes there are.
    pub fn nodes(&self) -> usize {
        let steps = match self.step {
            0 => 0,
            step => (i128::from(self.last) - i128::from(self.first)) / i128::from(step),
        };
        usize::try_from(steps + 1).unwrap_or(0)
    }

    /// Where a node stands, counted from 0; nothing where there is no such node.
    pub fn at(&self, node: usize) -> Option<i64> {
        if node >= self.nodes() {
            return None;
        }
        self.first
            .checked_add(self.step.checked_mul(i64::try_from(node).ok()?)?)
    }
}

/// The header of a map set. A number that its field cannot hold, which only a set of [`crate::MapSet::from_areas`] can
/// have, is brought to the nearest that it can.
#[derive(Clone, Debug, PartialEq, Eq)]
pub struct Header {
    /// The version of IONEX.
    pub version: Version,
    /// The system or model that the maps are from.
    pub code: Code,
    /// EPOCH OF FIRST MAP.
    pub first: Epoch,
    /// EPOCH OF LAST MAP.
    pub last: Epoch,
    /// Seconds from map to map; 0 says that they vary.
    pub interval: i64,
    /// # OF MAPS IN FILE: the TEC maps.
    pub maps: usize,
    /// ELEVATION CUTOFF, in tenths of a degree.
    pub cutoff: i64,
    /// BASE RADIUS, in tenths of a kilometre.
    pub radius: i64,
    /// MAP DIMENSION, 2 or 3.
    pub dimension: i64,
    /// The layers, in tenths of a kilometre.
    pub heights: Axis,
    /// The rows, in tenths of a degree.
    pub latitudes: Axis,
    /// The columns, in tenths of a degree.
    pub longitudes: Axis,
    /// # OF STATIONS, where the record stands.
    pub stations: Option<u32>,
    /// # OF SATELLITES, where the record stands.
    pub satellites: Option<u32>,
    /// For each letter of G R E C J I S its stations and satellites, where its SYS record stands.
    pub systems: [(char, Option<(u32, u32)>); 7],
    /// How many DESCRIPTION lines there are, 0 to 20; [`crate::MapSet::descriptions`] are they.
    pub descriptions: usize,
}

impl Header {
    pub(crate) fn of(numbers: &[i64; HEADER]) -> Header {
        let epoch = |at: usize| Epoch::from_seconds(numbers[at].max(0) as u64);
        let axis = |at: usize| Axis {
            first: numbers[at],
            last: numbers[at + 1],
            step: numbers[at + 2],
        };
        let count = |at: usize| numbers[at].clamp(0, i64::from(u32::MAX)) as u32;
        let system = |j: usize| {
            let at = 23 + 3 * j;
            let counts = (count(at + 1), count(at + 2));
            (LETTERS[j], (numbers[at] != 0).then_some(counts))
        };
        Header {
            version: Version::of(numbers[0]),
            code: Code::of(numbers[2]),
            first: epoch(3),
            last: epoch(4),
            interval: numbers[5],
            maps: usize::try_from(numbers[6]).unwrap_or(0),
            cutoff: numbers[7],
            radius: numbers[8],
            dimension: numbers[9],
            heights: axis(10),
            latitudes: axis(13),
            longitudes: axis(16),
            stations: (numbers[19] != 0).then(|| count(20)),
            satellites: (numbers[21] != 0).then(|| count(22)),
            systems: std::array::from_fn(system),
            descriptions: numbers[44].clamp(0, DESCRIPTIONS as i64) as usize,
        }
    }
}
