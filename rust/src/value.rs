//! What is asked for, and what is answered.

use crate::mapset::NO_VALUE;
use std::fmt;

/// What a map shows.
#[derive(Clone, Copy, Debug, PartialEq, Eq, Hash)]
pub enum Kind {
    /// Total electron content.
    Tec,
    /// The RMS error of the electron content.
    Rms,
    /// The height of the single layer.
    Height,
}

impl Kind {
    /// All kinds, in the order of their areas.
    pub const ALL: [Kind; 3] = [Kind::Tec, Kind::Rms, Kind::Height];

    /// The value of so many thousandths, in this kind's unit.
    pub(crate) fn answer(self, thousandths: i32) -> Answer {
        match self {
            Kind::Tec | Kind::Rms => Answer::Tecu(MilliTecu(thousandths)),
            Kind::Height => Answer::Km(MilliKm(thousandths)),
        }
    }
}

impl fmt::Display for Kind {
    fn fmt(&self, f: &mut fmt::Formatter) -> fmt::Result {
        f.pad(match self {
            Kind::Tec => "TEC",
            Kind::Rms => "RMS",
            Kind::Height => "height",
        })
    }
}

/// How a value is found between the maps.
#[derive(Clone, Copy, Debug, PartialEq, Eq, Hash)]
pub enum Method {
    /// The map nearest in time, the earlier of two equally near: document 001's formula (1).
    Nearest,
    /// Interpolated between the two maps around the time: formula (2).
    Between,
    /// As `Between`, each map turned with the Sun from its epoch to the time: formula (3), which 001 recommends.
    Sun,
    /// As `Nearest`, the map turned likewise.
    NearestSun,
}

/// Thousandths of a TECU, 10^16 electrons to the square metre.
#[derive(Clone, Copy, Debug, PartialEq, Eq, PartialOrd, Ord, Hash)]
pub struct MilliTecu(pub i32);

/// Thousandths of a kilometre.
#[derive(Clone, Copy, Debug, PartialEq, Eq, PartialOrd, Ord, Hash)]
pub struct MilliKm(pub i32);

/// A value with its unit.
///
/// ```
/// use ionex::{Answer, MilliKm, MilliTecu};
///
/// assert_eq!(Answer::Tecu(MilliTecu(11_659)).to_string(), "11.659 TECU");
/// assert_eq!(Answer::Km(MilliKm(450_000)).to_string(), "450.000 km");
/// ```
#[derive(Clone, Copy, Debug, PartialEq, Eq, Hash)]
pub enum Answer {
    /// Of a TEC or an RMS map.
    Tecu(MilliTecu),
    /// Of a height map.
    Km(MilliKm),
}

impl Answer {
    /// The thousandths of the unit.
    pub fn thousandths(self) -> i32 {
        match self {
            Answer::Tecu(MilliTecu(thousandths)) | Answer::Km(MilliKm(thousandths)) => thousandths,
        }
    }

    /// The unit: `TECU` or `km`.
    pub fn unit(self) -> &'static str {
        match self {
            Answer::Tecu(_) => "TECU",
            Answer::Km(_) => "km",
        }
    }
}

/// A node as a text writes it: its number, which is [`NO_VALUE`] where it has none, and the exponent that its row stands
/// under.
#[derive(Clone, Copy, Debug, PartialEq, Eq, Hash)]
pub struct Written {
    /// The number as it stands in the text.
    pub number: i32,
    /// The exponent of its row.
    pub exponent: i32,
}

impl Written {
    /// The value in the unit of its kind; nothing where the node has none.
    ///
    /// ```
    /// use ionex::{Kind, Written};
    ///
    /// let written = Written { number: -2, exponent: -2 };
    /// assert_eq!(written.value(Kind::Tec).unwrap().to_string(), "-0.020 TECU");
    /// assert_eq!(Written { number: 9999, ..written }.value(Kind::Tec), None);
    /// ```
    pub fn value(self, kind: Kind) -> Option<Answer> {
        let tens = match self.exponent {
            -3 => 1,
            -2 => 10,
            -1 => 100,
            0 => 1000,
            _ => return None,
        };
        let stands = self.number != NO_VALUE && (-9999..=99_999).contains(&self.number);
        stands.then(|| kind.answer(self.number * tens))
    }
}

/// Thousandths as a decimal number.
pub(crate) fn decimal(thousandths: i32) -> String {
    let sign = if thousandths < 0 { "-" } else { "" };
    let size = thousandths.unsigned_abs();
    format!("{sign}{}.{:03}", size / 1000, size % 1000)
}

impl fmt::Display for Answer {
    fn fmt(&self, f: &mut fmt::Formatter) -> fmt::Result {
        write!(f, "{} {}", decimal(self.thousandths()), self.unit())
    }
}

impl fmt::Display for MilliTecu {
    fn fmt(&self, f: &mut fmt::Formatter) -> fmt::Result {
        Answer::Tecu(*self).fmt(f)
    }
}

impl fmt::Display for MilliKm {
    fn fmt(&self, f: &mut fmt::Formatter) -> fmt::Result {
        Answer::Km(*self).fmt(f)
    }
}
