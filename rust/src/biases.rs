//! The code biases of a text's header, which the map reading skips.

use crate::ffi;
use crate::refusal::{Refusal, BIAS_AREAS};
use crate::value::decimal;
use std::fmt;

/// How many elements a satellite and a station take in the archive's areas.
const SATELLITE_NUMBERS: usize = 4;
const STATION_NUMBERS: usize = 3;
const STATION_NAME: usize = 20;

/// A text names each of two systems' numbers 1 to 99 at most once.
const MOST_SATELLITES: usize = 198;

/// Thousandths of a nanosecond.
///
/// ```
/// assert_eq!(ionex::MilliNs(-1_234).to_string(), "-1.234 ns");
/// ```
#[derive(Clone, Copy, Debug, PartialEq, Eq, PartialOrd, Ord, Hash)]
pub struct MilliNs(pub i32);

impl fmt::Display for MilliNs {
    fn fmt(&self, f: &mut fmt::Formatter) -> fmt::Result {
        write!(f, "{} ns", decimal(self.0))
    }
}

/// The satellite system that a bias is of.
#[derive(Clone, Copy, Debug, PartialEq, Eq, PartialOrd, Ord, Hash)]
pub enum System {
    /// The letter G, or a blank.
    Gps,
    /// The letter R.
    Glonass,
}

impl System {
    /// Of the archive's number, which is the letter G or R.
    fn of(letter: i32) -> System {
        if letter == i32::from(b'R') {
            System::Glonass
        } else {
            System::Gps
        }
    }

    /// `G` or `R`.
    pub fn letter(self) -> char {
        match self {
            System::Gps => 'G',
            System::Glonass => 'R',
        }
    }
}

impl fmt::Display for System {
    fn fmt(&self, f: &mut fmt::Formatter) -> fmt::Result {
        write!(f, "{}", self.letter())
    }
}

/// A satellite's record, PRN / BIAS / RMS.
#[derive(Clone, Copy, Debug, PartialEq, Eq, Hash)]
pub struct Satellite {
    /// The system that it is of.
    pub system: System,
    /// 1 to 99.
    pub number: u8,
    /// The bias, P1-P2.
    pub bias: MilliNs,
    /// The RMS of the bias.
    pub rms: MilliNs,
}

impl fmt::Display for Satellite {
    /// `G07`
    fn fmt(&self, f: &mut fmt::Formatter) -> fmt::Result {
        write!(f, "{}{:02}", self.system, self.number)
    }
}

/// A station's record, STATION / BIAS / RMS. A station that hears both systems has one for each.
#[derive(Clone, Debug, PartialEq, Eq, Hash)]
pub struct Station {
    /// The system that it hears.
    pub system: System,
    /// Without the blanks at its end; within the IGS four letters, a blank and the DOMES number.
    pub name: String,
    /// The bias, P1-P2.
    pub bias: MilliNs,
    /// The RMS of the bias.
    pub rms: MilliNs,
}

/// The differential code biases (P1-P2) of a text, satellites and stations each in its order; none where the text has no
/// block of them.
///
/// ```
/// use ionex::Biases;
///
/// let text = std::fs::read("../tests/examples/accepted-version-1.inx")?;
/// let biases = Biases::read(&text)?;
/// let first = &biases.satellites[0];
/// assert_eq!(format!("{first} {} {}", first.bias, first.rms), "G01 -1.234 ns 0.005 ns");
/// let last = &biases.stations[1];
/// assert_eq!((last.system.letter(), last.name.as_str(), last.bias.0), ('R', "BRUS 13101M004", -12_345));
/// # Ok::<(), Box<dyn std::error::Error>>(())
/// ```
#[derive(Clone, Debug, Default, PartialEq, Eq)]
pub struct Biases {
    /// The satellites, in the text's order.
    pub satellites: Vec<Satellite>,
    /// The stations, in the text's order.
    pub stations: Vec<Station>,
}

impl Biases {
    /// Reads the biases of a text of either version, those of its aux blocks titled DIFFERENTIAL CODE BIASES.
    ///
    /// Refused where [`crate::MapSet::read`] refuses the text. Else by the first line of such a block that is at fault: 6
    /// where it is ill-formed, 7 for a letter other than G, R or blank (column 4) or a number outside 1 to 99 (column 5), 5
    /// for a satellite, or a station of the same system, that was given before (column 61).
    pub fn read(text: &[u8]) -> Result<Biases, Refusal> {
        // A station's line takes 80 bytes.
        let stations = text.len() / 80;
        let mut areas = Areas {
            satellites: vec![0; MOST_SATELLITES * SATELLITE_NUMBERS],
            stations: vec![0; stations * STATION_NUMBERS],
            names: vec![0; stations * STATION_NAME],
            counts: [0; 2],
        };
        let mut place = [0; 2];
        match ffi::biases(text, areas.lent(), &mut place) {
            0 => Ok(areas.biases()),
            number => Err(Refusal::of_reading(number, place, &BIAS_AREAS)),
        }
    }
}

/// The biases as the archive has them.
struct Areas {
    satellites: Vec<i32>,
    stations: Vec<i32>,
    names: Vec<u8>,
    counts: [u64; 2],
}

impl Areas {
    fn lent(&mut self) -> ffi::LentBiases<'_> {
        ffi::LentBiases {
            satellites: &mut self.satellites,
            stations: &mut self.stations,
            names: &mut self.names,
            counts: &mut self.counts,
        }
    }

    fn biases(&self) -> Biases {
        let [satellites, stations] = self.counts.map(|count| count as usize);
        let named = self.names.chunks_exact(STATION_NAME);
        Biases {
            satellites: self
                .satellites
                .chunks_exact(SATELLITE_NUMBERS)
                .take(satellites)
                .map(satellite)
                .collect(),
            stations: self
                .stations
                .chunks_exact(STATION_NUMBERS)
                .zip(named)
                .take(stations)
                .map(station)
                .collect(),
        }
    }
}

fn satellite(numbers: &[i32]) -> Satellite {
    Satellite {
        system: System::of(numbers[0]),
        number: numbers[1] as u8,
        bias: MilliNs(numbers[2]),
        rms: MilliNs(numbers[3]),
    }
}

fn station((numbers, name): (&[i32], &[u8])) -> Station {
    Station {
        system: System::of(numbers[0]),
        name: String::from_utf8_lossy(name).trim_end().to_string(),
        bias: MilliNs(numbers[1]),
        rms: MilliNs(numbers[2]),
    }
}
