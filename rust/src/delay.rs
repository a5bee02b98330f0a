//! What the electrons on the way cost a signal: the group delay of a carrier, in metres.

use crate::epoch::Epoch;
use crate::ffi;
use crate::mapset::MapSet;
use crate::place::Place;
use crate::refusal::Refusal;
use crate::value::{Kind, Method, MilliTecu};
use crate::words::ParseError;
use std::fmt;
use std::str::FromStr;

/// The frequency of a carrier, in hertz. Delays are served from 1.0e9 to 2.0e9 and refused (25) elsewhere.
///
/// ```
/// use ionex::Carrier;
///
/// assert_eq!("L1".parse(), Ok(Carrier::L1));
/// assert_eq!("1176450000".parse(), Ok(Carrier::L5));
/// assert_eq!("1.2276e9".parse(), Ok(Carrier::L2));
/// assert_eq!(Carrier::L1.to_string(), "1575420000 Hz");
/// assert!("L3".parse::<Carrier>().is_err());
/// ```
#[derive(Clone, Copy, Debug, PartialEq, PartialOrd)]
pub struct Carrier(f64);

impl Carrier {
    /// 1575.42 MHz, of GPS.
    pub const L1: Carrier = Carrier(1_575_420_000.0);
    /// 1227.60 MHz, of GPS.
    pub const L2: Carrier = Carrier(1_227_600_000.0);
    /// 1176.45 MHz, of GPS.
    pub const L5: Carrier = Carrier(1_176_450_000.0);

    /// The carriers that have a name.
    pub const NAMED: [(&'static str, Carrier); 3] = [
        ("L1", Carrier::L1),
        ("L2", Carrier::L2),
        ("L5", Carrier::L5),
    ];

    /// The carrier of this frequency; any number may be given.
    pub const fn from_hertz(hertz: f64) -> Carrier {
        Carrier(hertz)
    }

    /// The frequency in hertz.
    pub const fn hertz(self) -> f64 {
        self.0
    }
}

impl FromStr for Carrier {
    type Err = ParseError;

    /// `L1`, `L2`, `L5`, or hertz as `1575420000` or `1.57542e9`.
    fn from_str(word: &str) -> Result<Carrier, ParseError> {
        if let Some((_, carrier)) = Carrier::NAMED.iter().find(|(name, _)| *name == word) {
            return Ok(*carrier);
        }
        // `nan` and `inf` are numbers to `parse`, but no frequencies.
        match word.parse() {
            Ok(hertz) if f64::is_finite(hertz) => Ok(Carrier(hertz)),
            _ => Err(ParseError::new(word, "L1, L2, L5 or hertz, as 1575420000")),
        }
    }
}

impl fmt::Display for Carrier {
    fn fmt(&self, f: &mut fmt::Formatter) -> fmt::Result {
        write!(f, "{} Hz", self.0)
    }
}

/// Electron content in TECU.
#[derive(Clone, Copy, Debug, PartialEq, PartialOrd)]
pub struct Tecu(pub f64);

/// A length in metres.
#[derive(Clone, Copy, Debug, PartialEq, PartialOrd)]
pub struct Metres(pub f64);

impl fmt::Display for Tecu {
    fn fmt(&self, f: &mut fmt::Formatter) -> fmt::Result {
        write!(f, "{:.3} TECU", self.0)
    }
}

impl fmt::Display for Metres {
    /// In tenths of a millimetre: a thousandth of a TECU is one of them or more.
    fn fmt(&self, f: &mut fmt::Formatter) -> fmt::Result {
        write!(f, "{:.4} m", self.0)
    }
}

/// A group delay, beside what it is the delay of.
#[derive(Clone, Copy, Debug, PartialEq)]
pub struct Delay {
    /// The carrier that is delayed.
    pub carrier: Carrier,
    /// The electron content that delays it.
    pub tecu: Tecu,
    /// The delay itself.
    pub metres: Metres,
}

impl fmt::Display for Delay {
    fn fmt(&self, f: &mut fmt::Formatter) -> fmt::Result {
        write!(f, "{} ({} at {})", self.metres, self.tecu, self.carrier)
    }
}

/// What the archive answers, by its number and its record.
fn told(number: u64, record: [f64; 3]) -> Result<Delay, Refusal> {
    let [carrier, tecu, metres] = record;
    match number {
        0 => Ok(Delay {
            carrier: Carrier(carrier),
            tecu: Tecu(tecu),
            metres: Metres(metres),
        }),
        number => Err(Refusal::plain(number)),
    }
}

impl MilliTecu {
    /// The delay that this electron content is to a carrier: its TECU times 4.03e17, by the square of the frequency. Refusal
    /// 25 outside 1.0e9 to 2.0e9 hertz.
    ///
    /// ```
    /// use ionex::{Carrier, MilliTecu};
    ///
    /// let delay = MilliTecu(1000).delay(Carrier::L1)?;
    /// assert_eq!(delay.to_string(), "0.1624 m (1.000 TECU at 1575420000 Hz)");
    /// # Ok::<(), ionex::Refusal>(())
    /// ```
    ///
    /// A height has no delay, and the compiler says so:
    ///
    /// ```compile_fail
    /// use ionex::{Carrier, MilliKm};
    ///
    /// let delay = MilliKm(1000).delay(Carrier::L1)?;
    /// # Ok::<(), ionex::Refusal>(())
    /// ```
    pub fn delay(self, carrier: Carrier) -> Result<Delay, Refusal> {
        let mut record = [0.0; 3];
        let number = ffi::tecu_delay(self.0, carrier.0, &mut record);
        told(number, record)
    }
}

impl MapSet {
    /// The delay at a place and time, of a TEC or an RMS value as [`MapSet::ask`] finds it. Refusal 23 for heights, then as
    /// [`MapSet::ask`], then 25 as [`MilliTecu::delay`].
    ///
    /// ```
    /// use ionex::{Carrier, Kind, MapSet, Method};
    ///
    /// let maps = MapSet::read(&std::fs::read("../tests/examples/accepted-canonical.inx")?)?;
    /// let (place, time) = ("10.00,20.00".parse()?, "2000-01-01T02:00:00".parse()?);
    /// let delay = maps.delay(Kind::Tec, Method::Between, 0, place, time, Carrier::L1)?;
    /// assert_eq!(delay.to_string(), "0.2111 m (1.300 TECU at 1575420000 Hz)");
    /// # Ok::<(), Box<dyn std::error::Error>>(())
    /// ```
    pub fn delay(
        &self,
        kind: Kind,
        method: Method,
        layer: u64,
        place: Place,
        time: Epoch,
        carrier: Carrier,
    ) -> Result<Delay, Refusal> {
        let asked = MapSet::asked(kind, method, layer, place, time);
        let mut record = [0.0; 3];
        let number = ffi::delay(self.as_areas().given(), asked, carrier.0, &mut record);
        told(number, record)
    }
}
