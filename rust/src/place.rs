//! A place on the Earth.

use crate::words::{digits, ParseError};
use std::fmt;
use std::str::FromStr;

/// A place on the Earth, in hundredths of a degree. Whole turns of longitude make no difference to a question.
///
/// ```
/// use ionex::Place;
///
/// let zurich: Place = "47.25,8.5".parse()?;
/// assert_eq!(zurich, Place::new(4725, 850));
/// assert_eq!(zurich.to_string(), "47.25,8.50");
/// // Three decimals are an error: a place is never rounded.
/// assert!("47.254,8.5".parse::<Place>().is_err());
/// # Ok::<(), ionex::ParseError>(())
/// ```
#[derive(Clone, Copy, Debug, PartialEq, Eq, Hash)]
pub struct Place {
    /// Latitude in hundredths of a degree, north positive.
    pub lat: i32,
    /// Longitude in hundredths of a degree, east positive.
    pub lon: i32,
}

impl Place {
    /// The place at these hundredths of a degree.
    pub const fn new(lat_hundredths: i32, lon_hundredths: i32) -> Place {
        Place {
            lat: lat_hundredths,
            lon: lon_hundredths,
        }
    }

    /// The place at two numbers of degrees with at most two decimals each.
    pub fn from_degrees(lat: &str, lon: &str) -> Result<Place, ParseError> {
        Ok(Place::new(hundredths(lat)?, hundredths(lon)?))
    }

    /// As `FromStr`: `47.25,8.50`, latitude first.
    pub fn parse(word: &str) -> Result<Place, ParseError> {
        word.parse()
    }
}

impl FromStr for Place {
    type Err = ParseError;

    /// Latitude and longitude in degrees, with at most two decimals each and a comma between them.
    fn from_str(word: &str) -> Result<Place, ParseError> {
        let Some((lat, lon)) = word.split_once(',') else {
            return Err(ParseError::new(
                word,
                "latitude and longitude with a comma between them, as 47.25,8.50",
            ));
        };
        Place::from_degrees(lat.trim(), lon.trim())
    }
}

/// The hundredths of a number of degrees.
fn hundredths(word: &str) -> Result<i32, ParseError> {
    let fault = || ParseError::new(word, "degrees with at most two decimals, as 47.25 or -8.5");
    let (sign, unsigned) = match word.strip_prefix('-') {
        Some(rest) => (-1, rest),
        None => (1, word.strip_prefix('+').unwrap_or(word)),
    };
    let (whole, fraction) = match unsigned.split_once('.') {
        Some((whole, fraction)) => (
            whole,
            match fraction.len() {
                1 => digits(fraction).map(|tenths| 10 * tenths),
                2 => digits(fraction),
                _ => None,
            },
        ),
        None => (unsigned, Some(0)),
    };
    let whole = digits(whole)
        .and_then(|whole| i64::try_from(whole).ok())
        .and_then(|whole| whole.checked_mul(100));
    let (Some(whole), Some(fraction)) = (whole, fraction) else {
        return Err(fault());
    };
    i32::try_from(sign * (whole.saturating_add(fraction as i64))).map_err(|_| fault())
}

impl fmt::Display for Place {
    fn fmt(&self, f: &mut fmt::Formatter) -> fmt::Result {
        let degrees = |hundredths: i32| {
            let sign = if hundredths < 0 { "-" } else { "" };
            let size = hundredths.unsigned_abs();
            format!("{sign}{}.{:02}", size / 100, size % 100)
        };
        write!(f, "{},{}", degrees(self.lat), degrees(self.lon))
    }
}
