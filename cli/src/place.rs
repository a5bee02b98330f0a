//! Places as people write them.

use ionex::{ParseError, Place};
use std::borrow::Cow;

/// A place, and whether its words had more than the hundredths that it has.
pub type Rounded = (Place, bool);

/// `47.25,8.50`; with `round`, of any number of decimals.
pub fn parse(word: &str, round: bool) -> Result<Rounded, ParseError> {
    match word.split_once(',') {
        Some((lat, lon)) if round => of_degrees(lat.trim(), lon.trim(), true),
        _ => Ok((word.parse()?, false)),
    }
}

/// The same of latitude and longitude.
pub fn of_degrees(lat: &str, lon: &str, round: bool) -> Result<Rounded, ParseError> {
    if !round {
        return Ok((Place::from_degrees(lat, lon)?, false));
    }
    let (lat, lon) = (hundredths(lat), hundredths(lon));
    let rounded = [&lat, &lon]
        .iter()
        .any(|word| matches!(word, Cow::Owned(_)));
    Ok((Place::from_degrees(&lat, &lon)?, rounded))
}

/// A number with more than two decimals, rounded to two, halves away from zero; every other word as it is.
fn hundredths(word: &str) -> Cow<'_, str> {
    let kept = Cow::Borrowed(word);
    let Some((whole, fraction)) = word.split_once('.') else {
        return kept;
    };
    let digits = |word: &str| !word.is_empty() && word.bytes().all(|byte| byte.is_ascii_digit());
    let (sign, size) = match whole.strip_prefix('-') {
        Some(size) => ("-", size),
        None => ("", whole.strip_prefix('+').unwrap_or(whole)),
    };
    // No degrees have more digits before their point.
    if fraction.len() <= 2 || !digits(fraction) || !digits(size) || size.len() > 9 {
        return kept;
    }
    let up = u64::from(fraction.as_bytes()[2] >= b'5');
    match format!("{size}{}", &fraction[..2]).parse::<u64>() {
        Ok(cut) => Cow::Owned(format!(
            "{sign}{}.{:02}",
            (cut + up) / 100,
            (cut + up) % 100
        )),
        Err(_) => kept,
    }
}

#[cfg(test)]
mod tests {
    use super::*;

    #[test]
    fn rounded_to_hundredths() {
        let cases = [
            ("47.2563,8.5417", 4726, 854, true),
            ("-0.005,0.0049", -1, 0, true),
            ("-0.0049999,179.995", 0, 18_000, true),
            ("+1.999,-1.994", 200, -199, true),
            ("47.25,8.5", 4725, 850, false),
            ("47,8.500", 4700, 850, true),
        ];
        for (word, lat, lon, rounded) in cases {
            assert_eq!(
                parse(word, true),
                Ok((Place::new(lat, lon), rounded)),
                "{word}"
            );
        }
        for word in [
            "47.2563,8.5417",
            "1e1,2",
            "a.123,2",
            "1.2.3,4",
            "1.234",
            "1.,2",
            "1,.234",
        ] {
            assert!(parse(word, false).is_err(), "{word}");
        }
        for word in [
            "1e1,2", "a.123,2", "1.2.3,4", "1.234", "1.,2", "1,.234", "1.23x,4",
        ] {
            assert!(parse(word, true).is_err(), "{word}");
        }
    }
}
