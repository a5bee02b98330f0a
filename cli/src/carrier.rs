//! Carriers by the names of their signals.

use ionex::{Carrier, ParseError};

/// The signals of GPS, Galileo and BeiDou, in hertz.
const NAMES: [(&str, f64); 11] = [
    ("L1", 1_575_420_000.0),
    ("L2", 1_227_600_000.0),
    ("L5", 1_176_450_000.0),
    ("E1", 1_575_420_000.0),
    ("E5a", 1_176_450_000.0),
    ("E5b", 1_207_140_000.0),
    ("E6", 1_278_750_000.0),
    ("B1I", 1_561_098_000.0),
    ("B1C", 1_575_420_000.0),
    ("B2a", 1_176_450_000.0),
    ("B3", 1_268_520_000.0),
];

/// The two signals of GLONASS: that of channel 0, and what a channel adds, in hertz.
const CHANNELS: [(&str, f64, f64); 2] = [
    ("G1", 1_602_000_000.0, 562_500.0),
    ("G2", 1_246_000_000.0, 437_500.0),
];

/// The names of carriers, those of GLONASS without a channel.
pub fn names() -> Vec<&'static str> {
    let all = NAMES.iter().map(|(name, _)| *name);
    all.chain(["G1:", "G2:"]).collect()
}

/// A carrier by its name, in large letters or small ones, or by its hertz; or what is wrong with it.
pub fn parse(word: &str) -> Result<Carrier, String> {
    let named = NAMES
        .iter()
        .find(|(name, _)| name.eq_ignore_ascii_case(word));
    if let Some((_, hertz)) = named {
        return Ok(Carrier::from_hertz(*hertz));
    }
    let (name, channel) = word.split_once(':').unwrap_or((word, ""));
    let glonass = CHANNELS
        .iter()
        .find(|(other, ..)| other.eq_ignore_ascii_case(name));
    if let Some((name, first, step)) = glonass {
        return match channel.parse::<i32>() {
            Ok(channel @ -7..=6) => Ok(Carrier::from_hertz(first + step * f64::from(channel))),
            _ => Err(format!(
                "{word:?}: expected a channel from -7 to 6, as {name}:-7"
            )),
        };
    }
    word.parse().map_err(|fault: ParseError| fault.to_string())
}

#[cfg(test)]
mod tests {
    use super::*;

    #[test]
    fn names_and_channels() {
        let hertz = |word| parse(word).map(Carrier::hertz);
        for (word, expected) in [
            ("l1", 1_575_420_000.0),
            ("E5B", 1_207_140_000.0),
            ("b1i", 1_561_098_000.0),
            ("B3", 1_268_520_000.0),
            ("E6", 1_278_750_000.0),
            ("G1:-7", 1_598_062_500.0),
            ("g1:0", 1_602_000_000.0),
            ("G1:6", 1_605_375_000.0),
            ("G2:-7", 1_242_937_500.0),
            ("g2:6", 1_248_625_000.0),
            ("1.2276e9", 1_227_600_000.0),
            ("2492028000", 2_492_028_000.0),
        ] {
            assert_eq!(hertz(word), Ok(expected), "{word}");
        }
        for word in [
            "L3", "G1", "G1:7", "G1:-8", "G2:x", "G3:1", "E1:1", "nan", "",
        ] {
            assert!(parse(word).is_err(), "{word}");
        }
    }
}
