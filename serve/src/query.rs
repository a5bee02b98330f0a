//! What stands behind the question mark, and the words of kinds, methods, times and carriers.

use crate::json::short;
use ionex::{Carrier, Epoch, Kind, Method, Place};

pub const KINDS: [(&str, Kind); 3] = [
    ("tec", Kind::Tec),
    ("rms", Kind::Rms),
    ("height", Kind::Height),
];
pub const METHODS: [(&str, Method); 4] = [
    ("between", Method::Between),
    ("sun", Method::Sun),
    ("nearest", Method::Nearest),
    ("nearest-sun", Method::NearestSun),
];

/// Characters of a word that a message quotes.
pub const QUOTED: usize = 60;

/// Names and values, each once, percent signs undone.
pub struct Query(Vec<(String, String)>);

impl Query {
    pub fn parse(text: &str, known: &[&str]) -> Result<Query, String> {
        let mut found: Vec<(String, String)> = Vec::new();
        for part in text.split('&').filter(|part| !part.is_empty()) {
            let (name, value) = part.split_once('=').unwrap_or((part, ""));
            let (name, value) = (plain(name)?, plain(value)?);
            if !known.contains(&name.as_str()) {
                let name = short(&name, QUOTED);
                return Err(format!(
                    "unknown parameter {name}: expected {}",
                    known.join(", ")
                ));
            }
            if found.iter().any(|(other, _)| *other == name) {
                return Err(format!("{name} is given twice"));
            }
            found.push((name, value));
        }
        Ok(Query(found))
    }

    pub fn get(&self, name: &str) -> Option<&str> {
        let found = self.0.iter().find(|(other, _)| other == name);
        found.map(|(_, value)| value.as_str())
    }

    fn needed(&self, name: &str) -> Result<&str, String> {
        self.get(name).ok_or(format!("{name} is missing"))
    }

    pub fn kind(&self) -> Result<Kind, String> {
        choice("kind", self.get("kind").unwrap_or("tec"), &KINDS)
    }

    pub fn method(&self) -> Result<Method, String> {
        choice("method", self.get("method").unwrap_or("between"), &METHODS)
    }

    pub fn place(&self) -> Result<Place, String> {
        let (lat, lon) = (self.needed("lat")?, self.needed("lon")?);
        Ok(Place::new(hundredths(lat)?, hundredths(lon)?))
    }

    pub fn time(&self) -> Result<Epoch, String> {
        time(self.needed("time")?)
    }

    pub fn layer(&self) -> Result<u64, String> {
        layer(self.get("layer").unwrap_or("0"))
    }

    pub fn carrier(&self) -> Result<Carrier, String> {
        carrier(self.get("carrier").unwrap_or("L1"))
    }
}

/// Degrees with two decimals at most: a place is never rounded.
pub fn hundredths(word: &str) -> Result<i32, String> {
    let place = Place::from_degrees(word, "0");
    place
        .map(|place| place.lat)
        .map_err(|fault| told(word, fault.expected()))
}

/// A date and a time of day, or Unix seconds.
pub fn time(word: &str) -> Result<Epoch, String> {
    let fault = || told(word, "a time as 2010-12-04T06:30:00, or Unix seconds");
    let digits = word.strip_prefix('-').unwrap_or(word);
    if !digits.is_empty() && digits.bytes().all(|byte| byte.is_ascii_digit()) {
        let seconds = word.parse().map_err(|_| fault())?;
        return Epoch::from_unix(seconds).map_err(|_| fault());
    }
    word.parse().map_err(|_| fault())
}

pub fn layer(word: &str) -> Result<u64, String> {
    let digits = word.bytes().all(|byte| byte.is_ascii_digit());
    let number = word.parse().ok().filter(|_| digits);
    number.ok_or_else(|| {
        format!(
            "layer {}: expected a whole number from 0 on",
            short(word, QUOTED)
        )
    })
}

pub fn carrier(word: &str) -> Result<Carrier, String> {
    word.parse()
        .map_err(|fault: ionex::ParseError| told(word, fault.expected()))
}

pub fn choice<T: Copy>(name: &str, word: &str, choices: &[(&str, T)]) -> Result<T, String> {
    let found = choices.iter().find(|(name, _)| *name == word);
    let fault = || {
        let names: Vec<&str> = choices.iter().map(|(name, _)| *name).collect();
        format!(
            "{name} {}: expected one of {}",
            short(word, QUOTED),
            names.join(", ")
        )
    };
    found.map(|(_, choice)| *choice).ok_or_else(fault)
}

fn told(word: &str, expected: &str) -> String {
    format!("{:?}: expected {expected}", short(word, QUOTED))
}

/// Percent signs and plus signs undone.
fn plain(text: &str) -> Result<String, String> {
    let mut bytes = Vec::with_capacity(text.len());
    let mut rest = text.bytes();
    while let Some(byte) = rest.next() {
        bytes.push(match byte {
            b'+' => b' ',
            b'%' => {
                let mut digit = || rest.next().and_then(|byte| char::from(byte).to_digit(16));
                match (digit(), digit()) {
                    (Some(high), Some(low)) => (16 * high + low) as u8,
                    _ => return Err("a percent sign without two digits".to_string()),
                }
            }
            byte => byte,
        });
    }
    String::from_utf8(bytes).map_err(|_| "a parameter that is not UTF-8".to_string())
}

#[cfg(test)]
mod tests {
    use super::*;

    #[test]
    fn times_of_both_kinds() {
        assert_eq!(time("1291444200"), time("2010-12-04T06:30:00"));
        assert_eq!(
            time("-1").map(|time| time.to_string()),
            Ok("1969-12-31T23:59:59".to_string())
        );
        for word in [
            "",
            "-",
            "noon",
            "99999999999999999999",
            "1e9",
            "2010-02-30T00:00:00",
        ] {
            assert!(time(word).is_err(), "{word}");
        }
    }

    #[test]
    fn a_query_is_read_strictly() {
        let query =
            Query::parse("lat=5.00&time=2000-01-01+00%3A30", &["lat", "time"]).expect("a query");
        assert_eq!(
            query.time().map(|time| time.to_string()),
            Ok("2000-01-01T00:30:00".to_string())
        );
        assert_eq!(query.place(), Err("lon is missing".to_string()));
        for (text, words) in [
            ("lat=1&lat=2", "lat is given twice"),
            ("x=1", "unknown parameter x: expected lat, time"),
            ("lat=%zz", "a percent sign without two digits"),
            ("lat=%ff", "a parameter that is not UTF-8"),
        ] {
            assert_eq!(
                Query::parse(text, &["lat", "time"]).err(),
                Some(words.to_string())
            );
        }
    }
}
