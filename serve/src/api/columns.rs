//! Many questions in one body: columns of places and times, answered from one map set in one call.
//!
//! `{"lat": [..], "lon": [..], "time": [..] or one, "kind": .., "method": .., "layer": .., "carrier": ..}`. The body is never made
//! a tree: each member stays the text that it is until its numbers are taken from it, digit by digit and without rounding.

use super::{at, large, lease, named, Fault, QUESTIONS};
use crate::http::response::Response;
use crate::json::{push_thousandths, push_whole, short, Object};
use crate::query::{self, QUOTED};
use crate::service::Service;
use ionex::station::InForce;
use ionex::{Carrier, Epoch, Kind, Method, MilliTecu, Questions, Refusal};
use serde::de::{Deserialize, Deserializer, Error, MapAccess, Visitor};
use serde_json::value::RawValue;
use std::fmt::{self, Write};
use std::sync::Arc;

const MEMBERS: [&str; 7] = ["lat", "lon", "time", "kind", "method", "layer", "carrier"];

/// The members of a body in the order of their names above, each as it stands in it.
struct Members<'a>([Option<&'a RawValue>; MEMBERS.len()]);

struct MembersVisitor;

impl<'de> Visitor<'de> for MembersVisitor {
    type Value = Members<'de>;

    fn expecting(&self, f: &mut fmt::Formatter) -> fmt::Result {
        f.write_str("an object")
    }

    fn visit_map<A: MapAccess<'de>>(self, mut map: A) -> Result<Members<'de>, A::Error> {
        let mut members = Members([None; MEMBERS.len()]);
        while let Some(name) = map.next_key::<String>()? {
            let Some(at) = MEMBERS.iter().position(|known| *known == name) else {
                let (name, known) = (short(&name, QUOTED), MEMBERS.join(", "));
                return Err(A::Error::custom(format!(
                    "unknown member {name}: expected {known}"
                )));
            };
            if members.0[at].replace(map.next_value()?).is_some() {
                return Err(A::Error::custom(format!("{name} is given twice")));
            }
        }
        Ok(members)
    }
}

impl<'de> Deserialize<'de> for Members<'de> {
    fn deserialize<D: Deserializer<'de>>(deserializer: D) -> Result<Members<'de>, D::Error> {
        deserializer.deserialize_map(MembersVisitor)
    }
}

impl<'a> Members<'a> {
    fn get(&self, name: &str) -> Option<&'a str> {
        let at = MEMBERS.iter().position(|known| *known == name)?;
        self.0[at].map(|raw| raw.get().trim())
    }

    fn needed(&self, name: &str) -> Result<&'a str, String> {
        self.get(name).ok_or(format!("{name} is missing"))
    }

    /// A word of letters and digits, in quotes.
    fn word(&self, name: &str, other: &'static str) -> Result<&'a str, String> {
        match self.get(name) {
            None => Ok(other),
            Some(raw) => quoted(raw).ok_or(format!("{name}: expected text")),
        }
    }
}

impl Members<'_> {
    /// As many questions as there can be, before they are read.
    fn questions(&self) -> usize {
        let commas = |raw: &str| raw.bytes().filter(|byte| *byte == b',').count();
        let most = self.get("lat").map_or(0, |raw| 1 + commas(raw));
        most.min(QUESTIONS)
    }

    fn asked(&self) -> Result<Asked, String> {
        let lats = column(self.needed("lat")?, "lat", query::hundredths)?;
        let lons = column(self.needed("lon")?, "lon", query::hundredths)?;
        if lats.len() != lons.len() {
            return Err(format!(
                "{} latitudes and {} longitudes",
                lats.len(),
                lons.len()
            ));
        }
        let given = self.needed("time")?;
        let seconds = if given.starts_with('[') {
            column(given, "time", second)?
        } else {
            vec![second(given)?; lats.len()]
        };
        if seconds.len() != lats.len() {
            return Err(format!("{} places and {} times", lats.len(), seconds.len()));
        }
        let carrier = self
            .get("carrier")
            .map(|raw| query::carrier(quoted(raw).unwrap_or(raw)));
        Ok(Asked {
            kind: query::choice("kind", self.word("kind", "tec")?, &query::KINDS)?,
            method: query::choice("method", self.word("method", "between")?, &query::METHODS)?,
            layer: query::layer(self.get("layer").unwrap_or("0"))?,
            carrier: carrier.transpose()?,
            lats,
            lons,
            seconds,
        })
    }
}

/// What is asked, in the library's numbers.
struct Asked {
    kind: Kind,
    method: Method,
    layer: u64,
    carrier: Option<Carrier>,
    lats: Vec<i32>,
    lons: Vec<i32>,
    seconds: Vec<u64>,
}

pub fn ask(service: &Service, body: &[u8]) -> Result<Response, Fault> {
    let members = members(body)?;
    let lease = lease(service, members.questions())?;
    let asked = members.asked()?;
    service.counts.asked(asked.lats.len());
    let maps = maps(service, &asked.seconds)?;
    let told = asked.answered(&maps);
    let mut told = told.map_err(|refusal| Fault::Refused(refusal, Arc::clone(&maps)))?;
    Ok(large(named(&mut told, service, &maps).end(), lease))
}

impl Asked {
    fn answered(&self, maps: &InForce) -> Result<Object, Refusal> {
        let count = self.lats.len();
        let (mut numbers, mut values) = (vec![0; count], vec![0; count]);
        let questions = Questions {
            lats: &self.lats,
            lons: &self.lons,
            seconds: &self.seconds,
        };
        let (kind, method, layer) = (self.kind, self.method, self.layer);
        maps.maps
            .ask_all_into(kind, method, layer, questions, &mut numbers, &mut values)?;
        let refused = all(numbers.iter(), |out, number| {
            push_whole(out, i32::from(*number))
        });
        let mut told = Object::new();
        told.put("values", answers(&numbers, &values, push_thousandths))
            .put("thousandths", answers(&numbers, &values, push_whole))
            .text("unit", unit(kind))
            .put("refused", refused);
        if let (Some(carrier), true) = (self.carrier, kind != Kind::Height) {
            // A carrier that is refused is refused for every content.
            MilliTecu(0).delay(carrier)?;
            told.put("delay_metres", delays(&numbers, &values, carrier));
            told.put("carrier_hertz", carrier.hertz());
        }
        Ok(told)
    }
}

fn delays(numbers: &[u8], values: &[i32], carrier: Carrier) -> String {
    answers(numbers, values, |out, value| {
        if let Ok(delay) = MilliTecu(value).delay(carrier) {
            let _ = write!(out, "{}", delay.metres.0);
        }
    })
}

pub fn unit(kind: Kind) -> &'static str {
    if kind == Kind::Height {
        "km"
    } else {
        "TECU"
    }
}

/// One map set for all: that which covers every time; where there is none, that of the first.
fn maps(service: &Service, seconds: &[u64]) -> Result<Arc<InForce>, Fault> {
    let range = seconds.iter().min().zip(seconds.iter().max());
    let covering = range.and_then(|(first, last)| {
        let (first, last) = (Epoch::from_seconds(*first), Epoch::from_seconds(*last));
        service.station.over(first, last)
    });
    let first = Epoch::from_seconds(seconds.first().copied().unwrap_or(0));
    covering.map_or_else(|| at(service, first), Ok)
}

fn members(body: &[u8]) -> Result<Members<'_>, String> {
    let text = std::str::from_utf8(body).map_err(|_| "not understood: not UTF-8".to_string())?;
    serde_json::from_str(text).map_err(|fault| format!("not understood: {fault}"))
}

/// A text without escapes, out of its quotes.
fn quoted(raw: &str) -> Option<&str> {
    let word = raw.strip_prefix('"')?.strip_suffix('"')?;
    (!word.contains(['"', '\\'])).then_some(word)
}

fn second(raw: &str) -> Result<u64, String> {
    query::time(quoted(raw).unwrap_or(raw)).map(Epoch::seconds)
}

/// The elements of a list that is JSON. None of those that are understood has a comma in it, so each comma ends one.
fn column<T>(
    raw: &str,
    name: &str,
    of: impl Fn(&str) -> Result<T, String>,
) -> Result<Vec<T>, String> {
    let inside = raw
        .strip_prefix('[')
        .and_then(|rest| rest.strip_suffix(']'));
    let inside = inside.ok_or(format!("{name}: expected a list"))?.trim();
    if inside.is_empty() {
        return Ok(Vec::new());
    }
    let count = 1 + inside.bytes().filter(|byte| *byte == b',').count();
    if count > QUESTIONS {
        return Err(format!("{name}: more than {QUESTIONS} questions"));
    }
    let mut all = Vec::with_capacity(count);
    for element in inside.split(',') {
        all.push(of(element.trim()).map_err(|words| format!("{name}: {words}"))?);
    }
    Ok(all)
}

/// A list, each element written by a function.
fn all<T>(elements: impl ExactSizeIterator<Item = T>, write: impl Fn(&mut String, T)) -> String {
    let mut out = String::with_capacity(2 + 8 * elements.len());
    out.push('[');
    for (at, element) in elements.enumerate() {
        if at > 0 {
            out.push(',');
        }
        write(&mut out, element);
    }
    out.push(']');
    out
}

/// A list of the values, null where one was refused.
pub fn answers(numbers: &[u8], values: &[i32], write: impl Fn(&mut String, i32)) -> String {
    all(
        numbers.iter().zip(values),
        |out, (number, value)| match number {
            0 => write(out, *value),
            _ => out.push_str("null"),
        },
    )
}

#[cfg(test)]
mod tests {
    use super::*;

    fn asked(body: &[u8]) -> Result<Asked, String> {
        members(body)?.asked()
    }

    #[test]
    fn a_body_is_read_exactly() {
        let body = br#" {"lon" : [5, -5.25 ],"lat":[5.0,-0.01],"time":[946686600,"2000-01-01T00:30:00"],"carrier":1.5e9} "#;
        let asked = asked(body).expect("a body");
        assert_eq!((asked.lats, asked.lons), (vec![500, -1], vec![500, -525]));
        assert_eq!(asked.seconds[0], asked.seconds[1]);
        assert_eq!(asked.carrier, Some(Carrier::from_hertz(1.5e9)));
    }

    #[test]
    fn what_is_not_understood() {
        for (body, words) in [
            ("", "EOF"),
            ("[]", "expected an object"),
            (
                r#"{"lat":[1],"lon":[],"time":0}"#,
                "1 latitudes and 0 longitudes",
            ),
            (r#"{"lat":[1],"lon":[1],"time":[]}"#, "1 places and 0 times"),
            (r#"{"lat":[1.001],"lon":[1],"time":0}"#, "two decimals"),
            (
                r#"{"lat":[5.0000000000000000001],"lon":[1],"time":0}"#,
                "two decimals",
            ),
            (r#"{"lat":[1e0],"lon":[1],"time":0}"#, "two decimals"),
            (r#"{"lat":["1"],"lon":[1],"time":0}"#, "two decimals"),
            (r#"{"lat":[[1]],"lon":[1],"time":0}"#, "two decimals"),
            (r#"{"lat":1,"lon":[1],"time":0}"#, "lat: expected a list"),
            (
                r#"{"lat":[1],"lat":[1],"lon":[1],"time":0}"#,
                "lat is given twice",
            ),
            (r#"{"lat":[1],"lon":[1],"time":"noon"}"#, "expected a time"),
            (r#"{"lat":[1],"lon":[1],"time":0.5}"#, "expected a time"),
            (r#"{"lat":[1],"lon":[1]}"#, "time is missing"),
            (
                r#"{"lat":[1],"lon":[1],"time":0,"mode":1}"#,
                "unknown member mode",
            ),
            (
                r#"{"lat":[1],"lon":[1],"time":0,"kind":1}"#,
                "kind: expected text",
            ),
            (
                r#"{"lat":[1],"lon":[1],"time":0,"layer":"0"}"#,
                "expected a whole number",
            ),
        ] {
            let told = asked(body.as_bytes()).err().expect(body);
            assert!(told.contains(words), "{body}: {told}");
            assert!(told.len() < 300, "{told}");
        }
        let deep = format!(
            "{{\"lat\":{}{}}}",
            "[".repeat(1_000_000),
            "]".repeat(1_000_000)
        );
        assert!(asked(deep.as_bytes()).is_err());
        let many = format!(
            "{{\"lat\":[{}0],\"lon\":[],\"time\":0}}",
            "0,".repeat(QUESTIONS)
        );
        assert!(asked(many.as_bytes())
            .err()
            .expect("too many")
            .contains("more than 100000 questions"));
    }
}
