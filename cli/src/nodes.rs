//! The nodes of a map in thousandths, or none where a node has no value; row by row.

use crate::question::Question;
use crate::refused;
use crate::status::Stop;
use ionex::{Epoch, Kind, MapSet, Place};

pub fn unit(kind: Kind) -> &'static str {
    match kind {
        Kind::Tec | Kind::Rms => "TECU",
        Kind::Height => "km",
    }
}

/// Latitude and longitude of each node, in tenths of a degree.
pub fn places(maps: &MapSet) -> Vec<(i64, i64)> {
    let header = maps.header();
    let lat = |row| header.latitudes.at(row).unwrap_or(0);
    let lon = |column| header.longitudes.at(column).unwrap_or(0);
    let rows = (0..maps.rows()).map(lat);
    rows.flat_map(|lat| (0..maps.columns()).map(move |column| (lat, lon(column))))
        .collect()
}

/// Of the map of this number, counted from 0.
pub fn of_map(maps: &MapSet, question: &Question, map: usize) -> Vec<Option<i32>> {
    let layer = question.layer as usize;
    let value = |row, column| maps.value(question.kind, map, layer, row, column);
    let nodes =
        (0..maps.rows()).flat_map(|row| (0..maps.columns()).map(move |column| (row, column)));
    nodes
        .map(|(row, column)| Some(value(row, column)?.thousandths()))
        .collect()
}

/// Each node asked at a time.
pub fn at_time(maps: &MapSet, question: &Question, time: Epoch) -> Result<Vec<Option<i32>>, Stop> {
    let asked: Vec<(Place, Epoch)> = places(maps)
        .into_iter()
        .map(|(lat, lon)| (Place::new(10 * lat as i32, 10 * lon as i32), time))
        .collect();
    self::asked(maps, question, &asked)
}

/// The answer to each; a node without a value (22) has none, and every other refusal is that of all.
pub fn asked(
    maps: &MapSet,
    question: &Question,
    asked: &[(Place, Epoch)],
) -> Result<Vec<Option<i32>>, Stop> {
    let found = question.ask_all(maps, asked).into_iter().zip(asked);
    let values = found.map(|(found, &(place, time))| match found {
        Ok(value) => Ok(Some(value.thousandths())),
        Err(refusal) if refusal.number() == 22 => Ok(None),
        Err(refusal) => {
            let reason = question.reason(maps, place, time, &refusal);
            let (number, json) = (refusal.number(), question.json(place, time));
            Err(Stop::Refused {
                words: format!("ionex: {}", refused::question(None, number, &reason).1),
                json: Some(refused::question(Some(json), number, &reason).1),
            })
        }
    });
    values.collect()
}

/// A part of the Earth, in tenths of a degree: between two latitudes, and from one longitude eastward to another.
#[derive(Clone, Copy, Debug, PartialEq, Eq)]
pub struct Region {
    south: i64,
    north: i64,
    west: i64,
    /// How far it goes eastward from there.
    width: i64,
}

impl Region {
    pub const ALL: Region = Region {
        south: -900,
        north: 900,
        west: 0,
        width: 3600,
    };

    /// `S,W,N,E` in degrees with at most one decimal.
    pub fn parse(word: &str) -> Result<Region, String> {
        let fault = || {
            format!(
                "{word:?}: expected S,W,N,E in degrees with at most one decimal, as 35,-10,60,30"
            )
        };
        let sides: Option<Vec<i64>> = word.split(',').map(|side| degrees(side.trim())).collect();
        let Some(&[south, west, north, east]) = sides.as_deref() else {
            return Err(fault());
        };
        if south > north
            || [west, east]
                .iter()
                .any(|side| !(-3600..=3600).contains(side))
        {
            return Err(fault());
        }
        let width = if east - west >= 3600 {
            3600
        } else {
            (east - west).rem_euclid(3600)
        };
        Ok(Region {
            south,
            north,
            west,
            width,
        })
    }

    pub fn holds(&self, lat: i64, lon: i64) -> bool {
        (self.south..=self.north).contains(&lat)
            && (self.width == 3600 || (lon - self.west).rem_euclid(3600) <= self.width)
    }
}

/// The tenths of a number of degrees.
fn degrees(word: &str) -> Option<i64> {
    let (sign, size) = match word.strip_prefix('-') {
        Some(size) => (-1, size),
        None => (1, word),
    };
    let (whole, tenth) = size.split_once('.').unwrap_or((size, "0"));
    let digits = |word: &str| !word.is_empty() && word.bytes().all(|byte| byte.is_ascii_digit());
    let right = digits(whole) && digits(tenth) && tenth.len() == 1 && whole.len() <= 3;
    right.then(|| Some(sign * (10 * whole.parse::<i64>().ok()? + tenth.parse::<i64>().ok()?)))?
}

#[cfg(test)]
mod tests {
    use super::*;

    #[test]
    fn regions() {
        let europe = Region::parse("35,-10,60,30.5").unwrap();
        assert!(europe.holds(350, -100) && europe.holds(600, 305) && europe.holds(475, 3500));
        assert!(!europe.holds(345, 0) && !europe.holds(475, 310) && !europe.holds(475, -105));
        let pacific = Region::parse("-10, 170, 10, -170").unwrap();
        assert!(pacific.holds(0, 1800) && pacific.holds(0, -1750) && pacific.holds(-100, 1700));
        assert!(!pacific.holds(0, 0) && !pacific.holds(0, -1695));
        let all = Region::parse("-90,-180,90,180").unwrap();
        assert!(all.holds(900, 1800) && all.holds(-900, -1800));
        let line = Region::parse("0,5,10,5").unwrap();
        assert!(line.holds(50, 50) && !line.holds(50, 51));
        for word in [
            "",
            "1,2,3",
            "10,0,0,0",
            "1,2,3,4,5",
            "a,1,2,3",
            "1.25,0,2,3",
            "0,0,1,400",
        ] {
            assert!(Region::parse(word).is_err(), "{word}");
        }
    }
}
