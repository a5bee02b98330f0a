//! Refusals of blocks of biases: a satellite or a station that was given before (5), or of a system that is not read (7).

use super::records::{bias_record_of, label_of, Record};
use super::state::Stage;
use super::Place;
use crate::text::{self, Card};
use std::collections::BTreeMap;

pub fn twice(place: &Place) -> String {
    let Some(record) = place.record else {
        return String::new();
    };
    let given = given(record, &place.card);
    let mut earlier = (1..place.line)
        .zip(records_before(place.text))
        .filter_map(|(line, found)| found.map(|card| (line, card)));
    let first = earlier.find(|(_, card)| {
        bias_record_of(card)
            .is_some_and(|other| other.label == record.label && self::given(other, card) == given)
    });
    let name = match record.label {
        "PRN / BIAS / RMS" => format!("satellite {given}"),
        _ => format!("station {given}"),
    };
    match first {
        Some((line, _)) => format!("{name} once: line {line} has it"),
        None => format!("{name} once"),
    }
}

/// How many records of other systems there are in all, by their letters, where there are several.
pub fn other_systems(place: &Place) -> Option<String> {
    let letter = |card: &Card| bias_record_of(card).map(|_| char::from(card[3]));
    if place.number != 7 || place.state.stage != Stage::Aux || letter(&place.card).is_none_or(read)
    {
        return None;
    }
    let mut counts = BTreeMap::new();
    let cards = records_before(place.text).flatten();
    for other in cards
        .filter_map(|card| letter(&card))
        .filter(|&letter| !read(letter))
    {
        *counts.entry(other).or_insert(0) += 1;
    }
    let all: usize = counts.values().sum();
    if all < 2 {
        return None;
    }
    let each: Vec<String> = counts
        .iter()
        .map(|(letter, count)| format!("{count} of {letter}"))
        .collect();
    Some(format!(
        "only biases of G (GPS) and R (GLONASS) are read; this file has {all} records of other systems: {}",
        each.join(", ")
    ))
}

/// Whether biases of a system are read; a blank is GPS.
fn read(letter: char) -> bool {
    matches!(letter, ' ' | 'G' | 'R')
}

/// Which satellite or station a record is of: `G07`, or `BRUS 13101M004 of system G`.
fn given(record: &Record, card: &Card) -> String {
    let letter = match card[3] {
        b' ' => 'G',
        letter => char::from(letter),
    };
    match record.label {
        "PRN / BIAS / RMS" => {
            let number = text::number(card, 5, 2).unwrap_or(0);
            format!("{letter}{number:02}")
        }
        _ => {
            let name = String::from_utf8_lossy(&card[6..26]);
            format!("{} of system {letter}", name.trim_end())
        }
    }
}

/// For each line its columns, where it stands in a block of biases.
fn records_before(text: &[u8]) -> impl Iterator<Item = Option<Card>> + '_ {
    // Inside an aux block, and whether that is one of biases.
    let mut block = None;
    text::lines(text).map(move |line| {
        let card = text::card(line);
        match (block, label_of(&card)) {
            (None, "START OF AUX DATA") => {
                block = Some(card[..60].trim_ascii_end() == b"DIFFERENTIAL CODE BIASES");
                None
            }
            (Some(_), "END OF AUX DATA") => {
                block = None;
                None
            }
            (Some(true), _) => Some(card),
            _ => None,
        }
    })
}
