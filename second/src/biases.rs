//! 02, Ask 7: code biases, by "a second reader over the same text, following source
//! document 004".

use crate::labels::{self, Label, Part};
use crate::lines::{self, Card};
use crate::read;
use crate::refusal::{fault, Fault, Refusal};
use Part::{A, D, I, X};

/// "satellite records 3X,A1,I2.2,2F10.3 and station records 3X,A1,2X,A20,2F10.3";
/// 004 has the columns behind them as 34X and 14X.
const SATELLITE: &[Part] = &[X(3), A(1), I(2), D(10), D(10), X(34)];
const STATION: &[Part] = &[X(3), A(1), X(2), A(20), D(10), D(10), X(14)];

/// Columns 1 to 60 of the block's START, and the labels of its records.
const TITLE: &str = "DIFFERENTIAL CODE BIASES";
const SATELLITE_LABEL: &str = "PRN / BIAS / RMS";
const STATION_LABEL: &str = "STATION / BIAS / RMS";

/// Values "in thousandths of a nanosecond".
#[derive(Clone, Copy, Debug, PartialEq, Eq)]
pub struct Satellite {
    /// `G` or `R`.
    pub system: u8,
    pub number: i64,
    pub bias: i64,
    pub rms: i64,
}

#[derive(Clone, Copy, Debug, PartialEq, Eq)]
pub struct Station {
    /// `G` or `R`.
    pub system: u8,
    pub name: [u8; 20],
    pub bias: i64,
    pub rms: i64,
}

/// In the order of the file.
#[derive(Clone, Debug, Default, PartialEq, Eq)]
pub struct Biases {
    pub satellites: Vec<Satellite>,
    pub stations: Vec<Station>,
}

/// How many numbers or bytes a record has in each lent area.
pub const SIZES: [usize; 3] = [4, 3, 20];

/// The areas lent: 1 satellites (system, number, bias, RMS), 2 stations (system,
/// bias, RMS), 3 the stations' names.
pub struct Room<'a> {
    pub satellites: &'a mut [i32],
    pub stations: &'a mut [i32],
    pub names: &'a mut [u8],
}

/// How many satellites and stations there are, with their numbers and names in front
/// of the areas. Refusals: "those of the map reader but for 11", then the blocks'
/// own, "at last 11 for too little room".
pub fn biases(text: &[u8], room: &mut Room) -> Result<[usize; 2], Refusal> {
    let found = gathered(text)?;
    let counts = [found.satellites.len(), found.stations.len()];
    let areas = [
        (room.satellites.len(), SIZES[0] * counts[0]),
        (room.stations.len(), SIZES[1] * counts[1]),
        (room.names.len(), SIZES[2] * counts[1]),
    ];
    for (area, (length, need)) in (1..).zip(areas) {
        if length < need {
            let need = need as u64;
            return Err(Refusal::Area { area, need });
        }
    }
    for (place, satellite) in room.satellites.chunks_mut(4).zip(&found.satellites) {
        let Satellite {
            system,
            number,
            bias,
            rms,
        } = *satellite;
        place.copy_from_slice(&[i64::from(system), number, bias, rms].map(|n| n as i32));
    }
    for (place, station) in room.stations.chunks_mut(3).zip(&found.stations) {
        let Station {
            system, bias, rms, ..
        } = *station;
        place.copy_from_slice(&[i64::from(system), bias, rms].map(|n| n as i32));
    }
    for (place, station) in room.names.chunks_mut(20).zip(&found.stations) {
        place.copy_from_slice(&station.name);
    }
    Ok(counts)
}

/// The biases of a text, however many.
pub fn gathered(text: &[u8]) -> Result<Biases, Refusal> {
    read::needs(text)?;
    let mut found = Biases::default();
    // Inside an aux block, and whether that is one of biases.
    let mut block = None;
    for (line, bytes) in (1..).zip(lines::lines(text)) {
        // The map reader has looked at length and bytes.
        let Ok(Some(card)) = lines::card(bytes) else {
            continue;
        };
        match (block, labels::label_of(&card)) {
            (None, Some(Label::StartAux)) => {
                block = Some(labels::is_padded(&card[..60], TITLE));
            }
            (None, Some(Label::EndHeader)) => break,
            (Some(_), Some(Label::EndAux)) => block = None,
            (Some(true), _) => {
                found
                    .take(&card)
                    .map_err(|Fault { number, column }| Refusal::Place {
                        number,
                        line,
                        column,
                    })?
            }
            _ => {}
        }
    }
    Ok(found)
}

impl Biases {
    /// A line of a block: "Unknown records in the block are skipped."
    fn take(&mut self, card: &Card) -> Result<(), Fault> {
        if labels::has_label(card, SATELLITE_LABEL) {
            self.satellite(card)
        } else if labels::has_label(card, STATION_LABEL) {
            self.station(card)
        } else {
            Ok(())
        }
    }

    /// 6, "7 for a letter other than G, R or blank or a satellite number outside 1 to
    /// 99, 5 for a satellite or a station with the same system given twice".
    fn satellite(&mut self, card: &Card) -> Result<(), Fault> {
        let [number, bias, rms, ..] = numbers(SATELLITE, card)?;
        let system = system(card)?;
        if !(1..=99).contains(&number) {
            return fault(7, 5);
        }
        let twice = |given: &Satellite| (given.system, given.number) == (system, number);
        if self.satellites.iter().any(twice) {
            return fault(5, 61);
        }
        self.satellites.push(Satellite {
            system,
            number,
            bias,
            rms,
        });
        Ok(())
    }

    fn station(&mut self, card: &Card) -> Result<(), Fault> {
        let [bias, rms, ..] = numbers(STATION, card)?;
        let system = system(card)?;
        let mut name = [0; 20];
        name.copy_from_slice(&card[6..26]);
        let twice = |given: &Station| (given.system, given.name) == (system, name);
        if self.stations.iter().any(twice) {
            return fault(5, 61);
        }
        self.stations.push(Station {
            system,
            name,
            bias,
            rms,
        });
        Ok(())
    }
}

fn numbers(layout: &[Part], card: &Card) -> Result<[i64; 6], Fault> {
    labels::numbers_in(layout, card).or_else(|column| fault(6, column))
}

/// "A blank system letter means G."
fn system(card: &Card) -> Result<u8, Fault> {
    match card[3] {
        b'G' | b' ' => Ok(b'G'),
        b'R' => Ok(b'R'),
        _ => fault(7, 4),
    }
}
