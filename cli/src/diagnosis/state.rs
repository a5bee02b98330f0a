//! What stands in a text before one of its lines. The lines before a refused one are good, so nothing is judged here: the
//! state is what the words of a refusal need, such as which header records have come and which map is open.

use super::records::label_of;
use crate::text::{self, Card};

#[derive(Clone, Copy, Debug, PartialEq, Eq)]
pub enum Stage {
    /// Before the version record.
    Start,
    Header,
    /// In an aux block of the header.
    Aux,
    Maps,
    /// After END OF FILE.
    After,
}

/// Axis of the grid, in tenths.
#[derive(Clone, Copy, Debug, Default)]
pub struct Axis {
    pub first: i64,
    pub last: i64,
    pub step: i64,
}

impl Axis {
    fn of(card: &Card) -> Axis {
        let [first, last, step] =
            [3, 9, 15].map(|column| text::number(card, column, 6).unwrap_or(0));
        Axis { first, last, step }
    }

    /// How many nodes there are; 1 where the step is 0.
    pub fn count(&self) -> i64 {
        (self.last - self.first)
            .checked_div(self.step)
            .map_or(1, |steps| steps + 1)
    }

    pub fn at(&self, place: i64) -> i64 {
        self.first + place * self.step
    }
}

/// A header record that has come, and the line it stands on.
#[derive(Clone, Copy, Debug)]
pub struct Given {
    pub label: &'static str,
    /// The letter of a SYS record.
    pub letter: u8,
    pub line: u64,
    pub card: Card,
}

/// The map that stands open.
#[derive(Clone, Copy, Debug)]
pub struct Open {
    /// `TEC`, `RMS` or `HEIGHT`
    pub kind: &'static str,
    pub number: i64,
    pub line: u64,
    /// The line of its epoch.
    pub epoch: Option<u64>,
    /// Blocks opened so far.
    pub blocks: i64,
    /// The line of the last block's opening.
    pub block_line: u64,
    /// Values that the last block still lacks.
    pub due: i64,
}

pub struct State {
    pub stage: Stage,
    /// The line on which the stage began.
    pub since: u64,
    pub given: Vec<Given>,
    pub latitudes: Axis,
    pub longitudes: Axis,
    pub heights: Axis,
    pub maps: i64,
    pub open: Option<Open>,
    /// The number of the last TEC, RMS and height map that has ended.
    pub ended: [i64; 3],
    /// The records EPOCH OF CURRENT MAP of the TEC maps, by map.
    pub epochs: Vec<Card>,
}

pub const KINDS: [&str; 3] = ["TEC", "RMS", "HEIGHT"];

/// The kind of map whose START or END a label is.
pub fn kind_of(label: &str) -> Option<&'static str> {
    let name = label.strip_suffix(" MAP")?;
    let name = name
        .strip_prefix("START OF ")
        .or(name.strip_prefix("END OF "))?;
    KINDS.into_iter().find(|&kind| kind == name)
}

impl State {
    /// What stands before line `end`, counted from 1.
    pub fn before(text: &[u8], end: u64) -> State {
        let mut state = State {
            stage: Stage::Start,
            since: 1,
            given: Vec::new(),
            latitudes: Axis::default(),
            longitudes: Axis::default(),
            heights: Axis::default(),
            maps: 0,
            open: None,
            ended: [0; 3],
            epochs: Vec::new(),
        };
        for (number, line) in (1..end).zip(text::lines(text)) {
            if !text::blank(line) {
                state.line(number, &text::card(line));
            }
        }
        state
    }

    /// The line of a header record that has come.
    pub fn line_of(&self, label: &str) -> Option<u64> {
        self.record(label).map(|given| given.line)
    }

    /// The line of the last such record, where there may be several.
    pub fn line_of_last(&self, label: &str) -> Option<u64> {
        let last = self.given.iter().rfind(|given| given.label == label);
        last.map(|given| given.line)
    }

    pub fn record(&self, label: &str) -> Option<&Given> {
        self.given.iter().find(|given| given.label == label)
    }

    /// The number of a header record's first field.
    pub fn number_of(&self, label: &str) -> Option<i64> {
        text::number(&self.record(label)?.card, 1, 6)
    }

    /// Whether all TEC maps have ended and no map is open.
    pub fn tec_maps_stand(&self) -> bool {
        self.stage == Stage::Maps && self.open.is_none() && self.ended[0] == self.maps
    }

    /// The kind of map that was begun and has not come to its last map, and the number of its last.
    pub fn broken_off(&self) -> Option<(&'static str, i64)> {
        let mut kinds = KINDS.into_iter().zip(self.ended);
        kinds.find(|(_, ended)| (1..self.maps).contains(ended))
    }

    /// The blocks of each map.
    pub fn blocks(&self) -> i64 {
        self.latitudes.count() * self.heights.count()
    }

    fn line(&mut self, number: u64, card: &Card) {
        let label = label_of(card);
        match self.stage {
            Stage::Start => self.enter(Stage::Header, number),
            Stage::Header => self.header_line(number, label, card),
            Stage::Aux if label == "END OF AUX DATA" => self.enter(Stage::Header, number),
            Stage::Maps => self.map_line(number, label, card),
            Stage::Aux | Stage::After => {}
        }
    }

    fn enter(&mut self, stage: Stage, number: u64) {
        self.stage = stage;
        self.since = number;
    }

    fn header_line(&mut self, number: u64, label: &'static str, card: &Card) {
        self.given.push(Given {
            label,
            letter: card[5],
            line: number,
            card: *card,
        });
        match label {
            "# OF MAPS IN FILE" => self.maps = text::number(card, 1, 6).unwrap_or(0),
            "LAT1 / LAT2 / DLAT" => self.latitudes = Axis::of(card),
            "LON1 / LON2 / DLON" => self.longitudes = Axis::of(card),
            "HGT1 / HGT2 / DHGT" => self.heights = Axis::of(card),
            "START OF AUX DATA" => self.enter(Stage::Aux, number),
            "END OF HEADER" => self.enter(Stage::Maps, number),
            _ => {}
        }
    }

    fn map_line(&mut self, number: u64, label: &'static str, card: &Card) {
        match &mut self.open {
            Some(open) if open.due > 0 => open.due -= open.due.min(16),
            Some(open) if label == "EPOCH OF CURRENT MAP" => {
                open.epoch = Some(number);
                if open.kind == "TEC" {
                    self.epochs.push(*card);
                }
            }
            Some(open) if label == "LAT/LON1/LON2/DLON/H" => {
                open.blocks += 1;
                open.block_line = number;
                open.due = self.longitudes.count();
            }
            Some(open) if label.starts_with("END OF ") => {
                let kind = KINDS.iter().position(|&kind| kind == open.kind);
                self.ended[kind.unwrap_or(0)] = open.number;
                self.open = None;
            }
            None if label == "END OF FILE" => self.enter(Stage::After, number),
            None => self.open = kind_of(label).map(|kind| started(kind, number, card)),
            Some(_) => {}
        }
    }
}

fn started(kind: &'static str, line: u64, card: &Card) -> Open {
    Open {
        kind,
        number: text::number(card, 1, 6).unwrap_or(0),
        line,
        epoch: None,
        blocks: 0,
        block_line: line,
        due: 0,
    }
}

#[cfg(test)]
mod tests {
    use super::*;

    const TEXT: &[u8] = include_bytes!("../../../tests/examples/accepted-canonical.inx");

    #[test]
    fn the_state_follows_the_text() {
        let state = State::before(TEXT, 1);
        assert_eq!(state.stage, Stage::Start);
        let state = State::before(TEXT, 16);
        assert_eq!((state.stage, state.since), (Stage::Maps, 15));
        assert_eq!(state.line_of("INTERVAL"), Some(5));
        assert_eq!(state.number_of("INTERVAL"), Some(7200));
        assert_eq!((state.maps, state.blocks()), (2, 2));
        assert_eq!((state.longitudes.count(), state.latitudes.at(1)), (3, 0));
        let open = State::before(TEXT, 19).open.expect("TEC map 1");
        assert_eq!((open.kind, open.number, open.line), ("TEC", 1, 16));
        assert_eq!((open.epoch, open.blocks, open.due), (Some(17), 1, 3));
        let state = State::before(TEXT, 31);
        let open = state.open.expect("RMS map 2");
        assert_eq!((open.kind, open.number, state.ended), ("RMS", 2, [2, 0, 0]));
        assert_eq!(State::before(TEXT, 100).stage, Stage::After);
    }
}
