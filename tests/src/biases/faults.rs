//! Planted faults of biases: a reader of its own with one thing wrong, which the comparison must find; with nothing
//! wrong it reads as the second program does.

use super::crowds::CHUNK;
use super::{
    calls, compare_call, counted, tell, Biases, Call, Found, Lent, SATELLITE, STATION, TITLE,
};
use crate::archive::Archive;
use crate::tally;
use second::fields;
use second::Refusal;
use std::collections::HashMap;

listed! {
    /// One thing wrong.
    pub enum Fault {
        /// A blank letter as its own system; any letter; the number 0.
        BlankOwn,
        AnyLetter,
        NumberZero,
        /// A name of 19 bytes.
        NameCut,
        Swapped,
        /// Given twice: looked for in its block only, in any system, or not at all.
        WithinBlock,
        AnySystem,
        Twice,
        /// A station given twice: looked for in its own chunk of 2,048 only, in the others only, in its own and the one
        /// before; the last of a chunk not held; the first behind a chunk not looked for.
        WithinChunk,
        OtherChunks,
        NextChunk,
        LastOfChunk,
        BehindChunk,
        /// Of several repeats the one of the first chunk; a repeat before 6 and 7 on lines before it.
        FirstChunk,
        RepeatFirst,
        /// On a line: 5 before 6, 7 before 6, the number before the letter.
        FiveFirst,
        SevenFirst,
        NumberFirst,
        /// Records of any aux block; a title at any column; one with more behind it.
        AnyBlock,
        TitleAnywhere,
        TitlePrefix,
        UnknownRefused,
        /// START OF AUX DATA inside a block begins another.
        StartInside,
        /// Refusals of the blocks before those of the map reader.
        BlocksFirst,
        /// Columns marked X not looked at, behind the fields or before them.
        BehindFree,
        FrontFree,
        Tenfold,
        LetterColumn,
        TwiceColumn,
        // The boundary: needs in records, names looked at before stations, something left by a refusal, elements behind.
        NeedRecords,
        AreaOrder,
        WhenRefused,
        Tail,
        CountsSwapped,
        PlaceWhenDone,
        OwnShort,
    }
}

impl Fault {
    /// Whether it takes thousands of stations to see it.
    fn of_crowds(self) -> bool {
        matches!(
            self,
            Fault::WithinChunk
                | Fault::OtherChunks
                | Fault::NextChunk
                | Fault::LastOfChunk
                | Fault::BehindChunk
                | Fault::FirstChunk
                | Fault::RepeatFirst
        )
    }
}

/// The seed and the difference at which the comparison with the library finds a fault, within `count` seeds. Blocks of
/// few stations must show every fault but those of thousands.
pub fn find(fault: Fault, count: u64, seed: u64) -> Option<(u64, String)> {
    let differs = |call: &Call| compare_call(&Archive, &Faulty(Some(fault)), call).1;
    tally::first(count, seed, |seed| match fault.of_crowds() {
        true => counted(seed).find_map(|(_, call)| differs(&call)),
        false => calls(seed).iter().find_map(differs),
    })
}

struct Faulty(Option<Fault>);

impl Faulty {
    fn has(&self, fault: Fault) -> bool {
        self.0 == Some(fault)
    }
}

impl Biases for Faulty {
    fn biases(&self, text: &[u8], lent: &mut Lent) -> u64 {
        let short = lent.counts.len() < 2 || lent.place.len() < 2;
        if short && !(self.has(Fault::OwnShort) && lent.place.len() >= 2) {
            return 103;
        }
        if short {
            lent.counts.resize(2, 0);
        }
        let answer = self.read(text).and_then(|found| self.put(&found, lent));
        let answer = tell(answer, lent);
        match answer {
            0 if self.has(Fault::CountsSwapped) => lent.counts.swap(0, 1),
            0 if self.has(Fault::PlaceWhenDone) => lent.place[0] ^= 1,
            1.. if self.has(Fault::WhenRefused) => lent.counts[0] ^= 1,
            _ => {}
        }
        answer
    }
}

/// The columns of a field, from 0; blanks where the line has stopped.
fn columns(line: &[u8], from: usize, to: usize) -> Vec<u8> {
    (from..to)
        .map(|k| line.get(k).copied().unwrap_or(b' '))
        .collect()
}

/// A system, number and name, by which a record is given twice.
type Key = (u8, i32, Vec<u8>);

/// What the rows so far gave.
#[derive(Default)]
struct Taken {
    found: Found,
    /// Each record with the number of stations before it.
    keys: HashMap<Key, usize>,
}

/// A refused line, and for a station given twice the number of stations before its own record.
struct Refused {
    refusal: Refusal,
    given: usize,
}

impl Faulty {
    fn read(&self, text: &[u8]) -> Result<Found, Refusal> {
        let maps = second::needs(text);
        let blocks = self.scan(text);
        match (maps, blocks) {
            (Err(_), Err(refusal)) if self.has(Fault::BlocksFirst) => Err(refusal),
            (Err(refusal), _) => Err(refusal),
            (Ok(_), blocks) => blocks,
        }
    }

    fn scan(&self, text: &[u8]) -> Result<Found, Refusal> {
        let mut taken = Taken::default();
        let mut refused = Vec::new();
        let mut block = None;
        for (line, bytes) in (1..).zip(text.split(|&b| b == b'\n')) {
            let bytes = bytes.strip_suffix(b"\r").unwrap_or(bytes);
            let label = columns(bytes, 60, 80).trim_ascii_end().to_vec();
            let again = block.is_some() && !self.has(Fault::StartInside);
            match &label[..] {
                b"START OF AUX DATA" if !again => {
                    block = Some(self.is_title(&columns(bytes, 0, 60)));
                    if self.has(Fault::WithinBlock) {
                        taken.keys.clear();
                    }
                }
                b"END OF AUX DATA" => block = None,
                b"END OF HEADER" if block.is_none() => break,
                _ if block == Some(true) && !bytes.trim_ascii_end().is_empty() => {
                    let wrong = self.record(bytes, &label, &mut taken).err();
                    refused.extend(wrong.map(|(number, column, given)| Refused {
                        refusal: Refusal::Place {
                            number,
                            line,
                            column,
                        },
                        given,
                    }));
                }
                _ => {}
            }
        }
        self.first(refused).map_or(Ok(taken.found), Err)
    }

    /// The refusal that is told, of all in the order of their lines.
    fn first(&self, refused: Vec<Refused>) -> Option<Refusal> {
        let is_repeat = |one: &&Refused| one.refusal.number() == 5;
        let first = match self.0 {
            Some(Fault::RepeatFirst) => refused.iter().find(is_repeat),
            Some(Fault::FirstChunk) => refused
                .iter()
                .take_while(is_repeat)
                .min_by_key(|one| one.given / CHUNK),
            _ => None,
        };
        first.or(refused.first()).map(|one| one.refusal)
    }

    /// Whether a station is found given before, by the stations before it and before its own record.
    fn sees(&self, given: usize, before: usize) -> bool {
        let (own, chunk) = (given / CHUNK, before / CHUNK);
        match self.0 {
            Some(Fault::WithinChunk) => own == chunk,
            Some(Fault::OtherChunks) => own != chunk,
            Some(Fault::NextChunk) => own + 1 >= chunk,
            Some(Fault::LastOfChunk) => given % CHUNK != CHUNK - 1,
            Some(Fault::BehindChunk) => before == 0 || !before.is_multiple_of(CHUNK),
            _ => true,
        }
    }

    fn is_title(&self, columns: &[u8]) -> bool {
        let title = TITLE.as_bytes();
        match self.0 {
            Some(Fault::AnyBlock) => true,
            Some(Fault::TitleAnywhere) => columns.trim_ascii() == title,
            Some(Fault::TitlePrefix) => columns.starts_with(title),
            _ => columns.trim_ascii_end() == title,
        }
    }

    /// A line of a block; a refusal's number and column, and how many stations stand before the record that is given again.
    fn record(&self, line: &[u8], label: &[u8], taken: &mut Taken) -> Result<(), (u8, u64, usize)> {
        let of_station = match label {
            _ if label == SATELLITE.as_bytes() => false,
            _ if label == STATION.as_bytes() => true,
            _ if self.has(Fault::UnknownRefused) => return Err((4, 61, 0)),
            _ => return Ok(()),
        };
        let fields = if of_station { 26 } else { 6 };
        let six = self.six(line, of_station, fields).map_or(Ok(()), Err);
        let letter = columns(line, 3, 4)[0];
        let system = match letter {
            b' ' if !self.has(Fault::BlankOwn) => b'G',
            other => other,
        };
        let number = match of_station {
            true => 0,
            false => fields::integer(&columns(line, 4, 6)).unwrap_or(0) as i32,
        };
        let seven = self.seven(letter, number, of_station).map_or(Ok(()), Err);
        let mut name = [b' '; 20];
        if of_station {
            name.copy_from_slice(&columns(line, 6, 26));
            if self.has(Fault::NameCut) {
                name[19] = b' ';
            }
        }
        let key = match (self.has(Fault::AnySystem), of_station) {
            (true, true) => (0, 0, name.to_vec()),
            (_, true) => (system, 0, name.to_vec()),
            (_, false) => (system, number, Vec::new()),
        };
        let before = taken.found.stations.len();
        let given = taken.keys.get(&key).copied();
        let twice = given.is_some_and(|given| !of_station || self.sees(given, before));
        let column = if self.has(Fault::TwiceColumn) { 4 } else { 61 };
        let five = match twice && !self.has(Fault::Twice) {
            true => Err((5, column)),
            false => Ok(()),
        };
        let order = match self.0 {
            Some(Fault::FiveFirst) => [five, six, seven],
            Some(Fault::SevenFirst) => [seven, six, five],
            _ => [six, seven, five],
        };
        for step in order {
            step.map_err(|(number, column)| (number, column, given.unwrap_or(0)))?;
        }
        taken.keys.entry(key).or_insert(before);
        let found = &mut taken.found;
        let number_at = |at: usize| fields::thousandths(&columns(line, at, at + 10)).unwrap_or(0);
        let mut values = [number_at(fields) as i32, number_at(fields + 10) as i32];
        match self.0 {
            Some(Fault::Swapped) => values.swap(0, 1),
            Some(Fault::Tenfold) => values[0] = values[0].wrapping_mul(10),
            _ => {}
        }
        let [bias, rms] = values;
        match of_station {
            true => found.stations.push(([i32::from(system), bias, rms], name)),
            false => found
                .satellites
                .push([i32::from(system), number, bias, rms]),
        }
        Ok(())
    }

    /// The leftmost ill-formed field or column that is not blank.
    fn six(&self, line: &[u8], of_station: bool, fields: usize) -> Option<(u8, u64)> {
        let mut wrong = Vec::new();
        let mut blank = |from: usize, to: usize| {
            wrong.extend((from..to).filter(|&k| line.get(k).is_some_and(|&b| b != b' ')));
        };
        if !self.has(Fault::FrontFree) {
            blank(0, 3);
        }
        if !self.has(Fault::BehindFree) {
            blank(fields + 20, 60);
        }
        if of_station {
            blank(4, 6);
        } else if fields::integer(&columns(line, 4, 6)).is_none() {
            wrong.push(4);
        }
        for at in [fields, fields + 10] {
            if fields::thousandths(&columns(line, at, at + 10)).is_none() {
                wrong.push(at);
            }
        }
        wrong.iter().min().map(|&at| (6, at as u64 + 1))
    }

    fn seven(&self, letter: u8, number: i32, of_station: bool) -> Option<(u8, u64)> {
        let least = i32::from(!self.has(Fault::NumberZero));
        let column = if self.has(Fault::LetterColumn) { 5 } else { 4 };
        let bad_letter = !b"GR ".contains(&letter) && !self.has(Fault::AnyLetter);
        let bad_number = !of_station && !(least..=99).contains(&number);
        let mut wrong = [(bad_letter, column), (bad_number, 5)];
        if self.has(Fault::NumberFirst) {
            wrong.swap(0, 1);
        }
        let first = wrong.iter().find(|(wrong, _)| *wrong);
        first.map(|&(_, column)| (7, column))
    }

    fn put(&self, found: &Found, lent: &mut Lent) -> Result<[usize; 2], Refusal> {
        let satellites = found.satellites.as_flattened();
        let stations: Vec<i32> = found.stations.iter().flat_map(|s| s.0).collect();
        let names: Vec<u8> = found.stations.iter().flat_map(|s| s.1).collect();
        let mut areas = [
            (1, lent.satellites.len(), satellites.len(), 4),
            (2, lent.stations.len(), stations.len(), 3),
            (3, lent.names.len(), names.len(), 20),
        ];
        if self.has(Fault::AreaOrder) {
            areas.swap(1, 2);
        }
        for (area, length, need, size) in areas {
            if length < need {
                let records = self.has(Fault::NeedRecords);
                let need = if records { need / size } else { need } as u64;
                return Err(Refusal::Area { area, need });
            }
        }
        lent.satellites[..satellites.len()].copy_from_slice(satellites);
        lent.stations[..stations.len()].copy_from_slice(&stations);
        lent.names[..names.len()].copy_from_slice(&names);
        if self.has(Fault::Tail) {
            let behind = lent.names.iter_mut().skip(names.len());
            behind.for_each(|byte| *byte ^= 1);
        }
        Ok([found.satellites.len(), found.stations.len()])
    }
}

#[cfg(test)]
mod tests {
    use super::*;
    use crate::boundary::Plain;

    /// Two readers that were written apart.
    #[test]
    fn with_nothing_wrong() {
        for seed in 1..500 {
            for (_, call) in counted(seed) {
                let (_, found) = compare_call(&Plain, &Faulty(None), &call);
                assert_eq!(found, None, "seed {seed}");
            }
        }
    }
}
