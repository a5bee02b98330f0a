//! The C boundary (include/ionex.h) in safe Rust: what a call is given, and what it gives back in lent areas.

use crate::set::MapSet;
use second::{
    Answer, Axis, Buffers, Count, Delay, Header, Question, Reading, Refusal, System, Texts,
};

/// How many numbers a header has, and how many bytes its texts.
pub const HEADER: usize = 45;
pub const TEXTS: usize = 1324;

/// As many as there were before the descriptions, whose number and lines stand behind all else.
pub const OLD_HEADER: usize = 44;
pub const OLD_TEXTS: usize = 124;

/// The numbers that say whether a starred record stands; one number or two follow each.
pub const FLAGS: [usize; 9] = [19, 21, 23, 26, 29, 32, 35, 38, 41];

/// A map set as it is given to a call; any length, any number.
#[derive(Clone, Debug, PartialEq, Eq)]
pub struct Given {
    pub header: Vec<i64>,
    pub texts: Vec<u8>,
    pub areas: Buffers,
}

#[derive(Clone, Copy, Debug, PartialEq, Eq)]
pub struct Asked {
    pub kind: u64,
    pub method: u64,
    pub layer: u64,
    pub lat: i32,
    pub lon: i32,
    pub second: u64,
}

/// What a reading lends beside the six areas.
#[derive(Clone, Debug, PartialEq, Eq)]
pub struct Lent {
    pub areas: Buffers,
    pub header: Vec<i64>,
    pub texts: Vec<u8>,
    pub place: Vec<u64>,
}

/// How many needs there are.
pub const NEEDS: usize = 6;

/// The functions. Each answers with 0, a refusal's number, or 101 to 103.
pub trait Boundary {
    fn read(&self, text: &[u8], lent: &mut Lent) -> u64;
    fn needs(&self, text: &[u8], needs: &mut [u64], place: &mut [u64]) -> u64;
    fn write(&self, given: &Given, out: &mut [u8], count: &mut [u64]) -> u64;
    fn ask(&self, given: &Given, asked: &Asked, value: &mut [i32]) -> u64;
    fn tecu_delay(&self, x: i32, carrier: f64, record: &mut [f64]) -> u64;
    fn delay(&self, given: &Given, asked: &Asked, carrier: f64, record: &mut [f64]) -> u64;
    /// What is lent is as for a reading.
    fn join(&self, earlier: &Given, later: &Given, lent: &mut Lent) -> u64;
    fn moved(&self, epoch: u64, by: i64, moved: &mut [u64]) -> u64;
}

// ---- the header as numbers, the texts as bytes ----

pub fn numbers_of(header: &Header) -> [i64; HEADER] {
    let mut numbers = [0; HEADER];
    let axes = [header.heights, header.latitudes, header.longitudes];
    let front = [
        header.version,
        i64::from(header.file_type),
        header.code,
        header.first_epoch as i64,
        header.last_epoch as i64,
        header.interval,
        header.maps,
        header.cutoff,
        header.radius,
        header.dimension,
    ];
    numbers[..10].copy_from_slice(&front);
    for (axis, place) in axes.iter().zip(numbers[10..19].chunks_mut(3)) {
        place.copy_from_slice(&[axis.first, axis.last, axis.step]);
    }
    for (count, place) in [header.stations, header.satellites]
        .iter()
        .zip(numbers[19..23].chunks_mut(2))
    {
        place.copy_from_slice(&[i64::from(count.stands), count.count]);
    }
    for (system, place) in header.systems.iter().zip(numbers[23..44].chunks_mut(3)) {
        let stands = i64::from(system.stands);
        place.copy_from_slice(&[stands, system.stations, system.satellites]);
    }
    numbers[44] = header.descriptions;
    numbers
}

/// The header of at least 45 numbers, or nothing where a field cannot hold its number.
pub fn header_of(numbers: &[i64]) -> Option<Header> {
    let axis = |at: usize| Axis {
        first: numbers[at],
        last: numbers[at + 1],
        step: numbers[at + 2],
    };
    let count = |at: usize| Count {
        stands: numbers[at] != 0,
        count: numbers[at + 1],
    };
    let system = |j: usize| System {
        stands: numbers[23 + 3 * j] != 0,
        stations: numbers[24 + 3 * j],
        satellites: numbers[25 + 3 * j],
    };
    Some(Header {
        version: numbers[0],
        file_type: u8::try_from(numbers[1]).ok()?,
        code: numbers[2],
        first_epoch: u64::try_from(numbers[3]).ok()?,
        last_epoch: u64::try_from(numbers[4]).ok()?,
        interval: numbers[5],
        maps: numbers[6],
        cutoff: numbers[7],
        radius: numbers[8],
        dimension: numbers[9],
        heights: axis(10),
        latitudes: axis(13),
        longitudes: axis(16),
        stations: count(19),
        satellites: count(21),
        systems: std::array::from_fn(system),
        descriptions: numbers[44],
    })
}

pub fn bytes_of(texts: &Texts) -> [u8; TEXTS] {
    let mut bytes = [0; TEXTS];
    bytes[..20].copy_from_slice(&texts.program);
    bytes[20..40].copy_from_slice(&texts.agency);
    bytes[40..60].copy_from_slice(&texts.date);
    bytes[60..64].copy_from_slice(&texts.mapping);
    bytes[64..124].copy_from_slice(&texts.observables);
    bytes[124..].copy_from_slice(texts.descriptions.as_flattened());
    bytes
}

/// The texts of at least 1,324 bytes.
pub fn texts_of(bytes: &[u8]) -> Texts {
    let mut texts = Texts::default();
    texts.program.copy_from_slice(&bytes[..20]);
    texts.agency.copy_from_slice(&bytes[20..40]);
    texts.date.copy_from_slice(&bytes[40..60]);
    texts.mapping.copy_from_slice(&bytes[60..64]);
    texts.observables.copy_from_slice(&bytes[64..124]);
    let lines = texts.descriptions.as_flattened_mut();
    lines.copy_from_slice(&bytes[124..TEXTS]);
    texts
}

pub fn given(set: &MapSet) -> Given {
    Given {
        header: numbers_of(&set.header).to_vec(),
        texts: bytes_of(&set.texts).to_vec(),
        areas: set.areas.clone(),
    }
}

pub fn asked(question: &Question) -> Asked {
    let place = |hundredths: i64| i32::try_from(hundredths).expect("a place of 32 bits");
    Asked {
        kind: question.kind as u64,
        method: question.method as u64,
        layer: question.layer as u64,
        lat: place(question.latitude),
        lon: place(question.longitude),
        second: question.second,
    }
}

// ---- the second program at this boundary ----

/// The second program, called as the library is.
pub struct Plain;

/// 101 to 103, told before anything else is looked at.
pub fn own_areas(header: usize, texts: usize, result: usize, needed: usize) -> Result<(), u64> {
    let short = [
        (header < HEADER, 101),
        (texts < TEXTS, 102),
        (result < needed, 103),
    ];
    match short.iter().find(|(short, _)| *short) {
        Some(&(_, number)) => Err(number),
        None => Ok(()),
    }
}

/// The number that stands for "done" or a refusal.
fn number<T>(done: Result<T, u64>) -> u64 {
    done.err().unwrap_or(0)
}

impl Boundary for Plain {
    fn read(&self, text: &[u8], lent: &mut Lent) -> u64 {
        number(read(text, lent))
    }

    fn needs(&self, text: &[u8], needs: &mut [u64], place: &mut [u64]) -> u64 {
        number(measure(text, needs, place))
    }

    fn write(&self, given: &Given, out: &mut [u8], count: &mut [u64]) -> u64 {
        number(write(given, out, count))
    }

    fn ask(&self, given: &Given, asked: &Asked, value: &mut [i32]) -> u64 {
        number(ask(given, asked, value))
    }

    fn tecu_delay(&self, x: i32, carrier: f64, record: &mut [f64]) -> u64 {
        number(tecu_delay(x, carrier, record))
    }

    fn delay(&self, given: &Given, asked: &Asked, carrier: f64, record: &mut [f64]) -> u64 {
        number(delay(given, asked, carrier, record))
    }

    fn join(&self, earlier: &Given, later: &Given, lent: &mut Lent) -> u64 {
        number(join(earlier, later, lent))
    }

    fn moved(&self, epoch: u64, by: i64, moved: &mut [u64]) -> u64 {
        number(move_epoch(epoch, by, moved))
    }
}

fn read(text: &[u8], lent: &mut Lent) -> Result<(), u64> {
    own_areas(lent.header.len(), lent.texts.len(), lent.place.len(), 2)?;
    match second::read(text, &mut lent.areas.lent()) {
        Reading::Accepted { header, texts } => {
            lent.put(&header, &texts);
            Ok(())
        }
        Reading::Refused(refusal) => refused(refusal, &mut lent.place),
    }
}

impl Lent {
    /// A header and its texts, in front of what was lent for them.
    fn put(&mut self, header: &Header, texts: &Texts) {
        self.header[..HEADER].copy_from_slice(&numbers_of(header));
        self.texts[..TEXTS].copy_from_slice(&bytes_of(texts));
    }
}

/// The shortest of the three headers counts, and of the three texts.
fn join(earlier: &Given, later: &Given, lent: &mut Lent) -> Result<(), u64> {
    let shortest = |lengths: [usize; 3]| lengths.into_iter().min().unwrap_or(0);
    own_areas(
        shortest([earlier.header.len(), later.header.len(), lent.header.len()]),
        shortest([earlier.texts.len(), later.texts.len(), lent.texts.len()]),
        lent.place.len(),
        2,
    )?;
    let headers = [header_of(&earlier.header), header_of(&later.header)];
    let [Some(ours), Some(theirs)] = headers else {
        return Err(31);
    };
    let texts = [texts_of(&earlier.texts), texts_of(&later.texts)];
    let first = second::Given {
        header: &ours,
        texts: &texts[0],
        areas: earlier.areas.view(),
    };
    let next = second::Given {
        header: &theirs,
        texts: &texts[1],
        areas: later.areas.view(),
    };
    match second::join(&first, &next, &mut lent.areas.lent()) {
        Ok((header, texts)) => {
            lent.put(&header, &texts);
            Ok(())
        }
        Err(Refusal::Bare { number }) => Err(u64::from(number)),
        Err(refusal) => refused(refusal, &mut lent.place),
    }
}

/// A refusal of reading: its number, and its place in front of a lent area.
fn refused(refusal: Refusal, place: &mut [u64]) -> Result<(), u64> {
    let found = match refusal {
        Refusal::Place { line, column, .. } => [line, column],
        Refusal::Area { area, need } => [u64::from(area), need],
        other => panic!("{other} is no refusal of reading"),
    };
    place[..2].copy_from_slice(&found);
    Err(u64::from(refusal.number()))
}

fn measure(text: &[u8], needs: &mut [u64], place: &mut [u64]) -> Result<(), u64> {
    if needs.len() < NEEDS || place.len() < 2 {
        return Err(103);
    }
    match second::needs(text) {
        Ok(found) => {
            needs[..NEEDS].copy_from_slice(&found.map(|need| need as u64));
            Ok(())
        }
        Err(refusal) => refused(refusal, place),
    }
}

fn write(given: &Given, out: &mut [u8], count: &mut [u64]) -> Result<(), u64> {
    own_areas(given.header.len(), given.texts.len(), count.len(), 1)?;
    let header = header_of(&given.header).ok_or(31u64)?;
    let texts = texts_of(&given.texts);
    match second::write(&header, &texts, &given.areas.view(), out) {
        Ok(length) => {
            count[0] = length as u64;
            Ok(())
        }
        Err(refusal) => {
            if let Refusal::Output { need } = refusal {
                count[0] = need;
            }
            Err(u64::from(refusal.number()))
        }
    }
}

pub fn question(asked: &Asked) -> Question {
    Question {
        kind: i64::try_from(asked.kind).unwrap_or(-1),
        method: i64::try_from(asked.method).unwrap_or(-1),
        layer: i64::try_from(asked.layer).unwrap_or(-1),
        latitude: i64::from(asked.lat),
        longitude: i64::from(asked.lon),
        second: asked.second,
    }
}

fn ask(given: &Given, asked: &Asked, value: &mut [i32]) -> Result<(), u64> {
    own_areas(given.header.len(), given.texts.len(), value.len(), 1)?;
    let question = question(asked);
    // Kind and method come before the header: a header of nothing serves to ask for 23.
    let header = header_of(&given.header).unwrap_or_default();
    let texts = texts_of(&given.texts);
    match second::ask(&header, &texts, &given.areas.view(), &question) {
        Ok(Answer::ThousandthsOfTecu(found) | Answer::ThousandthsOfKilometre(found)) => {
            value[0] = i32::try_from(found).expect("an answer of 32 bits");
            Ok(())
        }
        Err(refusal) => Err(u64::from(refusal.number())),
    }
}

/// How many numbers the record of a delay has.
pub const RECORD: usize = 3;

fn tecu_delay(x: i32, carrier: f64, record: &mut [f64]) -> Result<(), u64> {
    own_areas(HEADER, TEXTS, record.len(), RECORD)?;
    put_delay(second::delay(x, carrier), record)
}

fn delay(given: &Given, asked: &Asked, carrier: f64, record: &mut [f64]) -> Result<(), u64> {
    own_areas(given.header.len(), given.texts.len(), record.len(), RECORD)?;
    let header = header_of(&given.header).unwrap_or_default();
    let texts = texts_of(&given.texts);
    let view = given.areas.view();
    let found = second::ask_delay(&header, &texts, &view, &question(asked), carrier);
    put_delay(found, record)
}

fn put_delay(found: Result<Delay, Refusal>, record: &mut [f64]) -> Result<(), u64> {
    match found {
        Ok(Delay {
            carrier,
            tecu,
            metres,
        }) => {
            record[..RECORD].copy_from_slice(&[carrier, tecu, metres]);
            Ok(())
        }
        Err(refusal) => Err(u64::from(refusal.number())),
    }
}

fn move_epoch(epoch: u64, by: i64, moved: &mut [u64]) -> Result<(), u64> {
    own_areas(HEADER, TEXTS, moved.len(), 1)?;
    match second::moved(epoch, by) {
        Ok(found) => {
            moved[0] = found;
            Ok(())
        }
        Err(refusal) => Err(u64::from(refusal.number())),
    }
}
