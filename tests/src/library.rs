//! What is compared: functions over lent areas.

use crate::archive::{Archive, FUNCTIONS};
use crate::boundary::{self, Boundary, Lent, HEADER, NEEDS, TEXTS};
use crate::delays::{self, Bits};
use crate::set::MapSet;
use second::{Answer, Buffers, Question, Reading, Refusal};

/// One implementation. The proved library is one, through its C functions.
pub trait Library {
    fn name(&self) -> String;

    /// Reads a text into the areas, whose lengths are the lengths lent.
    fn read(&self, text: &[u8], areas: &mut Buffers) -> Reading;

    /// Elements that a text needs of each area.
    fn needs(&self, text: &[u8]) -> Result<[usize; 6], Refusal>;

    /// Writes to the front of `out` and gives the length of the text.
    fn write(&self, set: &MapSet, out: &mut [u8]) -> Result<usize, Refusal>;

    fn ask(&self, set: &MapSet, question: &Question) -> Result<Answer, Refusal>;

    /// A delay of so many thousandths of a TECU.
    fn tecu_delay(&self, x: i32, carrier: f64) -> Result<Bits, Refusal>;

    fn delay(&self, set: &MapSet, question: &Question, carrier: f64) -> Result<Bits, Refusal>;

    /// Joins two sets into the areas; the answer is a header and its texts, as a reading's is.
    fn join(&self, earlier: &MapSet, later: &MapSet, areas: &mut Buffers) -> Reading;

    fn moved(&self, epoch: u64, by: i64) -> Result<u64, Refusal>;
}

/// The second program.
pub struct Second;

impl Library for Second {
    fn name(&self) -> String {
        "second".to_string()
    }

    fn read(&self, text: &[u8], areas: &mut Buffers) -> Reading {
        second::read(text, &mut areas.lent())
    }

    fn needs(&self, text: &[u8]) -> Result<[usize; 6], Refusal> {
        second::needs(text)
    }

    fn write(&self, set: &MapSet, out: &mut [u8]) -> Result<usize, Refusal> {
        second::write(&set.header, &set.texts, &set.areas.view(), out)
    }

    fn ask(&self, set: &MapSet, question: &Question) -> Result<Answer, Refusal> {
        second::ask(&set.header, &set.texts, &set.areas.view(), question)
    }

    fn tecu_delay(&self, x: i32, carrier: f64) -> Result<Bits, Refusal> {
        second::delay(x, carrier).map(delays::bits)
    }

    fn delay(&self, set: &MapSet, question: &Question, carrier: f64) -> Result<Bits, Refusal> {
        let view = set.areas.view();
        second::ask_delay(&set.header, &set.texts, &view, question, carrier).map(delays::bits)
    }

    fn join(&self, earlier: &MapSet, later: &MapSet, areas: &mut Buffers) -> Reading {
        match second::join(&earlier.given(), &later.given(), &mut areas.lent()) {
            Ok((header, texts)) => Reading::Accepted { header, texts },
            Err(refusal) => Reading::Refused(refusal),
        }
    }

    fn moved(&self, epoch: u64, by: i64) -> Result<u64, Refusal> {
        second::moved(epoch, by)
    }
}

/// A library behind the C boundary.
pub struct Behind<B: Boundary>(pub B);

impl<B: Boundary> Library for Behind<B> {
    fn name(&self) -> String {
        "library".to_string()
    }

    fn read(&self, text: &[u8], areas: &mut Buffers) -> Reading {
        filled(areas, |lent| self.0.read(text, lent))
    }

    fn needs(&self, text: &[u8]) -> Result<[usize; 6], Refusal> {
        let mut needs = [u64::MAX; NEEDS];
        let mut place = [0; 2];
        match self.0.needs(text, &mut needs, &mut place) {
            0 => Ok(needs.map(|need| need as usize)),
            answer => {
                assert_eq!(needs, [u64::MAX; NEEDS], "a refusal tells no needs");
                Err(refusal(answer, &place))
            }
        }
    }

    fn write(&self, set: &MapSet, out: &mut [u8]) -> Result<usize, Refusal> {
        let mut count = [0];
        match self.0.write(&boundary::given(set), out, &mut count) {
            0 => Ok(count[0] as usize),
            30 => Err(Refusal::Output { need: count[0] }),
            answer => Err(bare(answer)),
        }
    }

    fn ask(&self, set: &MapSet, question: &Question) -> Result<Answer, Refusal> {
        let mut value = [0];
        let asked = boundary::asked(question);
        match self.0.ask(&boundary::given(set), &asked, &mut value) {
            0 if question.kind == 2 => Ok(Answer::ThousandthsOfKilometre(value[0].into())),
            0 => Ok(Answer::ThousandthsOfTecu(value[0].into())),
            answer => Err(bare(answer)),
        }
    }

    fn tecu_delay(&self, x: i32, carrier: f64) -> Result<Bits, Refusal> {
        let mut record = [0.0; 3];
        match self.0.tecu_delay(x, carrier, &mut record) {
            0 => Ok(record.map(f64::to_bits)),
            answer => Err(bare(answer)),
        }
    }

    fn delay(&self, set: &MapSet, question: &Question, carrier: f64) -> Result<Bits, Refusal> {
        let mut record = [0.0; 3];
        let (given, asked) = (boundary::given(set), boundary::asked(question));
        match self.0.delay(&given, &asked, carrier, &mut record) {
            0 => Ok(record.map(f64::to_bits)),
            answer => Err(bare(answer)),
        }
    }

    fn join(&self, earlier: &MapSet, later: &MapSet, areas: &mut Buffers) -> Reading {
        let (earlier, later) = (boundary::given(earlier), boundary::given(later));
        filled(areas, |lent| self.0.join(&earlier, &later, lent))
    }

    fn moved(&self, epoch: u64, by: i64) -> Result<u64, Refusal> {
        let mut moved = [0];
        match self.0.moved(epoch, by, &mut moved) {
            0 => Ok(moved[0]),
            answer => Err(bare(answer)),
        }
    }
}

/// A call that fills areas and answers with a header and its texts, or with a refusal.
fn filled(areas: &mut Buffers, call: impl FnOnce(&mut Lent) -> u64) -> Reading {
    let mut lent = Lent {
        areas: std::mem::take(areas),
        header: vec![-1; HEADER],
        texts: vec![0; TEXTS],
        place: vec![0; 2],
    };
    let answer = call(&mut lent);
    *areas = lent.areas;
    match answer {
        0 => {
            let header = boundary::header_of(&lent.header).expect("a header");
            let again = boundary::numbers_of(&header);
            assert_eq!(lent.header, again, "flags are 0 or 1");
            Reading::Accepted {
                header,
                texts: boundary::texts_of(&lent.texts),
            }
        }
        1..=11 => Reading::Refused(refusal(answer, &lent.place)),
        _ => Reading::Refused(bare(answer)),
    }
}

/// A refusal of reading, from its number and place.
fn refusal(answer: u64, place: &[u64]) -> Refusal {
    match answer {
        1..=10 => Refusal::Place {
            number: answer as u8,
            line: place[0],
            column: place[1],
        },
        11 => Refusal::Area {
            area: u8::try_from(place[0]).expect("an area"),
            need: place[1],
        },
        _ => panic!("reading answered {answer}"),
    }
}

fn bare(answer: u64) -> Refusal {
    Refusal::Bare {
        number: u8::try_from(answer).expect("a refusal's number"),
    }
}

/// The library to compare with the second program, where a function of it is linked.
pub fn other() -> Option<Box<dyn Library>> {
    let linked = FUNCTIONS.iter().any(|(_, linked)| *linked);
    linked.then(|| Box::new(Behind(Archive)) as Box<dyn Library>)
}

/// The second program, and the library where one is linked.
pub fn all() -> Vec<Box<dyn Library>> {
    let second = Box::new(Second) as Box<dyn Library>;
    std::iter::once(second).chain(other()).collect()
}

/// The library where one is linked, else the second program.
pub fn judged() -> Box<dyn Library> {
    other().unwrap_or(Box::new(Second))
}
