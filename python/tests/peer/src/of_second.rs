//! What the second program says.

use second::index::{indexed_block, indexed_node, make_index, Entries, Index, Node};
use second::week::{self, Week};
use second::{
    Answer, Buffers, Given, Header, Lacking, Question, Reading, Refusal, Texts, Unexplained,
};
use std::cell::RefCell;

/// A text that is accepted, with areas of its own.
struct Peer {
    header: Header,
    texts: Texts,
    areas: Buffers,
}

impl Peer {
    fn read(text: &[u8]) -> Result<Peer, Refusal> {
        let mut areas = room((text.len() / 5).min(2_000_000));
        match second::read(text, &mut areas.lent()) {
            Reading::Accepted { header, texts } => Ok(Peer {
                header,
                texts,
                areas,
            }),
            Reading::Refused(refusal) => Err(refusal),
        }
    }

    fn canonical(&self) -> Vec<u8> {
        second::write::canonical(&self.header, &self.texts, &self.areas.view())
    }

    fn given(&self) -> Given<'_> {
        Given {
            header: &self.header,
            texts: &self.texts,
            areas: self.areas.view(),
        }
    }
}

fn room(values: usize) -> Buffers {
    Buffers {
        tec: vec![0; values],
        rms: vec![0; values],
        height: vec![0; values],
        exponents: vec![0; 3 * values],
        epochs: vec![0; 600],
        marks: vec![0; 600],
    }
}

fn told(refusal: Refusal) -> Vec<u8> {
    refusal.to_string().into_bytes()
}

pub fn canon(text: &[u8]) -> Vec<u8> {
    Peer::read(text).map_or_else(told, |peer| peer.canonical())
}

thread_local! {
    /// The text of all questions is read once.
    static READ: RefCell<Option<Peer>> = const { RefCell::new(None) };
}

/// Asks of a text that is accepted.
fn asked<T>(text: &[u8], question: &[i64], ask: impl Fn(&Peer, &Question) -> T) -> T {
    let [kind, method, layer, latitude, longitude, second] = question[..6] else {
        panic!("a question has six numbers");
    };
    let question = Question {
        kind,
        method,
        layer,
        latitude,
        longitude,
        second: second as u64,
    };
    READ.with_borrow_mut(|read| {
        let peer = read.get_or_insert_with(|| Peer::read(text).expect("an accepted text"));
        ask(peer, &question)
    })
}

fn thousandths(answer: Answer) -> i64 {
    match answer {
        Answer::ThousandthsOfTecu(value) | Answer::ThousandthsOfKilometre(value) => value,
    }
}

pub fn ask(text: &[u8], question: &[i64]) -> String {
    asked(text, question, |peer, question| {
        match second::ask(&peer.header, &peer.texts, &peer.areas.view(), question) {
            Ok(answer) => thousandths(answer).to_string(),
            Err(refusal) => refusal.to_string(),
        }
    })
}

/// `ANSWER DENOMINATOR` and six numbers for each node, or `refused 22` and the node's four numbers and cause.
pub fn explain(text: &[u8], question: &[i64]) -> String {
    asked(text, question, |peer, question| {
        match second::explain(&peer.header, &peer.texts, &peer.areas.view(), question) {
            Ok(found) => {
                let mut told = format!("{} {}", thousandths(found.answer), found.denominator);
                for node in found.nodes {
                    told += &format!(
                        " {} {} {} {} {} {}",
                        node.map, node.layer, node.row, node.column, node.value, node.weight
                    );
                }
                told
            }
            Err(Unexplained { refusal, lacking }) => {
                let node = lacking.map_or_else(String::new, |node| {
                    let Lacking {
                        map,
                        layer,
                        row,
                        column,
                        cause,
                    } = node;
                    format!(" {map} {layer} {row} {column} {cause:?}")
                });
                format!("{refusal}{node}")
            }
        }
    })
}

/// The bits of the metres.
pub fn delay(text: &[u8], question: &[i64]) -> String {
    let carrier = f64::from_bits(question[6] as u64);
    asked(text, question, |peer, question| {
        let view = peer.areas.view();
        match second::ask_delay(&peer.header, &peer.texts, &view, question, carrier) {
            Ok(delay) => delay.metres.to_bits().to_string(),
            Err(refusal) => refusal.to_string(),
        }
    })
}

pub fn join(early: &[u8], late: &[u8]) -> Vec<u8> {
    let read = |text| Peer::read(text).expect("an accepted text");
    let (early, late) = (read(early), read(late));
    let mut areas = room(early.areas.tec.len() + late.areas.tec.len());
    match second::join(&early.given(), &late.given(), &mut areas.lent()) {
        Ok((header, texts)) => Peer {
            header,
            texts,
            areas,
        }
        .canonical(),
        Err(refusal) => told(refusal),
    }
}

pub fn week(texts: impl Iterator<Item = Vec<u8>>) -> Vec<u8> {
    let mut week = Week::default();
    let mut told = String::new();
    for text in texts {
        let peer = Peer::read(&text).expect("an accepted text");
        let mut rows = vec![0; 3 * week::ROW * (peer.header.maps as usize + 1)];
        let view = peer.areas.view();
        match week::add(&mut week, &peer.header, &peer.texts, &view, &mut rows) {
            Ok(()) => told += &format!("{rows:?}\n"),
            Err(refusal) => told += &format!("{refusal}\n"),
        }
    }
    let rows: Vec<i128> = week.kinds.iter().flat_map(|kind| kind.row()).collect();
    format!("{told}{rows:?}\n").into_bytes()
}

pub fn biases(text: &[u8]) -> Vec<u8> {
    let found = match second::biases::gathered(text) {
        Ok(found) => found,
        Err(refusal) => return told(refusal),
    };
    let letter = char::from;
    let mut told = String::new();
    for one in found.satellites {
        told += &format!(
            "satellite|{}|{}|{}|{}\n",
            letter(one.system),
            one.number,
            one.bias,
            one.rms
        );
    }
    for one in found.stations {
        let name = String::from_utf8_lossy(&one.name);
        told += &format!(
            "station|{}|{}|{}|{}\n",
            letter(one.system),
            name.trim_end(),
            one.bias,
            one.rms
        );
    }
    told.into_bytes()
}

/// An index with areas of its own.
struct Made {
    header: Header,
    texts: Texts,
    positions: Vec<u64>,
    exponents: Vec<i32>,
    marks: Vec<u8>,
}

fn made(text: &[u8]) -> Result<Made, Refusal> {
    let found = second::read::placed(text)?;
    let (mut positions, mut exponents) = (
        vec![0; found.positions.len()],
        vec![0; found.exponents.len()],
    );
    let mut marks = vec![0; found.marks.len()];
    let mut entries = Entries {
        positions: &mut positions,
        exponents: &mut exponents,
        marks: &mut marks,
    };
    match make_index(text, &mut entries) {
        Reading::Refused(refusal) => Err(refusal),
        Reading::Accepted { header, texts } => Ok(Made {
            header,
            texts,
            positions,
            exponents,
            marks,
        }),
    }
}

pub fn index(text: &[u8]) -> Vec<u8> {
    match made(text) {
        Err(refusal) => told(refusal),
        Ok(Made {
            positions,
            exponents,
            marks,
            ..
        }) => format!("{positions:?}\n{exponents:?}\n{marks:?}\n").into_bytes(),
    }
}

/// `NUMBER EXPONENT` and the block's bytes in hexadecimal digits, or the refusal.
pub fn node(text: &[u8], other: &[u8], question: &[i64]) -> String {
    let made = made(other).expect("an accepted text");
    let index = Index {
        header: &made.header,
        texts: &made.texts,
        positions: &made.positions,
        exponents: &made.exponents,
        marks: &made.marks,
    };
    let [kind, map, layer, row, column] = [0, 1, 2, 3, 4].map(|at| question[at] as u64);
    let node = Node {
        kind,
        map,
        layer,
        row,
        column,
    };
    match indexed_node(&index, text, &node) {
        Err(refusal) => refusal.to_string(),
        Ok((number, exponent)) => {
            let block = indexed_block(&index, text, &node);
            let digits: String = block.iter().map(|byte| format!("{byte:02x}")).collect();
            format!("{number} {exponent} {digits}")
        }
    }
}
