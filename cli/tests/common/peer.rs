//! What the second program says of a text.

use second::index::{indexed_block, indexed_node, make_index, Entries, Index, Node};
use second::week::{self, Week};
use second::{
    ask, explain, read, Answer, Axis, Buffers, Header, Question, Reading, Refusal, Texts, View,
};

/// A text that the second program accepts, with areas of its own.
pub struct Peer {
    header: Header,
    texts: Texts,
    areas: Buffers,
}

impl Peer {
    pub fn read(text: &[u8]) -> Result<Peer, Refusal> {
        let mut peer = Peer::of_lengths((text.len() / 5).min(2_000_000), 300);
        match read(text, &mut peer.areas.lent()) {
            Reading::Accepted { header, texts } => {
                peer.header = header;
                peer.texts = texts;
                Ok(peer)
            }
            Reading::Refused(refusal) => Err(refusal),
        }
    }

    fn of_lengths(values: usize, maps: usize) -> Peer {
        Peer {
            header: Header::default(),
            texts: Texts::default(),
            areas: Buffers {
                tec: vec![0; values],
                rms: vec![0; values],
                height: vec![0; values],
                exponents: vec![0; 3 * values],
                epochs: vec![0; maps],
                marks: vec![0; maps],
            },
        }
    }

    fn view(&self) -> View<'_> {
        self.areas.view()
    }

    /// The canonical text of this and a later text joined, or the number of the refusal.
    pub fn joined(&self, later: &Peer) -> Result<Vec<u8>, u8> {
        let values = self.areas.tec.len() + later.areas.tec.len();
        let mut both = Peer::of_lengths(values, 600);
        let mut areas = both.areas.lent();
        let (header, texts) = second::join(&self.given(), &later.given(), &mut areas)
            .map_err(|refusal| refusal.number())?;
        (both.header, both.texts) = (header, texts);
        Ok(both.canonical())
    }

    fn given(&self) -> second::Given<'_> {
        second::Given {
            header: &self.header,
            texts: &self.texts,
            areas: self.view(),
        }
    }

    /// Adds it to a week: its own rows, kind by kind, or the number of the refusal.
    pub fn added_to(&self, week: &mut Week) -> Result<Vec<i64>, u8> {
        let mut rows = vec![0; 3 * week::ROW * (self.header.maps as usize + 1)];
        week::add(week, &self.header, &self.texts, &self.view(), &mut rows)
            .map_err(|refusal| refusal.number())?;
        Ok(rows)
    }

    pub fn canonical(&self) -> Vec<u8> {
        second::write::canonical(&self.header, &self.texts, &self.view())
    }

    /// The answer as it is printed, or the number of the refusal.
    pub fn ask(&self, question: &Question) -> Result<String, u8> {
        let answer = ask(&self.header, &self.texts, &self.view(), question)
            .map_err(|refusal| refusal.number())?;
        let (value, unit) = match answer {
            Answer::ThousandthsOfTecu(value) => (value, "TECU"),
            Answer::ThousandthsOfKilometre(value) => (value, "km"),
        };
        let sign = if value < 0 { "-" } else { "" };
        Ok(format!(
            "{sign}{}.{:03} {unit}",
            value.abs() / 1000,
            value.abs() % 1000
        ))
    }

    /// Where the answer came from as `why --json` prints it, from the sum on; or the number of the refusal, and of 22 the
    /// node without a value, with the number of its cause.
    pub fn explained(&self, question: &Question) -> Result<String, (u8, Option<String>)> {
        let found = explain(&self.header, &self.texts, &self.view(), question).map_err(|why| {
            let lacking = why.lacking.map(|node| {
                let place = [node.map, node.layer, node.row, node.column];
                format!("{},\"cause\":{:?}", self.node(place), node.cause)
            });
            (why.refusal.number(), lacking)
        })?;
        let nodes: Vec<String> = found
            .nodes
            .iter()
            .map(|node| {
                let place = self.node([node.map, node.layer, node.row, node.column]);
                let value = decimals(node.value, 1000);
                format!("{{{place},\"value\":{value},\"weight\":{}}}", node.weight)
            })
            .collect();
        let sum: i128 = found
            .nodes
            .iter()
            .map(|node| i128::from(node.value) * i128::from(node.weight))
            .sum();
        Ok(format!(
            "\"sum\":{sum},\"denominator\":{},\"nodes\":[{}]}}",
            found.denominator,
            nodes.join(",")
        ))
    }

    /// A node's members.
    fn node(&self, [map, layer, row, column]: [u64; 4]) -> String {
        let at = |axis: Axis, line: u64| decimals(axis.first + line as i64 * axis.step, 10);
        let [year, month, day, hour, minute, second] =
            second::calendar::date(self.areas.epochs[map as usize - 1]).expect("a date");
        format!(
            "\"map\":{map},\"epoch\":\"{year:04}-{month:02}-{day:02}T{hour:02}:{minute:02}:{second:02}\",\
             \"layer\":{layer},\"row\":{row},\"lat\":{},\"column\":{column},\"lon\":{}",
            at(self.header.latitudes, row),
            at(self.header.longitudes, column)
        )
    }

    /// Carrier, TECU and metres, or the number of the refusal.
    pub fn delay(&self, question: &Question, hertz: f64) -> Result<[f64; 3], u8> {
        let view = self.view();
        let delay = second::ask_delay(&self.header, &self.texts, &view, question, hertz)
            .map_err(|refusal| refusal.number())?;
        Ok([delay.carrier, delay.tecu, delay.metres])
    }
}

/// The index of a text that the second program accepts.
pub struct PeerIndex {
    header: Header,
    texts: Texts,
    pub positions: Vec<u64>,
    pub exponents: Vec<i32>,
    pub marks: Vec<u8>,
}

impl PeerIndex {
    /// Of the areas only what is needed for so many blocks and maps.
    pub fn make(text: &[u8], blocks: usize, maps: usize) -> Result<PeerIndex, Refusal> {
        let (mut positions, mut exponents) = (vec![7; blocks], vec![7; blocks]);
        let mut marks = vec![7; maps];
        let mut entries = Entries {
            positions: &mut positions,
            exponents: &mut exponents,
            marks: &mut marks,
        };
        match make_index(text, &mut entries) {
            Reading::Refused(refusal) => Err(refusal),
            Reading::Accepted { header, texts } => Ok(PeerIndex {
                header,
                texts,
                positions,
                exponents,
                marks,
            }),
        }
    }

    fn view(&self) -> Index<'_> {
        Index {
            header: &self.header,
            texts: &self.texts,
            positions: &self.positions,
            exponents: &self.exponents,
            marks: &self.marks,
        }
    }

    /// Number and exponent, or the number of the refusal.
    pub fn node(&self, text: &[u8], node: &Node) -> Result<(i32, i32), u8> {
        indexed_node(&self.view(), text, node).map_err(|refusal| refusal.number())
    }

    pub fn block<'a>(&self, text: &'a [u8], node: &Node) -> &'a [u8] {
        indexed_block(&self.view(), text, node)
    }
}

/// Numbers that look like chance, the same in every run.
pub struct Chance(u64);

impl Chance {
    pub fn new(seed: u64) -> Chance {
        Chance(seed.wrapping_mul(0x9e37_79b9_7f4a_7c15) | 1)
    }

    pub fn below(&mut self, end: u64) -> u64 {
        self.0 ^= self.0 << 13;
        self.0 ^= self.0 >> 7;
        self.0 ^= self.0 << 17;
        (self.0 >> 11) % end
    }
}

/// Parts of a whole as a decimal number.
fn decimals(value: i64, whole: i64) -> String {
    let sign = if value < 0 { "-" } else { "" };
    let (size, width) = (value.abs(), whole.ilog10() as usize);
    format!("{sign}{}.{:0width$}", size / whole, size % whole)
}
