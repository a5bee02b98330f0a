//! Seeded calls at the C boundary: own areas of every length, rubbish behind what is needed, and numbers that no field
//! can hold. Everything lent is compared byte for byte afterwards.

use crate::boundary::{
    self, Asked, Boundary, Given, Lent, Plain, FLAGS, HEADER, NEEDS, OLD_HEADER, OLD_TEXTS, RECORD,
    TEXTS,
};
use crate::jobs::{self, Job};
use crate::rng::Rng;
use crate::run;
use crate::set::MapSet;
use crate::tally::{self, Comparison, Tally};
use second::{Buffers, Question};

/// What a call is given, and after it what it left.
#[derive(Clone, Debug, PartialEq, Eq)]
#[allow(clippy::large_enum_variant)]
pub enum Call {
    Read {
        text: Vec<u8>,
        lent: Lent,
    },
    Needs {
        text: Vec<u8>,
        needs: Vec<u64>,
        place: Vec<u64>,
    },
    Write {
        given: Given,
        out: Vec<u8>,
        count: Vec<u64>,
    },
    Ask {
        given: Given,
        asked: Asked,
        value: Vec<i32>,
    },
    /// The carrier and the record are held as bits.
    TecuDelay {
        x: i32,
        carrier: u64,
        record: Vec<u64>,
    },
    Delay {
        given: Given,
        asked: Asked,
        carrier: u64,
        record: Vec<u64>,
    },
    Join {
        earlier: Given,
        later: Given,
        lent: Lent,
    },
    Move {
        epoch: u64,
        by: i64,
        moved: Vec<u64>,
    },
}

impl Call {
    fn name(&self) -> &'static str {
        match self {
            Call::Read { .. } => "read",
            Call::Needs { .. } => "needs",
            Call::Write { .. } => "write",
            Call::Ask { .. } => "ask",
            Call::TecuDelay { .. } => "tecu_delay",
            Call::Delay { .. } => "delay",
            Call::Join { .. } => "join",
            Call::Move { .. } => "moved",
        }
    }
}

fn perform(boundary: &dyn Boundary, call: &mut Call) -> u64 {
    match call {
        Call::Read { text, lent } => boundary.read(text, lent),
        Call::Needs { text, needs, place } => boundary.needs(text, needs, place),
        Call::Write { given, out, count } => boundary.write(given, out, count),
        Call::Ask {
            given,
            asked,
            value,
        } => boundary.ask(given, asked, value),
        Call::TecuDelay { x, carrier, record } => over_bits(record, |record| {
            boundary.tecu_delay(*x, f64::from_bits(*carrier), record)
        }),
        Call::Delay {
            given,
            asked,
            carrier,
            record,
        } => over_bits(record, |record| {
            boundary.delay(given, asked, f64::from_bits(*carrier), record)
        }),
        Call::Join {
            earlier,
            later,
            lent,
        } => boundary.join(earlier, later, lent),
        Call::Move { epoch, by, moved } => boundary.moved(*epoch, *by, moved),
    }
}

/// A call that is lent the numbers that these bits are.
fn over_bits(bits: &mut [u64], call: impl FnOnce(&mut [f64]) -> u64) -> u64 {
    let mut numbers: Vec<f64> = bits.iter().map(|&word| f64::from_bits(word)).collect();
    let answer = call(&mut numbers);
    for (word, number) in bits.iter_mut().zip(numbers) {
        *word = number.to_bits();
    }
    answer
}

// ---- the calls of a seed ----

pub fn calls(seed: u64) -> Vec<Call> {
    let rng = &mut Rng::new(seed ^ 0x0c0f_fee0);
    jobs::jobs(seed)
        .into_iter()
        .map(|job| call(rng, job))
        .collect()
}

/// A length around what a call needs of an own area.
pub fn length(rng: &mut Rng, need: usize) -> usize {
    match rng.below(12) {
        0 => need - 1,
        1 => rng.below(need),
        2..=4 => need + rng.pick(&[1, 2, 9]),
        _ => need,
    }
}

pub fn words(rng: &mut Rng, need: usize) -> Vec<u64> {
    (0..length(rng, need)).map(|_| rng.word()).collect()
}

/// Words for an own area, mostly as many as it needs.
pub fn mostly_words(rng: &mut Rng, need: usize) -> Vec<u64> {
    match rng.once_in(4) {
        true => words(rng, need),
        false => (0..need).map(|_| rng.word()).collect(),
    }
}

fn call(rng: &mut Rng, job: Job) -> Call {
    match job {
        Job::Read { text, lent, .. }
        | Job::Twins {
            twin: text, lent, ..
        } => Call::Read {
            text,
            lent: lent_with(rng, lent),
        },
        Job::Needs { text, .. } => Call::Needs {
            text,
            needs: words(rng, NEEDS),
            place: words(rng, 2),
        },
        Job::Write { set, out, .. } => Call::Write {
            given: given(rng, &set),
            out,
            count: words(rng, 1),
        },
        Job::Ask { set, question, .. } => Call::Ask {
            given: given(rng, &set),
            asked: asked(rng, &question),
            value: words(rng, 1).iter().map(|&w| w as i32).collect(),
        },
        Job::TecuDelay { x, carrier } => Call::TecuDelay {
            x,
            carrier: carrier.to_bits(),
            record: words(rng, RECORD),
        },
        Job::Delay {
            set,
            question,
            carrier,
            ..
        } => Call::Delay {
            given: given(rng, &set),
            asked: asked(rng, &question),
            carrier: carrier.to_bits(),
            record: words(rng, RECORD),
        },
        Job::Join {
            earlier,
            later,
            lent,
        } => join(rng, &earlier, &later, lent),
        // The first two of a chain, with no room at all.
        Job::Chain { sets, .. } => join(rng, &sets[0], &sets[1], Buffers::default()),
        Job::Move { epoch, by } => Call::Move {
            epoch,
            by,
            moved: words(rng, 1),
        },
    }
}

/// One of the two sets at most is odd, so that many calls get far.
fn join(rng: &mut Rng, earlier: &MapSet, later: &MapSet, areas: Buffers) -> Call {
    let odd = rng.below(4);
    let mut set = |which: usize, set: &MapSet| match which == odd {
        true => given(rng, set),
        false => boundary::given(set),
    };
    let (earlier, later) = (set(0, earlier), set(1, later));
    Call::Join {
        earlier,
        later,
        lent: lent_with(rng, areas),
    }
}

/// What is lent to a reading or a joining.
fn lent_with(rng: &mut Rng, areas: Buffers) -> Lent {
    Lent {
        areas,
        header: words(rng, HEADER).iter().map(|&w| w as i64).collect(),
        texts: words(rng, TEXTS).iter().map(|&w| w as u8).collect(),
        place: words(rng, 2),
    }
}

pub fn given(rng: &mut Rng, set: &MapSet) -> Given {
    let mut given = boundary::given(set);
    match rng.below(4) {
        0 => widen(rng, &mut given.header),
        1 => other_flags(rng, &mut given.header),
        _ => {}
    }
    let (header, texts) = match rng.below(16) {
        // A caller of before the descriptions, or one whose texts alone are.
        0 => (OLD_HEADER, OLD_TEXTS),
        1 => (HEADER, OLD_TEXTS),
        _ => (length(rng, HEADER), length(rng, TEXTS)),
    };
    given.header.resize_with(header, || rng.word() as i64);
    given.texts.resize_with(texts, || rng.word() as u8);
    given
}

/// What is given of a set, mostly as it is.
pub fn mostly_given(rng: &mut Rng, set: &MapSet) -> Given {
    match rng.once_in(4) {
        true => given(rng, set),
        false => boundary::given(set),
    }
}

/// One number wider than its field, some so that their lower bits are the right number.
fn widen(rng: &mut Rng, header: &mut [i64]) {
    let place = rng.below(HEADER);
    let old = header[place];
    header[place] = rng.pick(&[
        i64::MIN,
        i64::MAX,
        old + (1 << 32),
        old - (1 << 32),
        old + (1 << 16),
        old + 256,
        old ^ i64::MIN,
        -1 - old,
    ]);
}

/// "any number but 0 says that the record stands"
fn other_flags(rng: &mut Rng, header: &mut [i64]) {
    for place in FLAGS {
        if header[place] != 0 && rng.once_in(2) {
            header[place] = rng.pick(&[2, -1, 256, 1 << 32, i64::MIN, i64::MAX]);
        }
    }
}

pub fn asked(rng: &mut Rng, question: &Question) -> Asked {
    let mut asked = boundary::asked(question);
    if rng.once_in(8) {
        widen_asked(rng, &mut asked);
    }
    asked
}

fn widen_asked(rng: &mut Rng, asked: &mut Asked) {
    let more = rng.pick(&[1 << 8, 1 << 32, 1 << 63]);
    let number = match rng.below(4) {
        0 => &mut asked.kind,
        1 => &mut asked.method,
        2 => &mut asked.layer,
        _ => &mut asked.second,
    };
    *number = number.wrapping_add(more);
}

// ---- comparing ----

/// The first thing in which two answers, or what two calls left, differ.
fn difference(a: (u64, &Call), b: (u64, &Call)) -> Option<String> {
    if a.0 != b.0 {
        return run::answers(a.0, b.0);
    }
    let parts = match (a.1, b.1) {
        (Call::Read { lent: left, .. }, Call::Read { lent: right, .. })
        | (Call::Join { lent: left, .. }, Call::Join { lent: right, .. }) => vec![
            run::areas(&left.areas, &right.areas),
            run::part("header", &left.header, &right.header),
            run::part("texts", &left.texts, &right.texts),
            run::part("place", &left.place, &right.place),
        ],
        (
            Call::Needs { needs, place, .. },
            Call::Needs {
                needs: other_needs,
                place: other_place,
                ..
            },
        ) => vec![
            run::part("needs", needs, other_needs),
            run::part("place", place, other_place),
        ],
        (
            Call::Write { out, count, .. },
            Call::Write {
                out: other_out,
                count: other_count,
                ..
            },
        ) => vec![
            run::part("out", out, other_out),
            run::part("count", count, other_count),
        ],
        (Call::Ask { value: left, .. }, Call::Ask { value: right, .. }) => {
            vec![run::part("value", left, right)]
        }
        (Call::TecuDelay { record: left, .. }, Call::TecuDelay { record: right, .. })
        | (Call::Delay { record: left, .. }, Call::Delay { record: right, .. }) => {
            vec![run::part("record", left, right)]
        }
        (Call::Move { moved: left, .. }, Call::Move { moved: right, .. }) => {
            vec![run::part("moved", left, right)]
        }
        _ => vec![Some("two calls of different kinds".to_string())],
    };
    let found = run::first(parts)?;
    Some(format!("after answer {}: {found}", a.0))
}

/// What two do with a call: the first's answer, and a difference if there is one.
fn compare_call(a: &dyn Boundary, b: &dyn Boundary, call: &Call) -> (u64, Option<String>) {
    let (mut left, mut right) = (call.clone(), call.clone());
    let first = perform(a, &mut left);
    let second = perform(b, &mut right);
    let found = difference((first, &left), (second, &right));
    (first, found)
}

/// Every call of the seeds, made to the second program and to another.
pub fn compare(other: &dyn Boundary, count: u64, seed: u64) -> Tally {
    Comparison::over(count, seed, expected_often(), |comparison, seed| {
        for (k, call) in calls(seed).iter().enumerate() {
            let (answer, found) = compare_call(&Plain, other, call);
            comparison.count(format!("{} answered {answer}", call.name()), 1);
            let found = found.map(|found| format!("call {k} ({}): {found}", call.name()));
            comparison.judge(seed, found, || leave(seed, k, call));
        }
    })
}

fn leave(seed: u64, k: usize, call: &Call) {
    match call {
        Call::Read { text, .. } | Call::Needs { text, .. } => {
            tally::leave(&format!("{seed}-call-{k}.inx"), text)
        }
        _ => tally::leave_words(&format!("{seed}-call-{k}.txt"), call),
    }
}

/// The answers that must have occurred often.
fn expected_often() -> Vec<String> {
    let asked = [0, 20, 21, 22, 23, 24, 31, 101, 102, 103];
    [
        tally::answered("read", &[0, 6, 8, 11, 101, 102, 103]),
        tally::answered("needs", &[0, 6, 8, 103]),
        tally::answered("write", &[0, 30, 31, 101, 102, 103]),
        tally::answered("ask", &asked),
        tally::answered("tecu_delay", &[0, 25, 103]),
        tally::answered("delay", &asked),
        tally::answered("delay", &[25]),
        tally::answered("join", &[0, 11, 31, 40, 41, 101, 102, 103]),
        tally::answered("moved", &[0, 7, 103]),
    ]
    .concat()
}

// ---- planted faults ----

listed! {
    /// One thing wrong at the boundary.
    pub enum Fault {
        PlaceWhenDone,
        HeaderWhenRefused,
        TextsWhenRefused,
        PlaceTail,
        HeaderTail,
        TextsTail,
        ReadFlagTwo,
        /// 103 told before 101 and 102.
        ReadOrder,
        WriteOrder,
        AskOrder,
        /// Something written after 101 to 103.
        ReadShortWritten,
        NeedsPlaceWhenDone,
        NeedsWhenRefused,
        NeedsTail,
        NeedsPlaceTail,
        /// Written although the other area is too short.
        NeedsShortPlace,
        CountWhenRefused,
        CountTail,
        ValueWhenRefused,
        ValueTail,
        RecordWhenRefused,
        RecordTail,
        /// A record of two numbers served.
        RecordShort,
        DelayOrder,
        JoinPlaceWhenDone,
        /// Place, header or texts written where the sets cannot be joined.
        JoinPlaceWhenRefused,
        JoinHeaderWhenRefused,
        JoinTextsTail,
        JoinOrder,
        /// Only the first set's header and texts looked at for 101 and 102.
        JoinOthersShort,
        MovedWhenRefused,
        MovedTail,
        MovedShort,
        /// Only 1 says that a record stands.
        FlagsOne,
        /// A caller with the old lengths served, as one without descriptions.
        OldWritten,
        OldAsked,
        /// Numbers of the header cut to 32 bits, in writing and in asking.
        WriteNarrow,
        AskNarrow,
        /// Kind, method and layer cut to 32 bits.
        AskedNarrow,
    }
}

/// The seed and the difference at which the comparison with a library finds a fault, within `count` seeds.
pub fn find(library: &dyn Boundary, fault: Fault, count: u64, seed: u64) -> Option<(u64, String)> {
    let differs = |call: &Call| compare_call(library, &Faulty(fault), call).1;
    tally::first(count, seed, |seed| calls(seed).iter().find_map(differs))
}

/// The second program with one thing wrong.
struct Faulty(Fault);

fn flip(area: &mut [u64], at: usize) {
    if let Some(number) = area.get_mut(at) {
        *number ^= 1;
    }
}

impl Boundary for Faulty {
    fn read(&self, text: &[u8], lent: &mut Lent) -> u64 {
        if self.0 == Fault::ReadOrder && lent.place.len() < 2 {
            return 103;
        }
        let answer = Plain.read(text, lent);
        match (self.0, answer) {
            (_, 101..) if self.0 != Fault::ReadShortWritten => {}
            (Fault::ReadShortWritten, 101..) | (Fault::PlaceWhenDone, 0) => {
                flip(&mut lent.place, 0)
            }
            (Fault::HeaderWhenRefused, 1..) => lent.header[0] ^= 1,
            (Fault::TextsWhenRefused, 1..) => lent.texts[TEXTS - 1] ^= 1,
            (Fault::PlaceTail, _) => flip(&mut lent.place, 2),
            (Fault::HeaderTail, _) => {
                if let Some(number) = lent.header.get_mut(HEADER) {
                    *number ^= 1;
                }
            }
            (Fault::TextsTail, _) => {
                if let Some(byte) = lent.texts.get_mut(TEXTS) {
                    *byte ^= 1;
                }
            }
            (Fault::ReadFlagTwo, 0) => lent.header[19] *= 2,
            _ => {}
        }
        answer
    }

    fn needs(&self, text: &[u8], needs: &mut [u64], place: &mut [u64]) -> u64 {
        let answer = Plain.needs(text, needs, place);
        match (self.0, answer) {
            (Fault::NeedsPlaceWhenDone, 0) => flip(place, 1),
            (Fault::NeedsWhenRefused, 1..=10) => flip(needs, 5),
            (Fault::NeedsTail, 0..=10) => flip(needs, NEEDS),
            (Fault::NeedsPlaceTail, 0..=10) => flip(place, 2),
            (Fault::NeedsShortPlace, 103) => flip(needs, 0),
            _ => {}
        }
        answer
    }

    fn write(&self, given: &Given, out: &mut [u8], count: &mut [u64]) -> u64 {
        if self.0 == Fault::WriteOrder && count.is_empty() {
            return 103;
        }
        let answer = match self.0 {
            Fault::FlagsOne => Plain.write(&with_header(given, only_one), out, count),
            Fault::WriteNarrow => Plain.write(&with_header(given, narrow), out, count),
            Fault::OldWritten => Plain.write(&without_descriptions(given), out, count),
            _ => Plain.write(given, out, count),
        };
        match (self.0, answer) {
            (Fault::CountWhenRefused, 31) => flip(count, 0),
            (Fault::CountTail, 0..=100) => flip(count, 1),
            _ => {}
        }
        answer
    }

    fn ask(&self, given: &Given, asked: &Asked, value: &mut [i32]) -> u64 {
        if self.0 == Fault::AskOrder && value.is_empty() {
            return 103;
        }
        let answer = match self.0 {
            Fault::AskNarrow => Plain.ask(&with_header(given, narrow), asked, value),
            Fault::OldAsked => Plain.ask(&without_descriptions(given), asked, value),
            Fault::AskedNarrow => {
                let low = |number: u64| number & 0xffff_ffff;
                let asked = Asked {
                    kind: low(asked.kind),
                    method: low(asked.method),
                    layer: low(asked.layer),
                    ..*asked
                };
                Plain.ask(given, &asked, value)
            }
            _ => Plain.ask(given, asked, value),
        };
        let touched = match (self.0, answer) {
            (Fault::ValueWhenRefused, 1..) => value.get_mut(0),
            (Fault::ValueTail, _) => value.get_mut(1),
            _ => None,
        };
        if let Some(number) = touched {
            *number ^= 1;
        }
        answer
    }

    fn tecu_delay(&self, x: i32, carrier: f64, record: &mut [f64]) -> u64 {
        if self.0 == Fault::RecordShort && record.len() == RECORD - 1 {
            return 0;
        }
        let answer = Plain.tecu_delay(x, carrier, record);
        self.record(answer, record)
    }

    fn delay(&self, given: &Given, asked: &Asked, carrier: f64, record: &mut [f64]) -> u64 {
        if self.0 == Fault::DelayOrder && record.len() < RECORD {
            return 103;
        }
        let answer = Plain.delay(given, asked, carrier, record);
        self.record(answer, record)
    }

    fn join(&self, earlier: &Given, later: &Given, lent: &mut Lent) -> u64 {
        if self.0 == Fault::JoinOrder && lent.place.len() < 2 {
            return 103;
        }
        let answer = Plain.join(earlier, later, lent);
        match (self.0, answer) {
            (Fault::JoinOthersShort, 101 | 102)
                if earlier.header.len() >= HEADER && earlier.texts.len() >= TEXTS =>
            {
                return 31
            }
            (Fault::JoinPlaceWhenDone, 0) | (Fault::JoinPlaceWhenRefused, 31..=42) => {
                flip(&mut lent.place, 0)
            }
            (Fault::JoinHeaderWhenRefused, 11..=42) => lent.header[0] ^= 1,
            (Fault::JoinTextsTail, 0) => {
                if let Some(byte) = lent.texts.get_mut(TEXTS) {
                    *byte ^= 1;
                }
            }
            _ => {}
        }
        answer
    }

    fn moved(&self, epoch: u64, by: i64, moved: &mut [u64]) -> u64 {
        let answer = Plain.moved(epoch, by, moved);
        match (self.0, answer) {
            (Fault::MovedWhenRefused, 7) => flip(moved, 0),
            (Fault::MovedTail, _) => flip(moved, 1),
            (Fault::MovedShort, 103) => return 7,
            _ => {}
        }
        answer
    }
}

impl Faulty {
    /// The record of a delay, with what is wrong with it.
    fn record(&self, answer: u64, record: &mut [f64]) -> u64 {
        let touched = match (self.0, answer) {
            (Fault::RecordWhenRefused, 20..=31) => record.get_mut(0),
            (Fault::RecordTail, 0) => record.get_mut(RECORD),
            _ => None,
        };
        if let Some(number) = touched {
            *number = f64::from_bits(number.to_bits() ^ 1);
        }
        answer
    }
}

/// What is given in the old lengths, with the number 0 and blank lines behind it.
fn without_descriptions(given: &Given) -> Given {
    let mut changed = given.clone();
    if given.header.len() == OLD_HEADER {
        changed.header.push(0);
    }
    if given.texts.len() == OLD_TEXTS {
        changed.texts.resize(TEXTS, b' ');
    }
    changed
}

fn with_header(given: &Given, change: fn(usize, i64) -> i64) -> Given {
    let mut changed = given.clone();
    for (place, number) in changed.header.iter_mut().enumerate() {
        *number = change(place, *number);
    }
    changed
}

fn narrow(place: usize, number: i64) -> i64 {
    // Places 3 and 4 are epochs, which are wider.
    match place {
        3 | 4 => number,
        _ => i64::from(number as i32),
    }
}

fn only_one(place: usize, number: i64) -> i64 {
    if FLAGS.contains(&place) && number != 1 {
        0
    } else {
        number
    }
}
