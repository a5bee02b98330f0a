//! A job given to a library, and everything that comes back.

use crate::boundary::bytes_of;
use crate::delays::Bits;
use crate::jobs::Job;
use crate::joins;
use crate::library::Library;
use crate::set::MapSet;
use second::{Answer, Buffers, Reading, Refusal};
use std::panic::{catch_unwind, AssertUnwindSafe};

#[derive(Clone, Debug, PartialEq, Eq)]
#[allow(clippy::large_enum_variant)]
pub enum Outcome {
    /// A reading or a joining.
    Read {
        answer: Reading,
        /// All six areas afterwards, with their guard elements.
        areas: Buffers,
    },
    /// The readings of two texts, and what they need.
    Twins {
        text: Box<Outcome>,
        twin: Box<Outcome>,
        needs: [Result<[usize; 6], Refusal>; 2],
    },
    Needs(Result<[usize; 6], Refusal>),
    Write {
        answer: Result<usize, Refusal>,
        /// The whole output afterwards.
        out: Vec<u8>,
    },
    Ask(Result<Answer, Refusal>),
    Delay(Result<Bits, Refusal>),
    /// Two groupings of the same sets.
    Chain(Box<[Result<MapSet, Refusal>; 2]>),
    Move(Result<u64, Refusal>),
    Panic,
}

impl Outcome {
    /// The refusal, if it is one.
    pub fn refusal(&self) -> Option<Refusal> {
        match self {
            Outcome::Read {
                answer: Reading::Refused(refusal),
                ..
            } => Some(*refusal),
            Outcome::Twins { text, .. } => text.refusal(),
            Outcome::Needs(answer) => answer.err(),
            Outcome::Write { answer, .. } => answer.err(),
            Outcome::Ask(answer) => answer.err(),
            Outcome::Delay(answer) => answer.err(),
            Outcome::Chain(answers) => answers[0].as_ref().err().copied(),
            Outcome::Move(answer) => answer.err(),
            _ => None,
        }
    }
}

pub fn run(library: &dyn Library, job: &Job) -> Outcome {
    catch_unwind(AssertUnwindSafe(|| attempt(library, job))).unwrap_or(Outcome::Panic)
}

fn attempt(library: &dyn Library, job: &Job) -> Outcome {
    match job {
        Job::Read { text, lent, .. } => read(library, text, lent),
        Job::Twins { text, twin, lent } => Outcome::Twins {
            text: Box::new(read(library, text, lent)),
            twin: Box::new(read(library, twin, lent)),
            needs: [library.needs(text), library.needs(twin)],
        },
        Job::Needs { text, .. } => Outcome::Needs(library.needs(text)),
        Job::Write { set, out, .. } => {
            let mut out = out.clone();
            let answer = library.write(set, &mut out);
            Outcome::Write { answer, out }
        }
        Job::Ask { set, question, .. } => Outcome::Ask(library.ask(set, question)),
        Job::TecuDelay { x, carrier } => Outcome::Delay(library.tecu_delay(*x, *carrier)),
        Job::Delay {
            set,
            question,
            carrier,
            ..
        } => Outcome::Delay(library.delay(set, question, *carrier)),
        Job::Join {
            earlier,
            later,
            lent,
        } => {
            let mut areas = lent.clone();
            let answer = library.join(earlier, later, &mut areas);
            Outcome::Read { answer, areas }
        }
        Job::Chain { sets, seed } => {
            Outcome::Chain(Box::new(joins::groupings(library, sets, *seed)))
        }
        Job::Move { epoch, by } => Outcome::Move(library.moved(*epoch, *by)),
    }
}

fn read(library: &dyn Library, text: &[u8], lent: &Buffers) -> Outcome {
    let mut areas = lent.clone();
    let answer = library.read(text, &mut areas);
    Outcome::Read { answer, areas }
}

/// The first thing in which two outcomes differ.
pub fn difference(a: &Outcome, b: &Outcome) -> Option<String> {
    match (a, b) {
        (
            Outcome::Read {
                answer: first,
                areas: left,
            },
            Outcome::Read {
                answer: second,
                areas: right,
            },
        ) => reading(first, second).or_else(|| areas(left, right)),
        (
            Outcome::Write {
                answer: first,
                out: left,
            },
            Outcome::Write {
                answer: second,
                out: right,
            },
        ) => unequal("answer of writing", first, second).or_else(|| part("output", left, right)),
        (
            Outcome::Twins { text, twin, needs },
            Outcome::Twins {
                text: other_text,
                twin: other_twin,
                needs: other_needs,
            },
        ) => difference(text, other_text)
            .or_else(|| difference(twin, other_twin))
            .or_else(|| unequal("needs", needs, other_needs)),
        (Outcome::Needs(first), Outcome::Needs(second)) => unequal("needs", first, second),
        (Outcome::Ask(first), Outcome::Ask(second)) => unequal("value asked", first, second),
        (Outcome::Delay(first), Outcome::Delay(second)) => unequal("delay", first, second),
        (Outcome::Chain(first), Outcome::Chain(second)) => first
            .iter()
            .zip(second.iter())
            .find_map(|(a, b)| unequal("chain", a, b)),
        (Outcome::Move(first), Outcome::Move(second)) => unequal("moved epoch", first, second),
        _ => Some(format!("one of the two failed: {a:?} {b:?}")),
    }
}

fn unequal<T: PartialEq + std::fmt::Debug>(what: &str, a: &T, b: &T) -> Option<String> {
    (a != b).then(|| format!("{what}: {a:?} and {b:?}"))
}

fn reading(a: &Reading, b: &Reading) -> Option<String> {
    match (a, b) {
        (
            Reading::Accepted { header, texts },
            Reading::Accepted {
                header: other_header,
                texts: other_texts,
            },
        ) => {
            let (bytes, other_bytes) = (bytes_of(texts), bytes_of(other_texts));
            unequal("header", header, other_header).or_else(|| part("texts", &bytes, &other_bytes))
        }
        _ => unequal("answer of reading", a, b),
    }
}

/// The first of the six areas in which two differ.
pub fn areas(a: &Buffers, b: &Buffers) -> Option<String> {
    first([
        part("tec", &a.tec, &b.tec),
        part("rms", &a.rms, &b.rms),
        part("height", &a.height, &b.height),
        part("exponents", &a.exponents, &b.exponents),
        part("epochs", &a.epochs, &b.epochs),
        part("marks", &a.marks, &b.marks),
    ])
}

/// That two answers differ.
pub fn answers(a: u64, b: u64) -> Option<String> {
    (a != b).then(|| format!("answers {a} and {b}"))
}

/// The first of some parts that differs.
pub fn first(parts: impl IntoIterator<Item = Option<String>>) -> Option<String> {
    parts.into_iter().flatten().next()
}

/// The first place where two areas differ, if they do.
pub fn part<T: PartialEq + std::fmt::Debug>(what: &str, a: &[T], b: &[T]) -> Option<String> {
    (a != b).then(|| place(what, a, b))
}

/// The first place where two areas differ.
pub fn place<T: PartialEq + std::fmt::Debug>(what: &str, a: &[T], b: &[T]) -> String {
    if a.len() != b.len() {
        return format!("{what}: lengths {} and {}", a.len(), b.len());
    }
    match (0..a.len()).find(|&k| a[k] != b[k]) {
        Some(k) => format!("{what} at {k}: {:?} and {:?}", a[k], b[k]),
        None => format!("{what}: no difference"),
    }
}
