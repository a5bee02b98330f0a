//! Many questions in one call, at the C boundary: five slices of any lengths, seconds in any order, sets of up to 300 maps.
//! What two leave is compared, and each answer of a library must be the one that it gives to the question alone.

use crate::boundary::{self, Asked, Boundary, Given, Plain};
use crate::calls;
use crate::damage;
use crate::explains;
use crate::gen;
use crate::rng::Rng;
use crate::run;
use crate::set::MapSet;
use crate::tally::{self, Comparison, Tally};
use second::many;

pub mod faults;

/// What all questions of a call have in common.
#[derive(Clone, Copy, Debug, PartialEq, Eq)]
pub struct Chosen {
    pub kind: u64,
    pub method: u64,
    pub layer: u64,
}

/// The three slices that are given; any lengths.
#[derive(Clone, Debug, Default, PartialEq, Eq)]
pub struct Asking {
    pub lats: Vec<i32>,
    pub lons: Vec<i32>,
    pub seconds: Vec<u64>,
}

impl Asking {
    /// The k-th question; all three slices have it.
    fn question(&self, chosen: &Chosen, k: usize) -> Asked {
        Asked {
            kind: chosen.kind,
            method: chosen.method,
            layer: chosen.layer,
            lat: self.lats[k],
            lon: self.lons[k],
            second: self.seconds[k],
        }
    }

    fn lengths(&self) -> [usize; 3] {
        [self.lats.len(), self.lons.len(), self.seconds.len()]
    }
}

pub trait Many {
    /// 0, or the refusal of the call as a whole: 23, 24, 31, 101 or 102.
    fn ask_all(
        &self,
        given: &Given,
        chosen: &Chosen,
        asking: &Asking,
        answers: &mut [u8],
        values: &mut [i32],
    ) -> u64;
}

// ---- the second program at the boundary ----

impl Many for Plain {
    fn ask_all(
        &self,
        given: &Given,
        chosen: &Chosen,
        asking: &Asking,
        answers: &mut [u8],
        values: &mut [i32],
    ) -> u64 {
        let (header, texts) = (given.header.len(), given.texts.len());
        if let Err(number) = boundary::own_areas(header, texts, 0, 0) {
            return number;
        }
        let header = boundary::header_of(&given.header).unwrap_or_default();
        let texts = boundary::texts_of(&given.texts);
        let number = |number: u64| i64::try_from(number).unwrap_or(-1);
        let many = many::Many {
            kind: number(chosen.kind),
            method: number(chosen.method),
            layer: number(chosen.layer),
            latitudes: &asking.lats,
            longitudes: &asking.lons,
            seconds: &asking.seconds,
        };
        let view = given.areas.view();
        match many::ask_all(&header, &texts, &view, &many, answers, values) {
            Ok(()) => 0,
            Err(refusal) => u64::from(refusal.number()),
        }
    }
}

// ---- calls of a seed ----

/// What a call is given and lent.
#[derive(Clone, Debug, PartialEq, Eq)]
struct Call {
    given: Given,
    chosen: Chosen,
    asking: Asking,
    answers: Vec<u8>,
    values: Vec<i32>,
}

impl Call {
    /// How many questions there are.
    fn count(&self) -> usize {
        let [lats, lons, seconds] = self.asking.lengths();
        let told = self.answers.len().min(self.values.len());
        lats.min(lons).min(seconds).min(told)
    }
}

fn calls(seed: u64) -> Vec<Call> {
    let rng = &mut Rng::new(seed ^ 0x0a11_0a11);
    let set = match rng.once_in(12) {
        true => gen::large(rng),
        false => explains::round(rng),
    };
    (0..3).map(|_| call(rng, &set)).collect()
}

fn call(rng: &mut Rng, set: &MapSet) -> Call {
    let question = explains::question(rng, set);
    let first = calls::asked(rng, &question);
    let mut asked = vec![first];
    for _ in 0..rng.pick(&[0, 1, 4, 12, 30]) {
        asked.push(boundary::asked(&explains::question(rng, set)));
    }
    match rng.below(3) {
        0 => asked.sort_by_key(|asked| asked.second),
        1 => asked.sort_by_key(|asked| u64::MAX - asked.second),
        _ => {}
    }
    // Several questions of one second too.
    if rng.once_in(4) {
        let second = asked[0].second;
        asked
            .iter_mut()
            .take(5)
            .for_each(|asked| asked.second = second);
    }
    let count = asked.len();
    let mut lengths = [(); 5].map(|()| count + rng.pick(&[0, 0, 0, 1, 2, 9]));
    if rng.once_in(2) {
        lengths[rng.below(5)] = rng.below(count + 1);
    }
    let asking = Asking {
        lats: lengthened(rng, lengths[0], asked.iter().map(|asked| asked.lat)),
        lons: lengthened(rng, lengths[1], asked.iter().map(|asked| asked.lon)),
        seconds: lengthened(rng, lengths[2], asked.iter().map(|asked| asked.second)),
    };
    let mut set = set.clone();
    if rng.once_in(3) {
        damage::holes(rng, &mut set);
    }
    if rng.once_in(8) {
        damage::map_set(rng, &mut set);
    }
    let Asked {
        kind,
        method,
        layer,
        ..
    } = first;
    Call {
        given: calls::mostly_given(rng, &set),
        chosen: Chosen {
            kind,
            method,
            layer,
        },
        asking,
        answers: (0..lengths[3]).map(|_| rng.word() as u8).collect(),
        values: (0..lengths[4]).map(|_| rng.word() as i32).collect(),
    }
}

/// A slice of so many numbers, with rubbish behind these.
fn lengthened<T: From<u16>>(rng: &mut Rng, length: usize, of: impl Iterator<Item = T>) -> Vec<T> {
    let mut all: Vec<T> = of.take(length).collect();
    all.resize_with(length, || T::from(rng.below(1000) as u16));
    all
}

// ---- comparing ----

/// What a library leaves of answers and values.
type Left = (u64, Vec<u8>, Vec<i32>);

fn perform(library: &dyn Many, call: &Call) -> Left {
    let (mut answers, mut values) = (call.answers.clone(), call.values.clone());
    let Call {
        given,
        chosen,
        asking,
        ..
    } = call;
    let answer = library.ask_all(given, chosen, asking, &mut answers, &mut values);
    (answer, answers, values)
}

/// What the first leaves, and the first thing in which the second's differs.
fn compare_call(a: &dyn Many, b: &dyn Many, call: &Call) -> (Left, Option<String>) {
    let (left, right) = (perform(a, call), perform(b, call));
    let found = run::first([
        run::answers(left.0, right.0),
        run::part("answers", &left.1, &right.1),
        run::part("values", &left.2, &right.2),
    ]);
    (left, found)
}

/// How often each of these must have occurred.
fn expected_often() -> Vec<String> {
    let calls = [0, 23, 24, 31, 101, 102].map(|number| format!("a call answered {number}"));
    let questions = [0, 20, 21, 22].map(|number| format!("a question answered {number}"));
    let methods = [0, 1, 2, 3].map(|method| format!("a value by method {method}"));
    let shortest = ["lats", "lons", "seconds", "answers", "values"];
    let shortest = shortest.map(|slice| format!("fewer {slice} than all others"));
    let mut rows = calls.to_vec();
    rows.extend(questions);
    rows.extend(methods);
    rows.extend(shortest);
    rows.push("no question at all".to_string());
    rows
}

/// Under which of these a call is counted, and how often.
fn counted(call: &Call, (answer, answers, _): &Left) -> Vec<(String, u64)> {
    let mut rows = vec![(format!("a call answered {answer}"), 1)];
    if *answer != 0 {
        return rows;
    }
    let count = call.count();
    for number in [0, 20, 21, 22] {
        let often = answers[..count].iter().filter(|&&n| n == number).count() as u64;
        rows.push((format!("a question answered {number}"), often));
        if number == 0 {
            rows.push((format!("a value by method {}", call.chosen.method), often));
        }
    }
    let [lats, lons, seconds] = call.asking.lengths();
    let lengths = [lats, lons, seconds, call.answers.len(), call.values.len()];
    let names = ["lats", "lons", "seconds", "answers", "values"];
    for (name, length) in names.into_iter().zip(lengths) {
        let alone = length == count && lengths.iter().filter(|&&n| n == count).count() == 1;
        rows.push((format!("fewer {name} than all others"), u64::from(alone)));
    }
    rows.push(("no question at all".to_string(), u64::from(count == 0)));
    rows
}

/// Every call of the seeds, by the second program and by another, and the other's answers judged.
pub fn compare<L: Many + Boundary>(other: &L, count: u64, seed: u64) -> Tally {
    Comparison::over(count, seed, expected_often(), |comparison, seed| {
        for call in calls(seed) {
            let (left, found) = compare_call(&Plain, other, &call);
            for (row, often) in counted(&call, &left) {
                comparison.count(row, often);
            }
            let complaint = found.or_else(|| judge(other, &call));
            comparison.judge(seed, complaint, || {
                tally::leave_words(&format!("{seed}-many.txt"), &call)
            });
        }
    })
}

/// What is wrong with the answers of a call, by the library's own answers to each question alone.
fn judge<L: Many + Boundary>(library: &L, call: &Call) -> Option<String> {
    let (answer, answers, values) = perform(library, call);
    if answer != 0 {
        let kept = answers == call.answers && values == call.values;
        return (!kept).then(|| "a refused call wrote something".to_string());
    }
    let count = call.count();
    let (mut told, mut valued) = (call.answers.clone(), call.values.clone());
    for k in 0..count {
        let asked = call.asking.question(&call.chosen, k);
        let alone = library.ask(&call.given, &asked, &mut valued[k..k + 1]);
        told[k] = u8::try_from(alone).expect("a question's answer");
    }
    let complaint = "not as each question alone";
    run::part(complaint, &answers, &told).or_else(|| run::part(complaint, &values, &valued))
}
