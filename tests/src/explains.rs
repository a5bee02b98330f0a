//! Where an answer came from, at the C boundary: questions about sets with nodes that have no value for each of the causes.
//! What two leave is compared, and what a library lists is judged by weights and values that are worked out another way.

use crate::boundary::{self, Asked, Boundary, Given, Plain};
use crate::calls;
use crate::damage;
use crate::gen;
use crate::jobs;
use crate::oracle::{self, Needed};
use crate::rng::Rng;
use crate::run;
use crate::set::MapSet;
use crate::tally::{self, Comparison, Tally};
use second::{Answer, Cause, Explanation, Lacking, Question};

pub mod faults;

/// The places of what is told of an answer: the number of nodes, the denominator, the answer, then the nodes.
pub const COUNT: usize = 0;
pub const DENOMINATOR: usize = 1;
pub const ANSWER: usize = 2;
pub const NODE: usize = 3;

/// The numbers of a node: map, layer, row, column, value and weight.
pub const SIZE: usize = 6;

/// How many numbers tell of an answer, and how many of a node that has no value: map, layer, row, column and cause.
pub const EXPLAINED: usize = NODE + 8 * SIZE;
pub const LACKING: usize = 5;

pub trait Explains {
    /// 0, a refusal's number, or 101 to 103.
    fn explain(&self, given: &Given, asked: &Asked, nodes: &mut [i64], lacking: &mut [u64]) -> u64;
}

// ---- the second program at the boundary ----

impl Explains for Plain {
    fn explain(&self, given: &Given, asked: &Asked, nodes: &mut [i64], lacking: &mut [u64]) -> u64 {
        plain(given, asked, nodes, lacking).err().unwrap_or(0)
    }
}

fn plain(given: &Given, asked: &Asked, nodes: &mut [i64], lacking: &mut [u64]) -> Result<(), u64> {
    let short = nodes.len() < EXPLAINED || lacking.len() < LACKING;
    let (header, texts) = (given.header.len(), given.texts.len());
    boundary::own_areas(header, texts, usize::from(!short), 1)?;
    // Kind and method come before the header: a header of nothing serves to ask for 23.
    let header = boundary::header_of(&given.header).unwrap_or_default();
    let texts = boundary::texts_of(&given.texts);
    let question = boundary::question(asked);
    match second::explain(&header, &texts, &given.areas.view(), &question) {
        Ok(found) => {
            nodes[..EXPLAINED].copy_from_slice(&numbers_of(&found));
            Ok(())
        }
        Err(why) => {
            if let Some(found) = why.lacking {
                lacking[..LACKING].copy_from_slice(&place_of(&found));
            }
            Err(u64::from(why.refusal.number()))
        }
    }
}

fn numbers_of(found: &Explanation) -> [i64; EXPLAINED] {
    let mut numbers = [0; EXPLAINED];
    let (Answer::ThousandthsOfTecu(answer) | Answer::ThousandthsOfKilometre(answer)) = found.answer;
    numbers[COUNT] = found.nodes.len() as i64;
    numbers[DENOMINATOR] = found.denominator;
    numbers[ANSWER] = answer;
    for (node, numbers) in found.nodes.iter().zip(numbers[NODE..].chunks_mut(SIZE)) {
        let [map, layer, row, column] =
            [node.map, node.layer, node.row, node.column].map(|place| place as i64);
        numbers.copy_from_slice(&[map, layer, row, column, node.value, node.weight]);
    }
    numbers
}

fn place_of(found: &Lacking) -> [u64; LACKING] {
    let cause = match found.cause {
        Cause::MapAbsent => 1,
        Cause::ExponentOutOfRange => 2,
        Cause::NumberOutOfRange => 3,
        Cause::NoValue => 4,
    };
    [found.map, found.layer, found.row, found.column, cause]
}

// ---- questions of a seed ----

/// A question, the set that it is about, and what is lent.
#[derive(Clone, Debug, PartialEq, Eq)]
struct Call {
    given: Given,
    asked: Asked,
    nodes: Vec<i64>,
    lacking: Vec<u64>,
}

fn calls(seed: u64) -> Vec<Call> {
    let rng = &mut Rng::new(seed ^ 0x0e49_1a17);
    questions(rng)
        .into_iter()
        .map(|(mut set, question)| {
            if rng.once_in(12) {
                damage::map_set(rng, &mut set);
            }
            Call {
                given: calls::mostly_given(rng, &set),
                asked: calls::asked(rng, &question),
                nodes: numbers(calls::mostly_words(rng, EXPLAINED)),
                lacking: calls::mostly_words(rng, LACKING),
            }
        })
        .collect()
}

fn numbers(words: Vec<u64>) -> Vec<i64> {
    words.into_iter().map(|word| word as i64).collect()
}

/// Sets that asking takes, and questions about them; in many a node that is needed has no value.
fn questions(rng: &mut Rng) -> Vec<(MapSet, Question)> {
    let large = rng.once_in(40);
    let set = match large {
        true => gen::large(rng),
        false => round(rng),
    };
    (0..6)
        .map(|_| {
            let question = match large {
                true => damage::late_question(rng, &set),
                false => question(rng, &set),
            };
            let mut set = match rng.once_in(4) {
                true => jobs::with_tails(rng, &set),
                false => set.clone(),
            };
            if rng.once_in(4) {
                damage::holes(rng, &mut set);
            }
            if rng.once_in(3) {
                spoil(rng, &mut set, &question);
            }
            (set, question)
        })
        .collect()
}

/// A set, more often than not one that goes round the Earth.
pub fn round(rng: &mut Rng) -> MapSet {
    let set = gen::map_set(rng);
    match set.header.longitudes.goes_round() || rng.once_in(3) {
        true => set,
        false => gen::map_set(rng),
    }
}

/// A question, mostly a good one, and mostly about a kind that has a map.
pub fn question(rng: &mut Rng, set: &MapSet) -> Question {
    let question = damage::question(rng, set);
    if rng.once_in(3) {
        return question;
    }
    let marks = set.areas.marks.iter().fold(0, |all, mark| all | mark);
    let kinds: Vec<i64> = (0..3)
        .filter(|&kind| kind as u8 & marks == kind as u8)
        .collect();
    Question {
        kind: rng.pick(&kinds),
        method: question.method.clamp(0, 3),
        layer: rng.below(set.grid().layers) as i64,
        ..question
    }
}

/// Whether a question is answered or refused 22, so that it needs nodes.
fn has_nodes(set: &MapSet, question: &Question) -> bool {
    let (header, texts) = (&set.header, &set.texts);
    match second::ask(header, texts, &set.areas.view(), question) {
        Ok(_) => true,
        Err(refusal) => refusal.number() == 22,
    }
}

/// Some of the needed nodes without a value, for one cause or for two.
fn spoil(rng: &mut Rng, set: &mut MapSet, question: &Question) {
    if !has_nodes(set, question) {
        return;
    }
    let needed = oracle::needed(set, question);
    // Numbers alone, so that several nodes of a row differ, or for whole rows and maps too.
    let numbers = rng.once_in(2);
    for _ in 0..rng.pick(&[1, 2, 2]) {
        let Needed {
            map, row, column, ..
        } = needed[rng.below(needed.len())];
        let (kind, grid) = (question.kind as usize, set.grid());
        let block = map * grid.blocks() + question.layer as usize * grid.rows + row;
        let areas = &mut set.areas;
        if !numbers && rng.once_in(2) {
            let exponents = &mut areas.exponents[kind * grid.maps * grid.blocks()..];
            exponents[block] = rng.pick(&[1, 2, -4, i32::MIN, i32::MAX]);
        }
        let values = [&mut areas.tec, &mut areas.rms, &mut areas.height];
        // A kind with no map may have no area.
        let place = block * grid.columns + column;
        let value = values.into_iter().nth(kind).and_then(|v| v.get_mut(place));
        if let (Some(value), true) = (value, numbers || rng.once_in(2)) {
            *value = rng.pick(&[9999, 9999, 100_000, -10_000, i32::MIN, i32::MAX]);
        }
        if !numbers && rng.once_in(4) {
            areas.marks[map] &= !(kind as u8);
        }
    }
}

// ---- comparing ----

/// What a library leaves of nodes and lacking.
type Left = (u64, Vec<i64>, Vec<u64>);

fn perform(library: &dyn Explains, call: &Call) -> Left {
    let (mut nodes, mut lacking) = (call.nodes.clone(), call.lacking.clone());
    let answer = library.explain(&call.given, &call.asked, &mut nodes, &mut lacking);
    (answer, nodes, lacking)
}

/// What the first leaves, and the first thing in which the second's differs.
fn compare_call(a: &dyn Explains, b: &dyn Explains, call: &Call) -> (Left, Option<String>) {
    let (left, right) = (perform(a, call), perform(b, call));
    let found = run::first([
        run::answers(left.0, right.0),
        run::part("nodes", &left.1, &right.1),
        run::part("lacking", &left.2, &right.2),
    ]);
    (left, found)
}

/// How often each answer, and each thing that is told, must have occurred.
fn expected_often() -> Vec<String> {
    let mut rows = tally::answered("explain", &[0, 20, 21, 22, 23, 24, 31, 101, 102, 103]);
    rows.extend((0..4).map(|method| format!("explained by method {method}")));
    rows.extend([1, 2, 4, 8].map(|count| format!("{count} nodes")));
    rows.extend((1..5).map(|cause| format!("no value by cause {cause}")));
    rows.push("explained in the strip".to_string());
    rows
}

/// Under which of these a call is counted.
fn counted(call: &Call, (answer, nodes, lacking): &Left) -> Vec<String> {
    let mut rows = tally::answered("explain", &[*answer]);
    match answer {
        0 => {
            rows.push(format!("explained by method {}", call.asked.method));
            rows.push(format!("{} nodes", nodes[COUNT]));
            let set = set_of(&call.given);
            if set.is_some_and(|set| set.in_strip(call.asked.lon.into())) {
                rows.push("explained in the strip".to_string());
            }
        }
        22 => rows.push(format!("no value by cause {}", lacking[LACKING - 1])),
        _ => {}
    }
    rows
}

/// The set that is given, where its header is one.
fn set_of(given: &Given) -> Option<MapSet> {
    Some(MapSet {
        header: boundary::header_of(&given.header)?,
        texts: boundary::texts_of(&given.texts),
        areas: given.areas.clone(),
    })
}

/// Every question of the seeds, by the second program and by another, and what the other lists judged.
pub fn compare<L: Explains + Boundary>(other: &L, count: u64, seed: u64) -> Tally {
    Comparison::over(count, seed, expected_often(), |comparison, seed| {
        for call in calls(seed) {
            let (left, found) = compare_call(&Plain, other, &call);
            for row in counted(&call, &left) {
                comparison.count(row, 1);
            }
            comparison.judge(seed, found, || {
                tally::leave_words(&format!("{seed}-explain.txt"), &call)
            });
        }
        comparison.judge(seed, judge(other, seed), || ());
    })
}

// ---- what is told, by another way ----

/// What is wrong with what a library tells of the questions of a seed, if anything is.
fn judge<L: Explains + Boundary>(library: &L, seed: u64) -> Option<String> {
    let rng = &mut Rng::new(seed ^ 0x0000_0b0e);
    let wrong = |(set, question): (MapSet, Question)| {
        let (given, asked) = (boundary::given(&set), boundary::asked(&question));
        let (mut nodes, mut lacking) = ([7; EXPLAINED], [7; LACKING]);
        let number = library.explain(&given, &asked, &mut nodes, &mut lacking);
        let mut value = [0];
        let answer = library.ask(&given, &asked, &mut value);
        let complaint = match number {
            _ if number != answer => Some(format!("{number}, but asking answers {answer}")),
            0 if lacking != [7; LACKING] => Some("a node without a value beside nodes".to_string()),
            0 => wrong_nodes(&set, &question, value[0], &nodes),
            _ if nodes != [7; EXPLAINED] => Some("nodes beside a refusal".to_string()),
            22 => wrong_lacking(&set, &question, &lacking),
            _ => (lacking != [7; LACKING]).then(|| format!("a node beside {number}")),
        };
        complaint.map(|complaint| format!("{question:?}: {complaint}"))
    };
    questions(rng).into_iter().find_map(wrong)
}

/// "the weights are positive and add to the denominator, the nodes are exactly the needed ones, and their weighted sum,
/// rounded as 01 says, is the answer"
fn wrong_nodes(
    set: &MapSet,
    question: &Question,
    answer: i32,
    nodes: &[i64; EXPLAINED],
) -> Option<String> {
    let needed = oracle::needed(set, question);
    let all: i128 = needed.iter().map(|node| node.shares).sum();
    let whole = denominator(set, question);
    let mut expected = vec![needed.len() as i64, whole as i64, i64::from(answer)];
    for node in &needed {
        let weight = node.shares * whole / all;
        if weight * all != node.shares * whole {
            return Some("a weight that is no whole number".to_string());
        }
        let place = [node.map + 1, question.layer as usize, node.row, node.column];
        expected.extend(place.map(|number| number as i64));
        expected.extend([node.value.unwrap_or(i128::MIN) as i64, weight as i64]);
    }
    expected.resize(EXPLAINED, 0);
    if nodes[..] != expected {
        return Some(run::place("not the nodes", nodes, &expected));
    }
    let told = || nodes[NODE..].chunks(SIZE).take(needed.len());
    let weights: i64 = told().map(|node| node[5]).sum();
    let sum: i128 = told().map(|n| i128::from(n[4]) * i128::from(n[5])).sum();
    let (rounded, whole) = (i128::from(answer), i128::from(nodes[DENOMINATOR]));
    let off = 2 * (rounded * whole - sum).abs();
    let near = off < whole || (off == whole && rounded.abs() * whole > sum.abs());
    if !near || i128::from(weights) != whole || told().any(|node| node[5] <= 0) {
        return Some("weights that do not make the answer".to_string());
    }
    None
}

/// By 02's words: tenths of the header are ten hundredths, and 120 of 1,200.
fn denominator(set: &MapSet, question: &Question) -> i128 {
    let step = |axis: second::Axis| i128::from(axis.step.abs());
    let of_degree = [10, 10, 120, 120][question.method as usize];
    let space = step(set.header.latitudes) * 10 * step(set.header.longitudes) * of_degree;
    let epochs = &set.areas.epochs[..set.grid().maps];
    let around = |pair: &&[u64]| (pair[0]..pair[1]).contains(&question.second);
    match (question.method, epochs.windows(2).find(around)) {
        (1 | 2, Some(pair)) => space * i128::from(pair[1] - pair[0]),
        _ => space,
    }
}

fn wrong_lacking(set: &MapSet, question: &Question, lacking: &[u64; LACKING]) -> Option<String> {
    let needed = oracle::needed(set, question);
    let first = needed.iter().find(|node| node.value.is_err());
    let Some(Needed {
        map,
        row,
        column,
        value: Err(cause),
        ..
    }) = first
    else {
        return Some("every needed node has a value".to_string());
    };
    let [map, layer, row, column] =
        [map + 1, question.layer as usize, *row, *column].map(|place| place as u64);
    let expected = [map, layer, row, column, *cause];
    run::part("not the first", lacking, &expected)
}
