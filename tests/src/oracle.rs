//! What an answer to a question must fulfil, by another way than the second
//! program's: weights as hat functions over all nodes in whole units of 1/1200 of
//! a degree, and the rounding tested rather than done.

use crate::set::MapSet;
use second::{Answer, Axis, Question, Refusal};

/// Longitudes are in 1/1200 of a degree: so many in a tenth, a hundredth, the way of the Sun in a second, and a turn.
const TENTH: i128 = 120;
const HUNDREDTH: i128 = 12;
const SECOND: i128 = 5;
const TURN: i128 = 432_000;

/// Says what is wrong with the answer about a valid set, if anything is.
pub fn wrong(
    set: &MapSet,
    question: &Question,
    answer: &Result<Answer, Refusal>,
) -> Option<String> {
    let expected = expect(set, question);
    let right = match (&expected, answer) {
        (Err(number), Err(refusal)) => refusal.number() == *number,
        (Ok(value), Ok(Answer::ThousandthsOfTecu(found))) => {
            question.kind != 2 && value.rounds(*found)
        }
        (Ok(value), Ok(Answer::ThousandthsOfKilometre(found))) => {
            question.kind == 2 && value.rounds(*found)
        }
        _ => false,
    };
    (!right).then(|| format!("{question:?}: {answer:?}, but {expected:?}"))
}

/// A value that is not rounded, and the smallest and largest node that it needs.
#[derive(Clone, Copy, Debug)]
pub struct Value {
    pub sum: i128,
    pub all: i128,
    low: i128,
    high: i128,
}

impl Value {
    fn new(all: i128) -> Value {
        Value {
            sum: 0,
            all,
            low: i128::MAX,
            high: i128::MIN,
        }
    }

    /// Nearest, halves away from zero, and between the smallest and largest node.
    fn rounds(&self, value: i64) -> bool {
        let value = i128::from(value);
        let off = 2 * (value * self.all - self.sum).abs();
        let near = off < self.all || (off == self.all && value.abs() * self.all > self.sum.abs());
        near && (self.low..=self.high).contains(&value)
    }

    fn add(&mut self, part: &Value, shares: i128) {
        self.sum += shares * part.sum;
        self.low = self.low.min(part.low);
        self.high = self.high.max(part.high);
    }
}

fn expect(set: &MapSet, question: &Question) -> Result<Value, u8> {
    // Before anything of the set is looked at: it may be no map set.
    if !(0..3).contains(&question.kind) || !(0..4).contains(&question.method) {
        return Err(23);
    }
    if question.method > 1 && !turns(set) {
        return Err(24);
    }
    answer(set, question, &longitude_at)
}

/// As many columns as a turn has steps, or one more; at most 5 degrees and two hours between neighbours.
fn turns(set: &MapSet) -> bool {
    let epochs = &set.areas.epochs[..set.grid().maps];
    let neighbours = epochs.iter().zip(&epochs[1..]);
    (strip(set) || closed(set))
        && set.header.longitudes.step * 10 <= 500
        && neighbours.into_iter().all(|(a, b)| a + 2 * 3600 >= *b)
}

/// Between the last column and the first there is one step too.
fn strip(set: &MapSet) -> bool {
    set.grid().columns as i64 * set.header.longitudes.step == 3600
}

fn closed(set: &MapSet) -> bool {
    (set.grid().columns as i64 - 1) * set.header.longitudes.step == 3600
}

/// Where a map is asked, by its epoch.
pub fn longitude_at(question: &Question, epoch: u64) -> i128 {
    let asked = HUNDREDTH * i128::from(question.longitude);
    match question.method {
        0 | 1 => asked,
        _ => asked + SECOND * (i128::from(question.second) - i128::from(epoch)),
    }
}

/// The answer from refusal 20 on, each map asked where `longitude` says.
pub fn answer(
    set: &MapSet,
    question: &Question,
    longitude: &dyn Fn(&Question, u64) -> i128,
) -> Result<Value, u8> {
    let grid = set.grid();
    let epochs = &set.areas.epochs[..grid.maps];
    let time = question.second;
    if epochs.iter().all(|&t| time < t) || epochs.iter().all(|&t| time > t) {
        return Err(20);
    }
    let maps = maps(epochs, question);
    let values: Vec<(Result<Value, u8>, i128)> = maps
        .iter()
        .map(|&(map, shares)| {
            let at = longitude(question, epochs[map]);
            (of_map(set, question, map, at), shares)
        })
        .collect();
    // 21 before 22, in whichever map.
    let first = values.iter().filter_map(|(value, _)| value.err()).min();
    if let Some(number) = first {
        return Err(number);
    }
    let all: i128 = maps.iter().map(|(_, shares)| shares).sum();
    let width = of_map_shares(set);
    let mut value = Value::new(all * width);
    for (part, shares) in &values {
        value.add(part.as_ref().expect("a value"), *shares);
    }
    Ok(value)
}

/// The maps that are needed, with their shares.
pub fn maps(epochs: &[u64], question: &Question) -> Vec<(usize, i128)> {
    let time = question.second;
    match question.method {
        0 | 3 => vec![(nearest(epochs, time), 1)],
        _ => in_time(epochs, time),
    }
}

/// The value of one map, asked at a longitude.
pub fn of_map(set: &MapSet, question: &Question, map: usize, at: i128) -> Result<Value, u8> {
    let [rows, columns] = lines(set, question, at)?;
    let mut value = Value::new(of_map_shares(set));
    for &(row, b) in &rows {
        for &(column, c) in &columns {
            let node = node(set, question, map, row, column).map_err(|_| 22)?;
            let node = Value {
                sum: node,
                all: 1,
                low: node,
                high: node,
            };
            value.add(&node, b * c);
        }
    }
    Ok(value)
}

/// Grid lines by their number, with their shares.
type Lines = Vec<(usize, i128)>;

/// The rows and the columns with a weight where a map is asked at a longitude.
fn lines(set: &MapSet, question: &Question, at: i128) -> Result<[Lines; 2], u8> {
    let header = &set.header;
    let grid = set.grid();
    let latitude = i128::from(question.latitude);
    let lat_ends = [header.latitudes.first * 10, header.latitudes.last * 10];
    let mut longitude = at % TURN;
    while longitude < i128::from(header.longitudes.first) * TENTH {
        longitude += TURN;
    }
    while longitude >= i128::from(header.longitudes.first) * TENTH + TURN {
        longitude -= TURN;
    }
    let inside = (0..grid.layers as i64).contains(&question.layer)
        && latitude >= i128::from(lat_ends[0].min(lat_ends[1]))
        && latitude <= i128::from(lat_ends[0].max(lat_ends[1]))
        && (strip(set) || longitude <= i128::from(header.longitudes.last) * TENTH);
    if !inside {
        return Err(21);
    }
    let rows = hats(&header.latitudes, 10, grid.rows, |line| {
        (latitude - line).abs()
    });
    let columns = hats(&header.longitudes, TENTH, grid.columns, |line| {
        let apart = (longitude - line).abs();
        if strip(set) {
            apart.min(TURN - apart)
        } else {
            apart
        }
    });
    Ok([rows, columns])
}

/// A node that a question needs, all counted from 0: its shares of the whole, and its value in thousandths or the number of
/// the cause that it has none.
#[derive(Clone, Copy, Debug)]
pub struct Needed {
    pub map: usize,
    pub row: usize,
    pub column: usize,
    pub shares: i128,
    pub value: Result<i128, u64>,
}

/// The needed nodes of a question that is answered or refused 22, by map, row and column; none of another.
pub fn needed(set: &MapSet, question: &Question) -> Vec<Needed> {
    let epochs = &set.areas.epochs[..set.grid().maps];
    let mut all = Vec::new();
    for (map, share) in maps(epochs, question) {
        let Ok([rows, columns]) = lines(set, question, longitude_at(question, epochs[map])) else {
            return Vec::new();
        };
        for (row, b) in rows {
            // Line by line, and so by column number in the strip too.
            all.extend(columns.iter().map(|&(column, c)| Needed {
                map,
                row,
                column,
                shares: share * b * c,
                value: node(set, question, map, row, column),
            }));
        }
    }
    all
}

/// The shares of all nodes of one map together.
fn of_map_shares(set: &MapSet) -> i128 {
    let step = |axis: &Axis| i128::from(axis.step.abs());
    step(&set.header.latitudes) * 10 * step(&set.header.longitudes) * TENTH
}

/// Every grid line with a weight, as shares of the step, by how far the place is from it; `tenth` units are a tenth of a
/// degree.
fn hats(
    axis: &Axis,
    tenth: i128,
    count: usize,
    distance: impl Fn(i128) -> i128,
) -> Vec<(usize, i128)> {
    let width = i128::from(axis.step.abs()) * tenth;
    (0..count)
        .map(|k| {
            let line = i128::from(axis.first + k as i64 * axis.step) * tenth;
            (k, width - distance(line))
        })
        .filter(|&(_, shares)| shares > 0)
        .collect()
}

fn nearest(epochs: &[u64], time: u64) -> usize {
    let distance = |t: u64| (i128::from(t) - i128::from(time)).abs();
    let least = epochs.iter().map(|&t| distance(t)).min().unwrap_or(0);
    epochs
        .iter()
        .position(|&t| distance(t) == least)
        .unwrap_or(0)
}

fn in_time(epochs: &[u64], time: u64) -> Vec<(usize, i128)> {
    if let Some(map) = epochs.iter().position(|&t| t == time) {
        return vec![(map, 1)];
    }
    let after = epochs.iter().position(|&t| t > time).unwrap_or(0);
    let before = after - 1;
    let shares = |a: u64, b: u64| i128::from(a - b);
    vec![
        (before, shares(epochs[after], time)),
        (after, shares(time, epochs[before])),
    ]
}

/// A node in thousandths, or the number of the cause that it has no value: 1 its map is absent, 2 its exponent, 3 its number
/// out of range, 4 it is 9999.
fn node(
    set: &MapSet,
    question: &Question,
    map: usize,
    row: usize,
    column: usize,
) -> Result<i128, u64> {
    let grid = set.grid();
    let kind = question.kind as usize;
    if kind != 0 && set.areas.marks[map] & kind as u8 == 0 {
        return Err(1);
    }
    let values = [&set.areas.tec, &set.areas.rms, &set.areas.height][kind];
    let layer = question.layer as usize;
    let block = (map * grid.layers + layer) * grid.rows + row;
    let value = values[block * grid.columns + column];
    let exponent = set.areas.exponents[kind * grid.maps * grid.layers * grid.rows + block];
    let factor = match exponent {
        -3 => 1,
        -2 => 10,
        -1 => 100,
        0 => 1000,
        _ => return Err(2),
    };
    match value {
        9999 => Err(4),
        -9999..=99_999 => Ok(i128::from(value) * factor),
        _ => Err(3),
    }
}
