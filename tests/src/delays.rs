//! Delays: carriers to ask for, what a delay must be by another way than the second program's, and a week's log.

use crate::boundary::{self, Boundary, Given, Lent, HEADER, TEXTS};
use crate::rng::Rng;
use crate::set::{rubbish, MapSet};
use crate::tally::Tally;
use second::{Answer, Axis, Buffers, Delay, Header, Question, Refusal, Texts};

/// In hertz.
pub const L1: f64 = 1_575_420_000.0;
pub const L2: f64 = 1_227_600_000.0;
pub const L5: f64 = 1_176_450_000.0;

/// Carrier, TECU and delay as bits, so that they can be compared.
pub type Bits = [u64; 3];

pub fn bits(delay: Delay) -> Bits {
    [delay.carrier, delay.tecu, delay.metres].map(f64::to_bits)
}

/// A carrier: one that is in use, one at a limit or beside it, any in between, or any bits at all.
pub fn carrier(rng: &mut Rng) -> f64 {
    let beside = |value: f64, by: i64| f64::from_bits(value.to_bits().wrapping_add_signed(by));
    match rng.below(12) {
        0 => rng.pick(&[1.0e9, 2.0e9]),
        1 | 2 => beside(rng.pick(&[1.0e9, 2.0e9]), rng.pick(&[-1, 1])),
        3 => rng.pick(&[
            0.0,
            -0.0,
            -L1,
            f64::INFINITY,
            f64::NEG_INFINITY,
            f64::NAN,
            1e300,
        ]),
        4 => f64::from_bits(rng.word()),
        5..=7 => rng.pick(&[L1, L2, L5]),
        8 => rng.range(1_000_000_000, 2_000_000_000) as f64,
        _ => {
            let (low, high) = (1.0e9_f64.to_bits() as i64, 2.0e9_f64.to_bits() as i64);
            f64::from_bits(rng.range(low, high) as u64)
        }
    }
}

/// Thousandths of a TECU.
pub fn thousandths(rng: &mut Rng) -> i32 {
    match rng.below(8) {
        0 => rng.pick(&[0, 1, -1, 1000, i32::MIN, i32::MAX, 99_999_000]),
        1 => rng.word() as i32,
        _ => rng.range(-10_000, 400_000) as i32,
    }
}

// ---- what a delay must be: each step's exact result in whole numbers, rounded once ----

/// `size` times 2 to the `power`, exactly.
#[derive(Clone, Copy)]
struct Exact {
    size: u128,
    power: i32,
}

/// A normal number above zero.
fn exact(value: f64) -> Exact {
    let bits = value.to_bits();
    Exact {
        size: u128::from(bits & ((1 << 52) - 1) | 1 << 52),
        power: (bits >> 52) as i32 - 1075,
    }
}

/// The nearest number of 53 bits, the even one of two equally near.
fn nearest(Exact { size, power }: Exact) -> f64 {
    let drop = 128 - size.leading_zeros() as i32 - 53;
    let (kept, rest, half) = match drop {
        ..=0 => (size << -drop, 0, 1),
        _ => (size >> drop, size & ((1 << drop) - 1), 1 << (drop - 1)),
    };
    let up = rest > half || (rest == half && kept % 2 == 1);
    // A carry beyond the 53 bits makes the first number of the next power, and so it does in the bits.
    let fraction = kept as u64 + u64::from(up) - (1 << 52);
    f64::from_bits((((power + drop + 1075) as u64) << 52) + fraction)
}

fn product(a: f64, b: f64) -> f64 {
    let (a, b) = (exact(a), exact(b));
    nearest(Exact {
        size: a.size * b.size,
        power: a.power + b.power,
    })
}

fn quotient(a: f64, b: f64) -> f64 {
    let (a, b) = (exact(a), exact(b));
    let over = a.size << 70;
    // What is left over is told by the last bit, far behind the 53.
    let more = u128::from(over % b.size != 0);
    nearest(Exact {
        size: (over / b.size) | more,
        power: a.power - b.power - 70,
    })
}

/// What is wrong with a delay of so many thousandths of a TECU, if anything is.
pub fn wrong(x: i32, carrier: f64, answer: &Result<Bits, Refusal>) -> Option<String> {
    let expected = if (1.0e9..=2.0e9).contains(&carrier) {
        let size = f64::from(x.unsigned_abs());
        let (tecu, metres) = match x {
            0 => (0.0, 0.0),
            _ => {
                let tecu = quotient(size, 1000.0);
                let square = product(carrier, carrier);
                (tecu, quotient(product(tecu, 4.03e17), square))
            }
        };
        let sign = if x < 0 { -1.0 } else { 1.0 };
        Ok([carrier, sign * tecu, sign * metres].map(f64::to_bits))
    } else {
        Err(Refusal::Bare { number: 25 })
    };
    (*answer != expected).then(|| format!("{x} at {carrier}: {answer:?}, but {expected:?}"))
}

// ---- a week's log ----

/// Seconds of a day, and how many days there are.
const DAY: u64 = 86_400;
const DAYS: u64 = 7;

/// 2024-01-01 00:00:00.
const MONDAY: u64 = 3_913_056_000;

/// How many carriers of any bits are tried besides.
const CARRIERS: usize = 100_000;

/// The map set of a day: an hour between its 25 maps, every 2.5 and 5 degrees, TEC and RMS, here and there no value.
fn day(k: u64) -> MapSet {
    let first = MONDAY + k * DAY;
    let axis = |first, last, step| Axis { first, last, step };
    let header = Header {
        version: 11,
        file_type: b'I',
        code: 4,
        first_epoch: first,
        last_epoch: first + DAY,
        interval: 3600,
        maps: 25,
        cutoff: 100,
        radius: 63_710,
        dimension: 2,
        heights: axis(4500, 4500, 0),
        latitudes: axis(875, -875, -25),
        longitudes: axis(-1800, 1800, 50),
        ..Header::default()
    };
    let mut rng = Rng::new(k);
    let nodes = 25 * 71 * 73;
    let mut values = |most: i64| -> Vec<i32> {
        (0..nodes)
            .map(|_| match rng.below(5000) {
                0 => 9999,
                _ => rng.range(3, most) as i32,
            })
            .collect()
    };
    let areas = Buffers {
        tec: values(1500),
        rms: values(60),
        height: Vec::new(),
        exponents: vec![-1; 3 * 25 * 71],
        epochs: (0..25).map(|map| first + 3600 * map).collect(),
        marks: vec![1; 25],
    };
    MapSet {
        header,
        texts: Texts::default(),
        areas,
    }
}

/// The set as the library reads it from its file.
fn file(library: &dyn Boundary, set: &MapSet) -> Given {
    let text = second::write::canonical(&set.header, &set.texts, &set.areas.view());
    let mut lent = Lent {
        areas: rubbish(set.needs(), 1),
        header: vec![0; HEADER],
        texts: vec![0; TEXTS],
        place: vec![0; 2],
    };
    assert_eq!(library.read(&text, &mut lent), 0, "the day's file");
    Given {
        header: lent.header,
        texts: lent.texts,
        areas: lent.areas,
    }
}

/// The question of a second of the day: the place goes from north to south and back, and round the Earth.
fn question(first: u64, second: u64) -> Question {
    let along = (3 * second % 35_000) as i64;
    Question {
        kind: i64::from(second.is_multiple_of(7)),
        method: (second % 4) as i64,
        layer: 0,
        latitude: (along - 17_500).abs() - 8_750,
        longitude: (11 * second % 36_000) as i64 - 18_000,
        second: first + second,
    }
}

/// Differences between a library and the second program, shown and counted.
#[derive(Default)]
struct Log {
    tally: Tally,
    /// Answers, and refusals 22 and 25.
    counts: [u64; 3],
}

impl Log {
    fn note(
        &mut self,
        what: &dyn Fn() -> String,
        expected: &Result<Bits, u64>,
        found: &Result<Bits, u64>,
    ) {
        let count = match expected {
            Ok(_) => 0,
            Err(22) => 1,
            Err(_) => 2,
        };
        self.counts[count] += 1;
        let complaint = || format!("{} is {found:?}, but {expected:?}", what());
        let differ = expected != found;
        self.tally.judge("WRONG delay", differ.then(complaint));
    }
}

/// What comes back of a delay at the boundary.
fn told(call: impl FnOnce(&mut [f64]) -> u64) -> Result<Bits, u64> {
    let mut record = [-7.0; 3];
    match call(&mut record) {
        0 => Ok(record.map(f64::to_bits)),
        number => {
            assert_eq!(record, [-7.0; 3], "a refusal changed the record");
            Err(number)
        }
    }
}

fn plain(delay: Result<Delay, Refusal>) -> Result<Bits, u64> {
    delay
        .map(bits)
        .map_err(|refusal| u64::from(refusal.number()))
}

/// Every answer of a week's log, a question a second, for three carriers; then any carriers.
pub fn log(library: &dyn Boundary, seed: u64) -> Tally {
    let mut log = Log::default();
    for k in 0..DAYS {
        let set = day(k);
        let given = file(library, &set);
        log.tally.note(given == boundary::given(&set));
        for second in 0..DAY {
            log_question(&mut log, library, &set, &given, second);
        }
    }
    let mut rng = Rng::new(seed);
    for _ in 0..CARRIERS {
        let within = 1.0e9_f64.to_bits() + rng.word() % (1.0e9_f64.to_bits() - 0.5e9_f64.to_bits());
        for word in [rng.word(), within] {
            log_carrier(
                &mut log,
                library,
                thousandths(&mut rng),
                f64::from_bits(word),
            );
        }
    }
    let names = ["delays", "refused 22", "refused 25"];
    for (name, number) in names.iter().zip(log.counts) {
        println!("{number:>9}  {name}");
        log.tally.note(number >= 1000);
    }
    log.tally
}

fn log_question(log: &mut Log, library: &dyn Boundary, set: &MapSet, given: &Given, second: u64) {
    let question = question(set.header.first_epoch, second);
    let asked = boundary::asked(&question);
    let answer = second::ask(&set.header, &set.texts, &set.areas.view(), &question);
    for carrier in [L1, L2, L5] {
        let found = told(|record| library.delay(given, &asked, carrier, record));
        let expected = match answer {
            Ok(Answer::ThousandthsOfTecu(x)) => plain(second::delay(x as i32, carrier)),
            Ok(other) => panic!("{other:?} is no TEC"),
            Err(refusal) => Err(u64::from(refusal.number())),
        };
        log.note(&|| format!("{question:?} at {carrier}"), &expected, &found);
    }
}

fn log_carrier(log: &mut Log, library: &dyn Boundary, x: i32, carrier: f64) {
    let found = told(|record| library.tecu_delay(x, carrier, record));
    let expected = plain(second::delay(x, carrier));
    log.note(&|| format!("{x} at {carrier:e}"), &expected, &found);
}

#[cfg(test)]
mod tests {
    use super::*;

    /// The steps in whole numbers are those of the machine.
    #[test]
    fn steps() {
        let mut rng = Rng::new(1);
        for _ in 0..10_000 {
            let (a, b) = (carrier_within(&mut rng), carrier_within(&mut rng));
            assert_eq!(product(a, b), a * b);
            assert_eq!(quotient(a, b), a / b);
            let small = rng.range(1, 5000) as f64;
            assert_eq!(quotient(small, 1000.0), small / 1000.0);
        }
    }

    fn carrier_within(rng: &mut Rng) -> f64 {
        loop {
            let found = carrier(rng);
            if (1.0e9..=2.0e9).contains(&found) {
                return found;
            }
        }
    }
}
