//! Weeks in figures at the C boundary: up to 101 map sets one after the other, wrong ones among them, and weeks that no
//! sets can have made. After each set everything lent is compared; a library's report is judged by figures that are
//! worked out another way, for the files in order and shuffled.

use crate::archive::Archive;
use crate::boundary::{self, Given, Plain, HEADER, TEXTS};
use crate::calls;
use crate::damage;
use crate::gen::{self, edged};
use crate::rng::Rng;
use crate::run;
use crate::set::MapSet;
use crate::tally::{self, Comparison, Tally};
use second::week::{self, Figures, Week, ROW};
use second::Refusal;

/// How many numbers a week is: its sets, then a row for each kind.
pub const WEEK: usize = 1 + 3 * ROW;

/// Where the row of a kind stands in a week.
const KINDS: [usize; 3] = [1, 1 + ROW, 1 + 2 * ROW];

/// The most nodes of a set and thousandths of a node.
const NODES: i64 = 2_000_000;
const LARGEST: i64 = 99_999_000;

pub trait Weeks {
    /// Adds a map set to a week. 0, 11, 31, 60, or 101 to 103.
    fn week_add(&self, week: &mut [i64], given: &Given, rows: &mut [i64], place: &mut [u64])
        -> u64;
}

// ---- the second program at the boundary ----

fn figures_of(row: &[i64]) -> Figures {
    let [with, without, smallest, largest, sum] = [0, 1, 2, 3, 4].map(|k| i128::from(row[k]));
    // "no smallest or largest": 0 and 0; others beside a count of 0 are a range that may not be there.
    let none = [with, smallest, largest] == [0; 3];
    Figures {
        with,
        without,
        range: (!none).then_some((smallest, largest)),
        sum,
    }
}

fn week_of(numbers: &[i64]) -> Week {
    Week {
        sets: i128::from(numbers[0]),
        kinds: KINDS.map(|at| figures_of(&numbers[at..at + ROW])),
    }
}

fn numbers_of(week: &Week) -> Vec<i64> {
    let rows = week.kinds.iter().flat_map(Figures::row);
    let numbers = std::iter::once(week.sets).chain(rows);
    numbers
        .map(|number| i64::try_from(number).expect("a number of 64 bits"))
        .collect()
}

/// A node's thousandths have 32 bits, so a smallest or largest of more is no week's.
fn is_narrow(numbers: &[i64]) -> bool {
    let ends = KINDS.iter().flat_map(|at| &numbers[at + 2..at + 4]);
    ends.copied().all(|end| i32::try_from(end).is_ok())
}

impl Weeks for Plain {
    fn week_add(
        &self,
        week: &mut [i64],
        given: &Given,
        rows: &mut [i64],
        place: &mut [u64],
    ) -> u64 {
        plain(week, given, rows, place).err().unwrap_or(0)
    }
}

fn plain(week: &mut [i64], given: &Given, rows: &mut [i64], place: &mut [u64]) -> Result<(), u64> {
    let short = [
        (given.header.len() < HEADER, 101),
        (given.texts.len() < TEXTS, 102),
        (week.len() < WEEK || place.len() < 2, 103),
    ];
    if let Some(&(_, number)) = short.iter().find(|(short, _)| *short) {
        return Err(number);
    }
    let mut found = week_of(week);
    if found.sets < week::SETS && !is_narrow(&week[..WEEK]) {
        return Err(31);
    }
    let header = boundary::header_of(&given.header).unwrap_or_default();
    let texts = boundary::texts_of(&given.texts);
    match week::add(&mut found, &header, &texts, &given.areas.view(), rows) {
        Ok(()) => {
            week[..WEEK].copy_from_slice(&numbers_of(&found));
            Ok(())
        }
        Err(refusal) => {
            if let Refusal::Area { area, need } = refusal {
                place[..2].copy_from_slice(&[u64::from(area), need]);
            }
            Err(u64::from(refusal.number()))
        }
    }
}

// ---- weeks of a seed ----

/// A set to be added, and what is lent beside the week.
#[derive(Clone, Debug, PartialEq, Eq)]
struct Adding {
    given: Given,
    rows: Vec<i64>,
    place: Vec<u64>,
    /// The week in the place of the one so far.
    instead: Option<Vec<i64>>,
}

/// A week as it begins, and the sets that come.
struct Coming {
    week: Vec<i64>,
    sets: Vec<Adding>,
}

fn coming(seed: u64) -> Coming {
    let rng = &mut Rng::new(seed ^ 0x0000_feed);
    let pool: Vec<MapSet> = (0..4).map(|_| gen::map_set(rng)).collect();
    let long = rng.once_in(20);
    let week = match rng.below(3) {
        0 if !long => any_week(rng),
        _ => vec![0; WEEK],
    };
    let count = if long { 110 } else { rng.range(1, 8) };
    let sets = (0..count)
        .map(|_| {
            let set = &pool[rng.below(pool.len())];
            adding(rng, set, if long { 20 } else { 5 })
        })
        .collect();
    Coming { week, sets }
}

/// A set, something wrong about it once in so many times.
fn adding(rng: &mut Rng, set: &MapSet, rate: usize) -> Adding {
    let mut set = set.clone();
    if rng.once_in(rate) {
        damage::map_set(rng, &mut set);
    }
    let need = 3 * ROW * (set.header.maps.clamp(0, 300) as usize + 1);
    let length = match rng.below(2 * rate) {
        0 => need - 1,
        1 => rng.below(need),
        _ => need + rng.pick(&[0, 1, 20]),
    };
    Adding {
        given: match rng.once_in(rate) {
            true => calls::given(rng, &set),
            false => boundary::given(&set),
        },
        rows: (0..length).map(|_| rng.word() as i64).collect(),
        place: match rng.once_in(rate) {
            true => calls::words(rng, 2),
            false => vec![rng.word(), 7],
        },
        instead: rng.once_in(rate).then(|| wrong_week(rng)),
    }
}

/// A week that sets can have made, up to the edges.
fn any_week(rng: &mut Rng) -> Vec<i64> {
    let sets = rng.pick(&[0, 1, 2, 50, 97, 98, 99, 99]);
    let mut week = vec![sets];
    for _ in KINDS {
        let nodes = edged(rng, 0, sets * NODES);
        let with = edged(rng, 0, nodes);
        let mut ends = [0; 2];
        if with > 0 {
            ends = [0; 2].map(|_| edged(rng, -LARGEST, LARGEST));
            ends.sort_unstable();
        }
        let sum = edged(rng, -with * LARGEST, with * LARGEST);
        week.extend([with, nodes - with, ends[0], ends[1], sum]);
    }
    week
}

/// One with a number changed, mostly so that no sets can have made it; or too short, or longer.
fn wrong_week(rng: &mut Rng) -> Vec<i64> {
    let mut week = any_week(rng);
    let wide = rng.pick(&[i64::MIN, i64::MAX, -1, 1 << 32, -(1 << 32)]);
    let one = rng.pick(&[0, 1, 1]);
    let sets = week[0];
    let at = rng.pick(&KINDS);
    let row = &mut week[at..at + ROW];
    match rng.below(12) {
        0 => row[rng.below(2)] = wide,
        1 => row[1] = sets * NODES - row[0] + one,
        2 => row[4] = row[0] * LARGEST + one,
        3 => row[4] = -row[0] * LARGEST - one,
        4 => row[3] = row[2] - one,
        5 => (row[0], row[4]) = (0, 0),
        6 => (row[2], row[3]) = (0, one),
        7 => row[2] = i64::from(i32::MIN) - one,
        8 => row[3] = i64::from(i32::MAX) + one,
        9 => row[rng.below(ROW)] = rng.word() as i64,
        10 => week[0] = rng.pick(&[100, 100, 101, -1, i64::MIN, i64::MAX, sets - 1]),
        _ => week.resize_with(calls::length(rng, WEEK), || rng.word() as i64),
    }
    week
}

// ---- comparing ----

/// What a library leaves of a week, the rows and the place.
type Left = (u64, Vec<i64>, Vec<i64>, Vec<u64>);

fn perform(library: &dyn Weeks, week: &[i64], adding: &Adding) -> Left {
    let (mut week, mut rows) = (week.to_vec(), adding.rows.clone());
    let mut place = adding.place.clone();
    let answer = library.week_add(&mut week, &adding.given, &mut rows, &mut place);
    (answer, week, rows, place)
}

fn difference(a: &Left, b: &Left) -> Option<String> {
    run::first([
        run::answers(a.0, b.0),
        run::part("week", &a.1, &b.1),
        run::part("rows", &a.2, &b.2),
        run::part("place", &a.3, &b.3),
    ])
}

/// The sets of a seed added by two, and of each set the answer and the difference.
fn over(a: &dyn Weeks, b: &dyn Weeks, seed: u64, mut each: impl FnMut(u64, Option<String>)) {
    let Coming { mut week, sets } = coming(seed);
    for adding in &sets {
        let so_far = adding.instead.as_ref().unwrap_or(&week);
        let left = perform(a, so_far, adding);
        let found = difference(&left, &perform(b, so_far, adding));
        if left.0 == 0 && adding.instead.is_none() {
            week = left.1;
        }
        each(left.0, found);
    }
}

/// Every week of the seeds, by the second program and by another, and the other's reports judged.
pub fn compare(other: &dyn Weeks, count: u64, seed: u64) -> Tally {
    let expected = tally::answered("week_add", &[0, 11, 31, 60, 101, 102, 103]);
    Comparison::over(count, seed, expected, |comparison, seed| {
        let leave = || tally::leave_words(&format!("{seed}-week.txt"), &coming(seed).sets);
        over(&Plain, other, seed, |answer, found| {
            comparison.count(format!("week_add answered {answer}"), 1);
            comparison.judge(seed, found, leave);
        });
        comparison.judge(seed, judge(other, seed), leave);
    })
}

// ---- a report, by another way ----

/// What a report must tell of these values, of so many nodes.
fn row_of(mut values: Vec<i64>, nodes: usize) -> [i64; ROW] {
    values.sort_unstable();
    let ends = [values.first(), values.last()].map(|end| end.copied().unwrap_or(0));
    let without = nodes - values.len();
    let sum = values.iter().sum();
    [values.len() as i64, without as i64, ends[0], ends[1], sum]
}

/// The values of a valid set's kind, map by map.
fn values_of(set: &MapSet, kind: usize) -> Vec<Vec<i64>> {
    let grid = set.grid();
    let areas = &set.areas;
    let mut maps = vec![Vec::new(); grid.maps];
    let numbers = [&areas.tec, &areas.rms, &areas.height][kind];
    for (at, &number) in numbers.iter().enumerate().take(set.needs()[kind]) {
        let exponent = areas.exponents[kind * grid.maps * grid.blocks() + at / grid.columns];
        let power = [1, 10, 100, 1000][(exponent + 3) as usize];
        // An absent map of a valid set holds nothing but 9999.
        if number != 9999 {
            maps[at / grid.values()].push(i64::from(number) * power);
        }
    }
    maps
}

/// The rows of a valid set.
fn rows_of(set: &MapSet) -> Vec<i64> {
    let grid = set.grid();
    let mut rows = Vec::new();
    for kind in 0..3 {
        let maps = values_of(set, kind);
        let all = maps.concat();
        rows.extend(maps.into_iter().flat_map(|map| row_of(map, grid.values())));
        rows.extend(row_of(all, grid.maps * grid.values()));
    }
    rows
}

/// The week of valid sets.
fn total(sets: &[&MapSet]) -> Vec<i64> {
    let mut week = vec![sets.len() as i64];
    for kind in 0..3 {
        let values: Vec<i64> = sets
            .iter()
            .flat_map(|set| values_of(set, kind).concat())
            .collect();
        let nodes = sets.iter().map(|set| set.needs()[0]).sum();
        week.extend(row_of(values, nodes));
    }
    week
}

/// Reports over files, of which some are no map sets: each set's rows, the week, and the same week in another order.
fn judge(library: &dyn Weeks, seed: u64) -> Option<String> {
    let rng = &mut Rng::new(seed ^ 0x0000_face);
    let count = match rng.below(40) {
        0 => rng.range(98, 101),
        _ => rng.range(1, 6),
    };
    let pool: Vec<MapSet> = (0..3).map(|_| gen::map_set(rng)).collect();
    let mut files: Vec<(MapSet, bool)> = (0..count)
        .map(|k| (pool[k as usize % pool.len()].clone(), true))
        .collect();
    for _ in 0..rng.below(4) {
        let mut set = pool[0].clone();
        if damage::map_set(rng, &mut set) {
            files.insert(rng.below(files.len() + 1), (set, false));
        }
    }
    let week = match report(library, &files) {
        Ok(week) => week,
        Err(complaint) => return Some(complaint),
    };
    if count > 100 {
        return None;
    }
    rng.shuffle(&mut files);
    match report(library, &files) {
        Ok(again) if again == week => None,
        Ok(_) => Some("the order of the files shows in the week".to_string()),
        Err(complaint) => Some(complaint),
    }
}

fn report(library: &dyn Weeks, files: &[(MapSet, bool)]) -> Result<Vec<i64>, String> {
    let mut week = vec![0; WEEK];
    let mut taken = Vec::new();
    for (set, valid) in files {
        let mut rows = vec![7; 3 * ROW * 302];
        let mut place = [7; 2];
        let answer = library.week_add(&mut week, &boundary::given(set), &mut rows, &mut place);
        let expected = match (taken.len(), valid) {
            (100.., _) => 60,
            (_, false) => 31,
            (_, true) => 0,
        };
        if answer != expected {
            return Err(format!("a report: {answer} for {expected}"));
        }
        let told = match answer {
            0 => {
                taken.push(set);
                rows_of(set)
            }
            _ => Vec::new(),
        };
        let kept = rows[told.len()..].iter().all(|&number| number == 7);
        if rows[..told.len()] != told || !kept {
            return Err("not the rows of the set".to_string());
        }
    }
    if week != total(&taken) {
        return Err("not the figures of all sets".to_string());
    }
    Ok(week)
}

// ---- planted faults ----

listed! {
    /// One thing wrong with the week.
    pub enum Fault {
        /// 9999 counted as a value.
        NoValueCounted,
        AbsentMapLeftOut,
        /// The smallest of a map without values is 0, and so counts for its kind.
        SmallestOfNoneZero,
        ExponentLeftOut,
        KindsMixed,
        HundredthRefused,
        HundredAndFirstTaken,
        RefusedCounted,
        /// A condition on the week not looked at: counts, sum, range, its order, its width.
        Trusted(usize) in (0..5).map(Fault::Trusted),
        RowsWhenRefused,
        RowsTail,
        /// The kind's row is that of its last map.
        KindRow,
        Need,
        Area,
        /// 31 told before 60, 11 before 31, 103 before 101.
        InvalidFirst,
        ShortFirst,
        OwnOrder,
        WeekTail,
        PlaceTail,
        PlaceWhenDone,
    }
}

/// The seed and the difference at which the comparison with the library finds a fault, within `count` seeds.
pub fn find(fault: Fault, count: u64, seed: u64) -> Option<(u64, String)> {
    tally::first(count, seed, |seed| {
        let mut found = None;
        over(&Archive, &Faulty(fault), seed, |_, difference| {
            found = found.take().or(difference);
        });
        found
    })
}

/// The second program with one thing wrong.
struct Faulty(Fault);

impl Weeks for Faulty {
    fn week_add(
        &self,
        week: &mut [i64],
        given: &Given,
        rows: &mut [i64],
        place: &mut [u64],
    ) -> u64 {
        let before = week.to_vec();
        let mut given = given.clone();
        match self.0 {
            Fault::NoValueCounted => count_no_value(&mut given),
            Fault::ExponentLeftOut => given.areas.exponents.iter_mut().for_each(|e| *e = -3),
            Fault::HundredthRefused if week.first() == Some(&99) => return 60,
            Fault::HundredAndFirstTaken if week.first() == Some(&100) => week[0] = 99,
            Fault::OwnOrder if place.len() < 2 => return 103,
            Fault::InvalidFirst if is_invalid(&given) => return 31,
            Fault::ShortFirst if is_invalid(&given) && place.len() >= 2 => {
                let need = 3 * ROW as u64 * (given.header[6].clamp(0, 300) as u64 + 1);
                if (rows.len() as u64) < need {
                    place[..2].copy_from_slice(&[1, need]);
                    return 11;
                }
            }
            _ => {}
        }
        let taken = self.0 == Fault::HundredAndFirstTaken && before.first() == Some(&100);
        let answer = match Plain.week_add(week, &given, rows, place) {
            31 => self.trusting(week, &given, rows, place),
            answer => answer,
        };
        match answer {
            0 => self.added(&given, &before, week, rows, place),
            _ => self.refused(answer, week, rows, place),
        }
        if taken && answer == 0 {
            week[0] = 101;
        } else if taken {
            week[0] = 100;
        }
        answer
    }
}

/// 9999 of maps that are there made a value.
fn count_no_value(given: &mut Given) {
    let values = [&mut given.areas.tec, &mut given.areas.rms];
    for number in values.into_iter().flatten() {
        if *number == 9999 {
            *number = 9998;
        }
    }
}

fn is_invalid(given: &Given) -> bool {
    let mut week = [0; WEEK];
    Plain.week_add(&mut week, given, &mut [], &mut [0; 2]) == 31
}

/// Which conditions the kinds of a week break.
fn broken(week: &[i64]) -> [bool; 5] {
    let sets = i128::from(week[0]);
    let mut broken = [false; 5];
    for kind in week_of(week).kinds {
        let [with, without, smallest, largest, sum] = kind.row();
        broken[0] |= with < 0 || without < 0 || with + without > sets * i128::from(NODES);
        broken[1] |= sum.abs() > with * i128::from(LARGEST);
        broken[2] |= kind.range.is_some() != (with != 0);
        broken[3] |= smallest > largest;
        broken[4] |= [smallest, largest]
            .iter()
            .any(|&v| i32::try_from(v).is_err());
    }
    broken
}

impl Faulty {
    /// What is told in the place of 31 where only the condition that is not looked at is broken.
    fn trusting(
        &self,
        week: &mut [i64],
        given: &Given,
        rows: &mut [i64],
        place: &mut [u64],
    ) -> u64 {
        let Fault::Trusted(condition) = self.0 else {
            return 31;
        };
        let mut only = [false; 5];
        only[condition] = true;
        if broken(week) != only {
            return 31;
        }
        Plain.week_add(&mut [0; WEEK], given, rows, place)
    }

    fn added(
        &self,
        given: &Given,
        before: &[i64],
        week: &mut [i64],
        rows: &mut [i64],
        place: &mut [u64],
    ) {
        let maps = given.header[6] as usize;
        let kind_rows = [0, 1, 2].map(|kind| (kind * (maps + 1) + maps) * ROW);
        match self.0 {
            Fault::AbsentMapLeftOut => {
                for kind in 0..3 {
                    let first = kind * (maps + 1) * ROW;
                    for at in (first..kind_rows[kind]).step_by(ROW) {
                        if rows[at] == 0 {
                            let without = std::mem::take(&mut rows[at + 1]);
                            rows[kind_rows[kind] + 1] -= without;
                            week[KINDS[kind] + 1] -= without;
                        }
                    }
                }
            }
            Fault::SmallestOfNoneZero => {
                for kind in 0..3 {
                    let first = kind * (maps + 1) * ROW;
                    let mut all = (first..kind_rows[kind]).step_by(ROW);
                    if all.any(|at| rows[at] == 0) {
                        week[KINDS[kind] + 2] = week[KINDS[kind] + 2].min(0);
                    }
                }
            }
            Fault::KindsMixed => {
                let rms = rows[kind_rows[1]];
                week[KINDS[2]] = before[KINDS[2]] + rms;
            }
            Fault::KindRow => {
                let last = kind_rows[0] - ROW;
                rows.copy_within(last..last + ROW, kind_rows[0]);
            }
            Fault::RowsTail => flip(rows, kind_rows[2] + ROW),
            Fault::WeekTail => flip(week, WEEK),
            Fault::PlaceWhenDone => place[0] ^= 1,
            Fault::PlaceTail => place.iter_mut().skip(2).for_each(|word| *word ^= 1),
            _ => {}
        }
    }

    fn refused(&self, answer: u64, week: &mut [i64], rows: &mut [i64], place: &mut [u64]) {
        match (self.0, answer) {
            (Fault::RefusedCounted, 31) => week[0] = week[0].wrapping_add(1),
            (Fault::RowsWhenRefused, _) => flip(rows, 0),
            (Fault::Need, 11) => place[1] += 1,
            (Fault::Area, 11) => place[0] += 1,
            _ => {}
        }
    }
}

fn flip(area: &mut [i64], at: usize) {
    if let Some(number) = area.get_mut(at) {
        *number ^= 1;
    }
}

#[cfg(test)]
mod tests {
    use super::*;

    /// The figures worked out here find what is wrong without a comparison.
    #[test]
    fn reports_show_faults() {
        let faults = [
            Fault::NoValueCounted,
            Fault::AbsentMapLeftOut,
            Fault::SmallestOfNoneZero,
            Fault::ExponentLeftOut,
            Fault::KindsMixed,
            Fault::HundredthRefused,
            Fault::HundredAndFirstTaken,
            Fault::RefusedCounted,
            Fault::KindRow,
            Fault::RowsTail,
            Fault::RowsWhenRefused,
        ];
        for fault in faults {
            let found = (1..1000).find_map(|seed| judge(&Faulty(fault), seed));
            assert!(found.is_some(), "{fault:?}");
        }
        assert_eq!((1..200).find_map(|seed| judge(&Plain, seed)), None);
    }
}
