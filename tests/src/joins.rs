//! Joined map sets: pairs and chains of sets to join, what a join must give by another way than the second program's
//! (whole areas laid one behind the other), and both groupings of a chain.

use crate::boundary::numbers_of;
use crate::check;
use crate::damage;
use crate::gen;
use crate::jobs;
use crate::library::Library;
use crate::rng::Rng;
use crate::run;
use crate::set::{overlaid, rubbish, MapSet};
use second::{Buffers, Header, Question, Reading, Refusal};

// ---- sets to join ----

/// Two map sets, most of which can be joined.
pub fn pair(rng: &mut Rng) -> (MapSet, MapSet) {
    let (first, maps) = if rng.once_in(6) {
        // Up to the 300th map, and beyond it.
        let first = rng.pick(&[1, 2, 149, 150, 151, 299, 300]);
        let all = rng.pick(&[299, 300, 301, 302]);
        (gen::one_node(rng, first), (all + 1 - first).clamp(1, 300))
    } else {
        (gen::map_set(rng), rng.pick(&[1, 1, 2, 3, 4]))
    };
    let mut sets = [first.clone(), gen::later(rng, &first, maps)];
    for set in &mut sets {
        if rng.once_in(4) {
            *set = jobs::with_tails(rng, set);
        }
    }
    spoil(rng, &mut sets);
    let [first, second] = sets;
    (first, second)
}

/// Three sets, or the seven of a week, most of which can be joined; of small sizes, so that chains stay short.
pub fn chain(rng: &mut Rng) -> Vec<MapSet> {
    let length = rng.pick(&[3, 3, 3, 3, 3, 3, 3, 7]);
    let first = match rng.below(30) {
        0 => {
            let maps = rng.pick(&[99, 100, 101, 150, 200]);
            gen::one_node(rng, maps)
        }
        1..=9 => gen::one_node(rng, 2),
        _ => small(rng),
    };
    let many = first.header.maps > 90;
    let mut sets = vec![first];
    for k in 1..length {
        let maps = if many {
            rng.pick(&[1, 2, 99, 100, 101, 102])
        } else {
            rng.pick(&[1, 2, 2, 3])
        };
        let next = gen::later(rng, &sets[k - 1], maps);
        sets.push(next);
    }
    spoil(rng, &mut sets);
    sets
}

/// A set of at most 100 values.
fn small(rng: &mut Rng) -> MapSet {
    loop {
        let set = gen::map_set(rng);
        if set.areas.tec.len() <= 100 {
            return set;
        }
    }
}

/// At times makes some of the sets such that they cannot be joined: another grid, other epochs, or no map set.
fn spoil(rng: &mut Rng, sets: &mut [MapSet]) {
    for _ in 0..rng.pick(&[0, 0, 0, 0, 1, 1, 2]) {
        let set = &mut sets[rng.below(sets.len())];
        if rng.once_in(2) {
            other_grid(rng, &mut set.header);
        } else {
            let by = rng.pick(&[1, 7200]);
            set.header.first_epoch += by;
            set.header.last_epoch += by;
            for epoch in &mut set.areas.epochs {
                *epoch = epoch.wrapping_add(by);
            }
        }
    }
    if rng.once_in(8) {
        let which = rng.below(sets.len());
        damage::map_set(rng, &mut sets[which]);
    }
    if rng.once_in(24) {
        let which = rng.below(sets.len());
        damage::description(rng, &mut sets[which]);
    }
}

/// One number of the grid, or of what must agree besides, changed; the header mostly stays valid.
fn other_grid(rng: &mut Rng, header: &mut Header) {
    let axis = match rng.below(4) {
        0 => {
            header.radius += rng.pick(&[-1, 1]);
            return;
        }
        1 => &mut header.heights,
        2 => &mut header.latitudes,
        _ => &mut header.longitudes,
    };
    // A step on or back; heights of one layer have none.
    let by = match axis.step {
        0 => rng.pick(&[-1, 1]),
        step => step * rng.pick(&[-1, 1]),
    };
    axis.first += by;
    axis.last += by;
}

// ---- what a join must give ----

/// What is wrong with a join, if anything is.
pub fn wrong(
    library: &dyn Library,
    sets: [&MapSet; 2],
    lent: &Buffers,
    answer: &Reading,
    areas: &Buffers,
) -> Option<String> {
    let expected = expect(library, sets, lent);
    match (&expected, answer) {
        (Err(refusal), Reading::Refused(found)) => {
            let good = refusal == found && lent == areas;
            (!good).then(|| format!("{found}, but {refusal}; or an area is changed"))
        }
        (Ok(set), Reading::Accepted { header, texts }) => {
            if *header != set.header || *texts != set.texts {
                return Some(format!("{header:?}, but {:?}; or its texts", set.header));
            }
            run::areas(areas, &overlaid(lent, &set.areas))
                .or_else(|| check::round_trip(library, set))
                .or_else(|| asked(library, sets, set))
        }
        _ => Some(format!("{answer:?}, but {expected:?}")),
    }
}

fn expect(library: &dyn Library, [a, b]: [&MapSet; 2], lent: &Buffers) -> Result<MapSet, Refusal> {
    let bare = |number| Err(Refusal::Bare { number });
    // A map set is what is written, here to no room at all.
    let valid = |set: &MapSet| matches!(library.write(set, &mut []), Err(Refusal::Output { .. }));
    if !valid(a) || !valid(b) {
        return bare(31);
    }
    let (ours, theirs) = (numbers_of(&a.header), numbers_of(&b.header));
    // Radius, dimension and the three axes.
    if ours[8..19] != theirs[8..19] {
        return bare(40);
    }
    let grid = a.grid();
    let (na, nb) = (grid.maps, b.grid().maps);
    if a.areas.epochs[na - 1] != b.areas.epochs[0] {
        return bare(41);
    }
    let maps = na + nb - 1;
    if maps > 300 || maps * grid.values() > 2_000_000 {
        return bare(42);
    }
    let mut joined = b.clone();
    joined.header.first_epoch = a.header.first_epoch;
    joined.header.maps = maps as i64;
    if ours[5] != theirs[5] {
        joined.header.interval = 0;
    }
    joined.areas = beside([a, b], [na, nb]);
    let needs = joined.areas.lengths();
    match (0..6).find(|&k| lent.lengths()[k] < needs[k]) {
        Some(area) => Err(Refusal::Area {
            area: area as u8 + 1,
            need: needs[area] as u64,
        }),
        None => Ok(joined),
    }
}

/// The areas of the first set but for its last map, and those of the second behind them.
fn beside([a, b]: [&MapSet; 2], [na, nb]: [usize; 2]) -> Buffers {
    let (size, blocks) = (a.grid().values(), a.grid().blocks());
    let kept = na - 1;
    let marks = [&a.areas.marks[..kept], &b.areas.marks[..nb]].concat();
    // The values of a kind that a set has none of.
    let full = |set: &MapSet, values: &[i32], bit: u8, maps: usize| -> Vec<i32> {
        match set.areas.marks[..maps].iter().any(|mark| mark & bit != 0) {
            true => values[..maps * size].to_vec(),
            false => vec![9999; maps * size],
        }
    };
    let values = |of: fn(&Buffers) -> &Vec<i32>, bit: u8| -> Vec<i32> {
        if marks.iter().all(|mark| mark & bit == 0) {
            return Vec::new();
        }
        let mut first = full(a, of(&a.areas), bit, na);
        first.truncate(kept * size);
        [first, full(b, of(&b.areas), bit, nb)].concat()
    };
    let thirds = (0..3).flat_map(|kind| {
        let (ours, theirs) = (kind * na * blocks, kind * nb * blocks);
        let first = &a.areas.exponents[ours..ours + kept * blocks];
        let second = &b.areas.exponents[theirs..theirs + nb * blocks];
        [first, second].concat()
    });
    Buffers {
        tec: [&a.areas.tec[..kept * size], &b.areas.tec[..nb * size]].concat(),
        rms: values(|areas| &areas.rms, 1),
        height: values(|areas| &areas.height, 2),
        exponents: thirds.collect(),
        epochs: [&a.areas.epochs[..kept], &b.areas.epochs[..nb]].concat(),
        marks,
    }
}

/// The joined set answers as the first does up to its last epoch but one, and as the second from its first on.
fn asked(library: &dyn Library, [a, b]: [&MapSet; 2], joined: &MapSet) -> Option<String> {
    let epochs = &a.areas.epochs[..a.grid().maps];
    let last = &b.header.last_epoch;
    let seconds = [
        epochs.first().map(|&second| (a, second)),
        epochs.iter().rev().nth(1).map(|&second| (a, second)),
        Some((b, b.header.first_epoch)),
        Some((b, b.header.first_epoch.midpoint(*last))),
        Some((b, *last)),
    ];
    // With one map only, the first set has no epoch but its last.
    let seconds = seconds
        .into_iter()
        .flatten()
        .skip(usize::from(epochs.len() == 1));
    seconds
        .flat_map(|asked| (0..6).map(move |k| (asked, k)))
        .find_map(|((set, second), k)| {
            let question = Question {
                kind: k % 3,
                method: k / 3,
                layer: 0,
                latitude: 10 * joined.header.latitudes.first,
                longitude: 10 * joined.header.longitudes.last - 1,
                second,
            };
            let (part, whole) = (library.ask(set, &question), library.ask(joined, &question));
            (part != whole).then(|| format!("{question:?}: {part:?} alone, {whole:?} joined"))
        })
}

// ---- chains ----

/// The sets of a chain joined from the left, and in another grouping that the seed says; of three the other one.
pub fn groupings(
    library: &dyn Library,
    sets: &[MapSet],
    seed: u64,
) -> [Result<MapSet, Refusal>; 2] {
    let folded = sets[1..]
        .iter()
        .try_fold(sets[0].clone(), |joined, set| join(library, &joined, set));
    [folded, grouped(library, sets, &mut Rng::new(seed))]
}

fn grouped(library: &dyn Library, sets: &[MapSet], rng: &mut Rng) -> Result<MapSet, Refusal> {
    let cut = match sets.len() {
        1 => return Ok(sets[0].clone()),
        3 => 1,
        length => rng.range(1, length as i64 - 1) as usize,
    };
    let left = grouped(library, &sets[..cut], rng)?;
    let right = grouped(library, &sets[cut..], rng)?;
    join(library, &left, &right)
}

/// Two sets joined into areas with more than enough room, and cut to what is needed.
fn join(library: &dyn Library, a: &MapSet, b: &MapSet) -> Result<MapSet, Refusal> {
    let most = |a: usize, b: usize| a.max(b);
    let (x, y) = (a.areas.lengths(), b.areas.lengths());
    let values = [x, y].map(|lengths| most(lengths[0], most(lengths[1], lengths[2])));
    let values = values[0] + values[1];
    let maps = x[5] + y[5];
    let lengths = [values, values, values, x[3] + y[3], x[4] + y[4], maps];
    let mut areas = rubbish(lengths, 1);
    match library.join(a, b, &mut areas) {
        Reading::Accepted { header, texts } => {
            let joined = MapSet {
                header,
                texts,
                areas,
            };
            Ok(joined.cut())
        }
        Reading::Refused(refusal) => Err(refusal),
    }
}

/// "the same map set in both groupings, ... or both groupings are refused, though the numbers may differ"
pub fn disagree(answers: &[Result<MapSet, Refusal>; 2]) -> Option<String> {
    match answers {
        [Ok(left), Ok(right)] => (left != right).then(|| "two joined sets".to_string()),
        [Err(_), Err(_)] => None,
        [left, right] => {
            let given = |answer: &Result<MapSet, Refusal>| match answer {
                Ok(_) => "given".to_string(),
                Err(refusal) => refusal.to_string(),
            };
            Some(format!("{} and {}", given(left), given(right)))
        }
    }
}

#[cfg(test)]
mod tests {
    use super::*;
    use crate::faults::{Fault, Faulty};
    use crate::library::{self, Second};

    /// Sets of two maps of one node each, one behind the other, with these INTERVALs; where it is 0 the gap is 100 s.
    fn with_intervals(intervals: [i64; 3]) -> Vec<MapSet> {
        let mut first = 3_155_673_600;
        let mut sets = Vec::new();
        for interval in intervals {
            let mut set = gen::one_node(&mut Rng::new(5), 2);
            let gap = if interval == 0 { 100 } else { interval as u64 };
            set.areas.epochs = vec![first, first + gap];
            set.header.first_epoch = first;
            set.header.last_epoch = first + gap;
            set.header.interval = interval;
            first += gap;
            sets.push(set);
        }
        sets
    }

    /// "an INTERVAL of 0 taken as the other set's" is seen on both of these triples, and on the first by the groupings
    /// alone: 900 beside 0 makes 900 of gaps that are none.
    #[test]
    fn intervals_of_triples() {
        let faulty = Faulty(Fault::IntervalOther);
        for (intervals, alone) in [([3600, 900, 0], true), ([3600, 0, 3600], false)] {
            let sets = with_intervals(intervals);
            for library in library::all() {
                let answers = groupings(library.as_ref(), &sets, 1);
                assert_eq!(disagree(&answers), None);
                let joined = answers[0].as_ref().expect("joined");
                assert_eq!((joined.header.interval, joined.header.maps), (0, 4));
            }
            let wrong = groupings(&faulty, &sets, 1);
            assert_ne!(wrong, groupings(&Second, &sets, 1), "{intervals:?}");
            assert_eq!(disagree(&wrong).is_some(), alone, "{intervals:?}");
        }
    }

    /// Seven days, and every way to cut them in two first.
    #[test]
    fn chains_of_a_week() {
        let mut weeks = 0;
        for seed in 1..400 {
            let sets = chain(&mut Rng::new(seed));
            if sets.len() != 7 {
                continue;
            }
            weeks += 1;
            for library in library::all() {
                for grouping in 0..5 {
                    let answers = groupings(library.as_ref(), &sets, grouping);
                    assert_eq!(disagree(&answers), None, "seed {seed}");
                }
            }
        }
        assert!(weeks > 20);
    }
}
