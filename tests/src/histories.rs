//! A day of a holder, at the C boundary: texts offered one after the other to the same areas, some accepted, some refused, cut
//! or too long for the areas. A refused text must change nothing, and every answer after it must be that of the last text that
//! was accepted, read by itself into areas of its own.

use crate::boundary::{self, Asked, Boundary, Given, Lent, Plain, HEADER, RECORD, TEXTS};
use crate::damage;
use crate::delays;
use crate::explains::{self, Explains};
use crate::gen;
use crate::many::{Asking, Chosen, Many};
use crate::rng::Rng;
use crate::run;
use crate::set::{rubbish, MapSet};
use crate::tally::{self, Comparison, Tally};

pub mod faults;

/// A text that is offered, and what is asked after it.
#[derive(Clone, Debug)]
struct Offer {
    text: Vec<u8>,
    asked: Vec<Asked>,
    carrier: f64,
}

/// What the holder lends in the morning, and the day's texts in their order.
#[derive(Clone, Debug)]
struct Day {
    morning: Lent,
    offers: Vec<Offer>,
}

// ---- the day of a seed ----

fn day(seed: u64) -> Day {
    let rng = &mut Rng::new(seed ^ 0x4157_0ff3);
    let sets: Vec<MapSet> = (0..3).map(|_| explains::round(rng)).collect();
    let offers = (0..rng.range(2, 7)).map(|_| offer(rng, &sets)).collect();
    // Room for the first two; the third may be too long.
    let needs: Vec<[usize; 6]> = sets[..2].iter().map(MapSet::needs).collect();
    let lengths = std::array::from_fn(|area| {
        let most = needs.iter().map(|need| need[area]).max().unwrap_or(0);
        match rng.once_in(12) {
            true => rng.below(most + 1),
            false => most + rng.pick(&[0, 1, 7]),
        }
    });
    Day {
        morning: Lent {
            areas: rubbish(lengths, rng.word()),
            header: (0..HEADER).map(|_| rng.word() as i64).collect(),
            texts: (0..TEXTS).map(|_| rng.word() as u8).collect(),
            place: vec![0; 2],
        },
        offers,
    }
}

/// Half of the texts are good; the others are cut or damaged. What is asked is about any of the day's sets.
fn offer(rng: &mut Rng, sets: &[MapSet]) -> Offer {
    let set = &sets[rng.below(sets.len())];
    let good = gen::text(rng, set);
    let text = match rng.below(6) {
        0 => good[..rng.below(good.len())].to_vec(),
        1 | 2 => damage::text(rng, &good),
        _ => good,
    };
    let question = |rng: &mut Rng| {
        let set = &sets[rng.below(sets.len())];
        boundary::asked(&explains::question(rng, set))
    };
    Offer {
        text,
        asked: (0..3).map(|_| question(rng)).collect(),
        carrier: delays::carrier(rng),
    }
}

// ---- what must come of it ----

/// What a text gets in areas of these lengths, whatever stands in them; and the text by itself, where it is accepted.
fn verdict(text: &[u8], lengths: [usize; 6]) -> (u64, Vec<u64>, Option<Given>) {
    let mut lent = own(lengths);
    let number = Plain.read(text, &mut lent);
    let place = lent.place;
    if number != 0 {
        return (number, place, None);
    }
    let mut lent = own(second::needs(text).expect("an accepted text"));
    assert_eq!(Plain.read(text, &mut lent), 0, "an accepted text");
    (0, place, Some(given(&lent)))
}

/// Areas with nothing of the day in them.
fn own(lengths: [usize; 6]) -> Lent {
    Lent {
        areas: rubbish(lengths, 1),
        header: vec![0; HEADER],
        texts: vec![0; TEXTS],
        place: vec![0; 2],
    }
}

fn given(lent: &Lent) -> Given {
    Given {
        header: lent.header.clone(),
        texts: lent.texts.clone(),
        areas: lent.areas.clone(),
    }
}

/// What is wrong with what a call left of what is held.
fn changed(before: &Lent, after: &Lent) -> Option<String> {
    run::first([
        run::areas(&before.areas, &after.areas),
        run::part("header", &before.header, &after.header),
        run::part("texts", &before.texts, &after.texts),
    ])
}

/// What a set answers to what is asked after an offer, by every call.
type Answers = (Vec<Vec<i64>>, Vec<Vec<u64>>, Vec<u8>);

fn answers<L: Boundary + Many + Explains>(library: &L, set: &Given, offer: &Offer) -> Answers {
    let (mut numbers, mut words) = (Vec::new(), Vec::new());
    for asked in &offer.asked {
        let mut value = [7];
        let mut nodes = vec![7; explains::EXPLAINED];
        let mut lacking = vec![7; explains::LACKING];
        let mut record = [7.0; RECORD];
        let answer = library.ask(set, asked, &mut value);
        words.push(vec![answer]);
        numbers.push(vec![i64::from(value[0])]);
        words.push(vec![library.explain(set, asked, &mut nodes, &mut lacking)]);
        numbers.push(nodes);
        words.push(lacking);
        words.push(vec![library.delay(set, asked, offer.carrier, &mut record)]);
        words.push(record.map(f64::to_bits).to_vec());
        let (answer, told, values) = all_asked(library, set, asked, &offer.asked);
        words.push(vec![answer]);
        words.push(told.into_iter().map(u64::from).collect());
        numbers.push(values.into_iter().map(i64::from).collect());
    }
    let mut count = [0];
    let mut text = vec![7; 60_000];
    words.push(vec![library.write(set, &mut text, &mut count), count[0]]);
    (numbers, words, text)
}

/// All questions of an offer in one call, for the kind, method and layer of one of them.
fn all_asked<L: Many>(
    library: &L,
    set: &Given,
    of: &Asked,
    asked: &[Asked],
) -> (u64, Vec<u8>, Vec<i32>) {
    let (mut answers, mut values) = (vec![7; asked.len()], vec![7; asked.len()]);
    let chosen = Chosen {
        kind: of.kind,
        method: of.method,
        layer: of.layer,
    };
    let asking = Asking {
        lats: asked.iter().map(|asked| asked.lat).collect(),
        lons: asked.iter().map(|asked| asked.lon).collect(),
        seconds: asked.iter().map(|asked| asked.second).collect(),
    };
    let answer = library.ask_all(set, &chosen, &asking, &mut answers, &mut values);
    (answer, answers, values)
}

/// The first thing that is wrong with a day, for a reading and the calls behind it; and what happened, counted.
fn judge<L: Boundary + Many + Explains>(
    read: &dyn Fn(&[u8], &mut Lent) -> u64,
    library: &L,
    day: &Day,
) -> (Option<String>, Vec<String>) {
    let mut held = day.morning.clone();
    let mut in_force = given(&day.morning);
    let (mut accepted, mut rows) = (0, Vec::new());
    for (k, offer) in day.offers.iter().enumerate() {
        let before = held.clone();
        let (number, place, set) = verdict(&offer.text, held.areas.lengths());
        let answer = read(&offer.text, &mut held);
        let wrong = match number {
            0 => run::answers(0, answer),
            _ => run::first([
                run::answers(number, answer),
                run::part("place", &place, &held.place),
                changed(&before, &held),
            ]),
        };
        rows.push(happened(number, accepted));
        if let Some(set) = set {
            accepted += 1;
            in_force = set;
        }
        let wrong = wrong.or_else(|| {
            let (should, does) = (
                answers(&Plain, &in_force, offer),
                answers(library, &given(&held), offer),
            );
            (should != does).then(|| differs(&should, &does))
        });
        if let Some(wrong) = wrong {
            return (Some(format!("text {} of the day: {wrong}", k + 1)), rows);
        }
    }
    (None, rows)
}

fn differs(should: &Answers, does: &Answers) -> String {
    let at = |a: &[Vec<i64>], b: &[Vec<i64>]| a.iter().zip(b).position(|(a, b)| a != b);
    match at(&should.0, &does.0) {
        Some(k) => format!("values {:?}, not {:?}", does.0[k], should.0[k]),
        None if should.1 != does.1 => "answers are not those of the text in force".to_string(),
        None => "what is written is not the text in force".to_string(),
    }
}

/// Under which row a text is counted.
fn happened(number: u64, accepted: u64) -> String {
    let over = match accepted {
        0 => "nothing",
        1 => "one accepted before",
        _ => "several accepted before",
    };
    match number {
        0 => format!("accepted over {over}"),
        11 => format!("too long for the areas over {over}"),
        _ => format!("refused over {over}"),
    }
}

fn expected_often() -> Vec<String> {
    let rows = |number| (0..3).map(move |accepted| happened(number, accepted));
    [0, 1, 11].into_iter().flat_map(rows).collect()
}

/// Every day of the seeds by the library.
pub fn compare<L: Boundary + Many + Explains>(library: &L, count: u64, seed: u64) -> Tally {
    Comparison::over(count, seed, expected_often(), |comparison, seed| {
        let day = day(seed);
        let read = |text: &[u8], lent: &mut Lent| library.read(text, lent);
        let (complaint, rows) = judge(&read, library, &day);
        for row in rows {
            comparison.count(row, 1);
        }
        comparison.judge(seed, complaint, || {
            tally::leave_words(&format!("{seed}-history.txt"), &day)
        });
    })
}
