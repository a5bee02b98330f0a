//! The plain readers, asker, joiner, writer and tally make the same checks as the second program: they agree on every
//! generated text, damaged text, map set and question, and what is refused leaves the areas as they were.

use bench::ask::ask;
use bench::join::join;
use bench::plain::{self, read};
use compare::biases::Lent;
use compare::jobs::{jobs, Job};
use compare::program;
use compare::set::{rubbish, MapSet};
use second::biases::Room;
use second::index::Entries;
use second::week::{Figures, Week};
use second::{Answer, Buffers, Question, Reading};
use std::fs;

const SEEDS: u64 = 3000;

fn same_reading(text: &[u8], lent: &Buffers) {
    let mut left = lent.clone();
    let expected = match second::read(text, &mut left.lent()) {
        Reading::Accepted { header, texts } => Ok((header, texts)),
        Reading::Refused(refusal) => Err(refusal),
    };
    let mut right = lent.clone();
    assert_eq!(read(text, &mut right.lent()), expected);
    assert!(left == right, "the areas differ");
}

fn same_answer(set: &MapSet, question: &Question) {
    let right = second::ask(&set.header, &set.texts, &set.areas.view(), question);
    let expected = match right {
        Ok(Answer::ThousandthsOfTecu(v) | Answer::ThousandthsOfKilometre(v)) => Ok(v as i32),
        Err(refusal) => Err(refusal.number()),
    };
    assert_eq!(ask(&set.given(), question), expected, "{question:?}");
}

fn same_join(earlier: &MapSet, later: &MapSet, lent: &Buffers) {
    let mut left = lent.clone();
    let expected = second::join(&earlier.given(), &later.given(), &mut left.lent());
    let mut right = lent.clone();
    let found = join(&earlier.given(), &later.given(), &mut right.lent());
    assert_eq!(found, expected);
    assert!(left == right, "the areas differ");
}

fn same_writing(set: &MapSet, lent: &[u8]) {
    let mut left = lent.to_vec();
    let expected = second::write(&set.header, &set.texts, &set.areas.view(), &mut left);
    let mut right = lent.to_vec();
    assert_eq!(bench::write::write(&set.given(), &mut right), expected);
    assert!(left == right, "the texts differ");
}

fn same_index(text: &[u8], lengths: [usize; 3]) {
    let mut made = [(); 2].map(|()| {
        (
            vec![7; lengths[0]],
            vec![7; lengths[1]],
            vec![7; lengths[2]],
        )
    });
    let [left, right] = made
        .each_mut()
        .map(|(positions, exponents, marks)| Entries {
            positions,
            exponents,
            marks,
        });
    let expected = match second::index::make_index(text, &mut { left }) {
        Reading::Accepted { header, texts } => Ok((header, texts)),
        Reading::Refused(refusal) => Err(refusal),
    };
    assert_eq!(plain::make_index(text, &mut { right }), expected);
    assert!(made[0] == made[1], "the areas differ");
}

fn same_week(week: &Week, set: &MapSet, length: usize) {
    let [mut left, mut right] = [*week; 2];
    let [mut rows, mut others] = [(); 2].map(|()| vec![7; length]);
    let view = set.areas.view();
    let expected = second::week::add(&mut left, &set.header, &set.texts, &view, &mut rows);
    let found = bench::week::add(&mut right, &set.given(), &mut others);
    assert_eq!((found, right), (expected, left));
    assert!(rows == others, "the rows differ");
}

fn same_biases(text: &[u8], lent: Lent) {
    let mut areas = [(); 2].map(|()| lent.clone());
    let answers = areas.each_mut().map(|lent| Room {
        satellites: &mut lent.satellites,
        stations: &mut lent.stations,
        names: &mut lent.names,
    });
    let [mut left, mut right] = answers;
    let expected = second::biases::biases(text, &mut left);
    assert_eq!(bench::biases::biases(text, &mut right), expected);
    assert!(areas[0] == areas[1], "the areas differ");
}

#[test]
fn examples() {
    for name in program::names() {
        let text = fs::read(program::folder().join(format!("{name}.inx"))).expect("an example");
        for length in [0, 200_000] {
            same_reading(&text, &rubbish([length; 6], 1));
        }
    }
}

/// Every reading, question, joining and writing of the seeds; texts for an index, and sets for a week.
#[test]
fn jobs_of_the_seeds() {
    let [mut readings, mut questions, mut joinings, mut writings] = [0; 4];
    for seed in 1..=SEEDS {
        for job in jobs(seed) {
            match &job {
                Job::Read { text, lent, .. } => {
                    same_reading(text, lent);
                    let exponents = lent.exponents.len();
                    same_index(text, [exponents, exponents, lent.marks.len()]);
                    readings += 1;
                }
                Job::Ask { set, question, .. } => {
                    same_answer(set, question);
                    questions += 1;
                }
                Job::Join {
                    earlier,
                    later,
                    lent,
                } => {
                    same_join(earlier, later, lent);
                    joinings += 1;
                }
                Job::Write { set, out, .. } => {
                    same_writing(set, out);
                    for week in weeks() {
                        same_week(&week, set, [0, 15 * 301][usize::from(seed % 4 > 0)]);
                    }
                    writings += 1;
                }
                _ => {}
            }
        }
    }
    assert!(readings >= 20_000 && questions >= 15_000 && joinings >= 5_000 && writings >= 5_000);
}

/// A week at its start, one on its way, one that no sets can have made, and a full one.
fn weeks() -> [Week; 4] {
    let some = Figures {
        with: 2,
        without: 5,
        range: Some((-7, 90_000_000)),
        sum: 89_999_993,
    };
    let week = |sets: i128, with: i128| Week {
        sets,
        kinds: [Figures { with, ..some }; 3],
    };
    [Week::default(), week(3, 2), week(3, 0), week(100, 2)]
}

#[test]
fn biases_of_the_seeds() {
    for seed in 1..=SEEDS / 6 {
        for (_, call) in compare::biases::counted(seed) {
            same_biases(&call.text, call.lent);
        }
    }
}

/// The files that are timed, but for the large texts.
fn timed() -> Vec<String> {
    use bench::files;
    vec![
        files::global(false),
        files::global(true),
        files::with_cr(),
        files::version_1_0(),
        files::with_exponents(),
        files::with_comments(100),
        files::with_blanks(80, 100),
        files::with_blanks(0, 100),
    ]
}

#[test]
fn the_files_timed_are_accepted() {
    for text in timed() {
        let lent = rubbish(bench::files::NEEDS, 1);
        same_reading(text.as_bytes(), &lent);
        let found = read(text.as_bytes(), &mut lent.clone().lent());
        let (header, _) = found.expect("accepted");
        assert_eq!(header.maps, 25);
        assert_eq!(
            (header.latitudes.count(), header.longitudes.count()),
            (71, 73)
        );
    }
}

/// Every byte of a small file changed to bytes at the borders of what the quick ways of the reader look for, and the
/// file cut off before it.
#[test]
fn every_byte_of_a_small_file() {
    let text = bench::files::small();
    for text in [text.replace('\n', "\r\n"), text] {
        let lent = rubbish([40; 6], 1);
        same_reading(text.as_bytes(), &lent);
        for at in 0..text.len() {
            for byte in *b" -0:/9.\r\n~\x7f\x1f\x80" {
                let mut damaged = text.clone().into_bytes();
                damaged[at] = byte;
                same_reading(&damaged, &lent);
            }
            same_reading(&text.as_bytes()[..at], &lent);
        }
    }
}
