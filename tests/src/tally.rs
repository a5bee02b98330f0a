//! What passed and what failed, and the frame of every comparison over seeds: how often each answer occurred, and what a
//! failed call was given, left as a file.

use std::collections::BTreeMap;
use std::fmt::{Debug, Display};
use std::fs;
use std::path::PathBuf;

/// How often each answer must have occurred.
const OFTEN: u64 = 100;

/// How many that failed are shown and left as files; the others are only counted.
const SHOWN: u64 = 20;

#[derive(Default)]
pub struct Tally {
    pub passed: u64,
    pub failed: u64,
}

impl Tally {
    pub fn note(&mut self, good: bool) {
        if good {
            self.passed += 1;
        } else {
            self.failed += 1;
        }
    }

    /// What was judged at some place; whether there was a complaint, and it is shown.
    pub fn judge(&mut self, at: impl Display, complaint: Option<impl Display>) -> bool {
        self.note(complaint.is_none());
        match complaint {
            Some(complaint) if self.failed <= SHOWN => {
                println!("{at}: {complaint}");
                true
            }
            _ => false,
        }
    }
}

/// A comparison over seeds.
#[derive(Default)]
pub struct Comparison {
    tally: Tally,
    counts: BTreeMap<String, u64>,
}

impl Comparison {
    /// Every seed compared; then each of the expected names must have been counted often.
    pub fn over(
        count: u64,
        seed: u64,
        expected: Vec<String>,
        mut compare: impl FnMut(&mut Comparison, u64),
    ) -> Tally {
        let mut comparison = Comparison::default();
        for seed in seed..seed.saturating_add(count) {
            compare(&mut comparison, seed);
        }
        let Comparison { mut tally, counts } = comparison;
        for name in expected {
            let number = counts.get(&name).copied().unwrap_or(0);
            let remark = if number >= OFTEN { "" } else { "  too seldom" };
            println!("{number:>9}  {name}{remark}");
            tally.note(number >= OFTEN);
        }
        tally
    }

    pub fn count(&mut self, name: String, times: u64) {
        *self.counts.entry(name).or_default() += times;
    }

    /// What was judged of a seed, and what leaves a file of that where it is shown.
    pub fn judge(&mut self, seed: u64, complaint: Option<String>, leave: impl FnOnce()) {
        if self.tally.judge(format_args!("seed {seed}"), complaint) {
            leave();
        }
    }
}

/// The first of the seeds that shows a difference, and the difference.
pub fn first(
    count: u64,
    seed: u64,
    difference: impl Fn(u64) -> Option<String>,
) -> Option<(u64, String)> {
    (seed..seed.saturating_add(count)).find_map(|seed| Some((seed, difference(seed)?)))
}

/// `NAME answered ANSWER` for each of them.
pub fn answered(name: &str, answers: &[u64]) -> Vec<String> {
    let row = |answer: &u64| format!("{name} answered {answer}");
    answers.iter().map(row).collect()
}

/// Leaves a file under tests/failed/.
pub fn leave(name: &str, bytes: &[u8]) {
    let folder = PathBuf::from(env!("CARGO_MANIFEST_DIR")).join("failed");
    let written = fs::create_dir_all(&folder).and_then(|()| fs::write(folder.join(name), bytes));
    if let Err(error) = written {
        println!("could not leave {name}: {error}");
    }
}

/// Leaves what a call was given, in words.
pub fn leave_words(name: &str, given: &impl Debug) {
    leave(name, format!("{given:#?}\n").as_bytes());
}
