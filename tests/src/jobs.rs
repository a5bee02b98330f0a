//! The jobs of a seed: what is handed to a library, and what is known of it.

use crate::damage;
use crate::delays;
use crate::gen;
use crate::joins;
use crate::remarks;
use crate::rng::Rng;
use crate::set::{overlaid, rubbish, MapSet};
use second::{Buffers, Question};

/// What is known beforehand of a reading.
#[derive(Clone, Debug)]
pub enum Truth {
    /// The text has this map set as its meaning, and the areas are long enough.
    Set(Box<MapSet>),
    /// The same, but this area is the first that is too short.
    Short { area: u8, need: u64 },
    /// A damaged text.
    Open,
}

/// Whether a map set for writing or asking is one.
#[derive(Clone, Copy, Debug, PartialEq, Eq)]
pub enum Known {
    Valid,
    Invalid,
    Open,
}

#[derive(Clone, Debug)]
pub enum Job {
    Read {
        text: Vec<u8>,
        /// The areas as they are lent.
        lent: Buffers,
        truth: Truth,
    },
    /// Two texts that differ in their remarks only.
    Twins {
        text: Vec<u8>,
        twin: Vec<u8>,
        lent: Buffers,
    },
    /// A text, and what it needs where that is known.
    Needs {
        text: Vec<u8>,
        truth: Option<[usize; 6]>,
    },
    Write {
        set: Box<MapSet>,
        /// The output as it is lent.
        out: Vec<u8>,
        known: Known,
    },
    Ask {
        set: Box<MapSet>,
        question: Question,
        known: Known,
    },
    /// Of so many thousandths of a TECU.
    TecuDelay {
        x: i32,
        carrier: f64,
    },
    Delay {
        set: Box<MapSet>,
        question: Question,
        carrier: f64,
        known: Known,
    },
    Join {
        earlier: Box<MapSet>,
        later: Box<MapSet>,
        lent: Buffers,
    },
    /// Sets to be joined from the left, and in another grouping that a seed says.
    Chain {
        sets: Vec<MapSet>,
        seed: u64,
    },
    Move {
        epoch: u64,
        by: i64,
    },
}

impl Job {
    pub fn name(&self) -> &'static str {
        match self {
            Job::Read { .. } => "read",
            Job::Twins { .. } => "twins",
            Job::Needs { .. } => "needs",
            Job::Write { .. } => "write",
            Job::Ask { .. } => "ask",
            Job::TecuDelay { .. } => "delay of TEC",
            Job::Delay { .. } => "delay",
            Job::Join { .. } => "join",
            Job::Chain { .. } => "chain",
            Job::Move { .. } => "move",
        }
    }
}

/// All jobs of a seed.
pub fn jobs(seed: u64) -> Vec<Job> {
    let mut rng = Rng::new(seed);
    let rng = &mut rng;
    let set = gen::map_set(rng);
    let text = gen::text(rng, &set);
    let mut jobs = vec![
        read_job(rng, &text, &set, false),
        read_job(rng, &text, &set, true),
    ];
    for _ in 0..6 {
        jobs.push(damaged_read_job(rng, &text, &set));
    }
    for _ in 0..2 {
        jobs.push(write_job(rng, &set, false));
        jobs.push(write_job(rng, &set, true));
    }
    for _ in 0..5 {
        jobs.push(ask_job(rng, &set, false));
    }
    jobs.push(ask_job(rng, &set, true));
    for _ in 0..2 {
        jobs.push(move_job(rng));
    }
    jobs.extend(needs_jobs(&jobs, &set));
    for _ in 0..2 {
        jobs.push(Job::TecuDelay {
            x: delays::thousandths(rng),
            carrier: delays::carrier(rng),
        });
    }
    for damaged in [false, false, false, true] {
        jobs.push(delay_job(rng, &set, damaged));
    }
    jobs.extend(twins_jobs(rng, &jobs));
    for _ in 0..2 {
        jobs.push(join_job(rng));
    }
    jobs.push(Job::Chain {
        sets: joins::chain(rng),
        seed: rng.word(),
    });
    if rng.once_in(16) {
        jobs.extend(late_jobs(rng));
    }
    jobs
}

/// Questions that lie far behind in a large set.
fn late_jobs(rng: &mut Rng) -> [Job; 4] {
    let set = gen::large(rng);
    [(); 4].map(|()| Job::Ask {
        set: Box::new(set.clone()),
        question: damage::late_question(rng, &set),
        known: Known::Valid,
    })
}

/// What the first three texts need: the good one, and two that are damaged.
fn needs_jobs(jobs: &[Job], set: &MapSet) -> Vec<Job> {
    let text = |job: &Job| match job {
        Job::Read { text, .. } => Some(text.clone()),
        _ => None,
    };
    let texts = jobs[1..].iter().filter_map(text).take(3);
    let truths = [Some(set.needs()), None, None];
    texts
        .zip(truths)
        .map(|(text, truth)| Job::Needs { text, truth })
        .collect()
}

/// The first reading, of a good text, and two of damaged ones, with a twin of each text.
fn twins_jobs(rng: &mut Rng, jobs: &[Job]) -> Vec<Job> {
    let mut twins = Vec::new();
    for job in [&jobs[0], &jobs[2], &jobs[3]] {
        if let Job::Read { text, lent, .. } = job {
            twins.push(Job::Twins {
                text: text.clone(),
                twin: remarks::rewritten(rng, text),
                lent: lent.clone(),
            });
        }
    }
    twins
}

/// Guard elements behind each need, and rubbish areas for kinds with no map.
fn roomy(rng: &mut Rng, needs: [usize; 6]) -> [usize; 6] {
    needs.map(|need| need + rng.pick(&[0, 1, 2, 5, 17]))
}

fn read_job(rng: &mut Rng, text: &[u8], set: &MapSet, short: bool) -> Job {
    let needs = set.needs();
    let mut lengths = roomy(rng, needs);
    if short {
        for _ in 0..rng.pick(&[1, 1, 2, 6]) {
            let area = rng.below(6);
            lengths[area] = match rng.below(3) {
                0 => 0,
                1 => needs[area] / 2,
                _ => needs[area].saturating_sub(1),
            };
        }
    }
    let truth = match (0..6).find(|&k| lengths[k] < needs[k]) {
        Some(area) => Truth::Short {
            area: area as u8 + 1,
            need: needs[area] as u64,
        },
        None => Truth::Set(Box::new(set.clone())),
    };
    Job::Read {
        text: text.to_vec(),
        lent: rubbish(lengths, rng.word()),
        truth,
    }
}

fn damaged_read_job(rng: &mut Rng, text: &[u8], set: &MapSet) -> Job {
    let needs = set.needs();
    // A kind with no map may get one by the damage.
    let full = [needs[0], needs[0], needs[0], needs[3], needs[4], needs[5]];
    let lengths = if rng.once_in(10) {
        roomy(rng, needs).map(|length| rng.below(length + 1))
    } else {
        roomy(rng, full)
    };
    let text = if rng.once_in(10) {
        let mut changed = set.clone();
        damage::epochs(rng, &mut changed);
        gen::text(rng, &changed)
    } else {
        damage::text(rng, text)
    };
    Job::Read {
        text,
        lent: rubbish(lengths, rng.word()),
        truth: Truth::Open,
    }
}

/// The set with more behind the needs, which is to be ignored.
pub fn with_tails(rng: &mut Rng, set: &MapSet) -> MapSet {
    let lengths = roomy(rng, set.needs());
    let back = rubbish(lengths, rng.word());
    MapSet {
        areas: overlaid(&back, &set.areas),
        ..set.clone()
    }
}

fn write_job(rng: &mut Rng, set: &MapSet, damaged: bool) -> Job {
    let mut set = if rng.once_in(2) {
        with_tails(rng, set)
    } else {
        set.clone()
    };
    let known = match damaged {
        false => Known::Valid,
        true if damage::map_set(rng, &mut set) => Known::Invalid,
        true => Known::Open,
    };
    let need = second::write::canonical(&set.header, &set.texts, &set.areas.view()).len();
    let length = match rng.below(8) {
        0 => rng.below(need + 1),
        1 => need.saturating_sub(1),
        2 => 0,
        3 => need,
        _ => need + rng.below(100),
    };
    let filler = rng.word() as u8;
    Job::Write {
        set: Box::new(set),
        out: vec![filler; length],
        known,
    }
}

fn ask_job(rng: &mut Rng, set: &MapSet, damaged: bool) -> Job {
    let question = damage::question(rng, set);
    let mut set = if rng.once_in(4) {
        with_tails(rng, set)
    } else {
        set.clone()
    };
    damage::holes(rng, &mut set);
    let known = if damaged {
        // Asking looks at less than writing, so nothing is certain.
        damage::map_set(rng, &mut set);
        Known::Open
    } else {
        Known::Valid
    };
    Job::Ask {
        set: Box::new(set),
        question,
        known,
    }
}

fn delay_job(rng: &mut Rng, set: &MapSet, damaged: bool) -> Job {
    let carrier = delays::carrier(rng);
    match ask_job(rng, set, damaged) {
        Job::Ask {
            set,
            question,
            known,
        } => Job::Delay {
            set,
            question,
            carrier,
            known,
        },
        other => other,
    }
}

fn join_job(rng: &mut Rng) -> Job {
    let (earlier, later) = joins::pair(rng);
    let counts = [&earlier, &later].map(|set| set.header.maps.clamp(1, 300) as usize);
    let maps = counts[0] + counts[1] - 1;
    // Of each map as much as its set has in the largest area; a set that is none may have nothing.
    let of_map = |area: usize| earlier.areas.lengths()[area].div_ceil(counts[0]);
    let values = maps * (0..3).map(of_map).max().unwrap_or(0);
    let needs = [values, values, values, maps * of_map(3), maps, maps];
    let mut lengths = roomy(rng, needs);
    if rng.once_in(4) {
        let area = rng.below(6);
        lengths[area] = rng.pick(&[0, needs[area] / 2, needs[area].saturating_sub(1)]);
    }
    Job::Join {
        earlier: Box::new(earlier),
        later: Box::new(later),
        lent: rubbish(lengths, rng.word()),
    }
}

fn move_job(rng: &mut Rng) -> Job {
    let end = second::calendar::END;
    let epoch = match rng.below(6) {
        0 => rng.pick(&[0, end - 1, end, u64::MAX, i64::MAX as u64]),
        1 => end + rng.below(100) as u64,
        _ => rng.range(0, end as i64 - 1) as u64,
    };
    let by = match rng.below(6) {
        0 => rng.pick(&[0, 1, -1, i64::MIN, i64::MAX]),
        1 => (epoch as i64)
            .wrapping_neg()
            .wrapping_add(rng.pick(&[0, -1, 1])),
        2 => (end as i64).wrapping_sub(epoch as i64) - rng.pick(&[0, 1, 2]),
        _ => rng.range(-(end as i64), end as i64),
    };
    Job::Move { epoch, by }
}
