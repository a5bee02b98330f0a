//! What the generator must make, counted over fixed seeds: a case that it never makes is one that no comparison sees.

use compare::faults::wrong_epoch_fields;
use compare::jobs::{jobs, Job, Truth};
use compare::library::Second;
use compare::run;
use compare::set::MapSet;
use second::calendar;
use second::{Question, Refusal};

const SEEDS: u64 = 3000;

#[derive(Default, Debug)]
struct Counts {
    /// Refused in an epoch record of which two fields are wrong.
    two_in_epoch: u64,
    /// Refused at line 65,536 or later.
    far: u64,
    /// Refused, with lines that end in CR LF and lines that end in LF.
    mixed_ends: u64,
    /// Good texts with two aux blocks or more.
    two_aux: u64,
    /// Good texts with no description, one, 20, blank ones and short ones; refused for the twenty-first.
    no_description: u64,
    one_description: u64,
    all_descriptions: u64,
    blank_description: u64,
    short_description: u64,
    twenty_first: u64,
    /// Sets for writing with something behind the last description, or another number than 0 to 20.
    behind_the_last: u64,
    other_number: u64,
    /// Good sets: LON2 is LON1 + 360.0; one column less; more than seven maps, and more than one node.
    whole_turn: u64,
    less_one: u64,
    many_maps: u64,
    /// Answered with a node behind value 65,536, or a map behind the 256th.
    late_node: u64,
    late_map: u64,
    /// Answered for a longitude a whole turn or more from every column, to the west and to the east.
    turned_west: u64,
    turned_east: u64,
}

fn count(counts: &mut Counts, job: &Job) {
    match job {
        Job::Read {
            text,
            truth: Truth::Set(set),
            ..
        } => {
            let axis = set.header.longitudes;
            counts.two_aux += u64::from(aux_blocks(text) > 1);
            let count = set.header.descriptions as usize;
            counts.no_description += u64::from(count == 0);
            counts.one_description += u64::from(count == 1);
            counts.all_descriptions += u64::from(count == 20);
            let lines = &set.texts.descriptions[..count];
            let ends = |line: &[u8; 60]| line.trim_ascii_end().len();
            counts.blank_description += u64::from(lines.iter().any(|line| ends(line) == 0));
            let short = |line: &[u8; 60]| (1..30).contains(&ends(line));
            counts.short_description += u64::from(lines.iter().any(short));
            counts.whole_turn += u64::from(axis.last == axis.first + 3600);
            counts.less_one += u64::from(axis.last + axis.step == axis.first + 3600);
            counts.many_maps += u64::from(set.header.maps > 7 && set.grid().values() > 1);
        }
        Job::Read { text, .. } => {
            let refusal = run::run(&Second, job).refusal();
            let Some(Refusal::Place { number, line, .. }) = refusal else {
                return;
            };
            let refused = text.split(|&b| b == b'\n').nth(line as usize - 1);
            let refused = refused.unwrap_or(b"");
            let wrong = wrong_epoch_fields(refused).len();
            let description = |line: &[u8]| line.get(60..71) == Some(b"DESCRIPTION");
            let before = text.split(|&b| b == b'\n').take(line as usize - 1);
            let full = before.filter(|line| description(line)).count() >= 20;
            counts.twenty_first += u64::from(number == 5 && full && description(refused));
            counts.two_in_epoch += u64::from(number == 7 && wrong > 1);
            counts.far += u64::from(line > 65_535);
            counts.mixed_ends += u64::from(has_mixed_ends(text));
        }
        Job::Write { set, .. } => {
            let count = set.header.descriptions;
            counts.other_number += u64::from(!(0..=20).contains(&count));
            let mut behind = set.texts.descriptions.iter().skip(count.max(0) as usize);
            counts.behind_the_last += u64::from(behind.any(|line| *line != [b' '; 60]));
        }
        Job::Ask { set, question, .. } => {
            if matches!(run::run(&Second, job), run::Outcome::Ask(Ok(_))) {
                let (map, value) = asked_for(set, question);
                counts.late_node += u64::from(value > 65_535);
                counts.late_map += u64::from(map > 255);
                let axis = set.header.longitudes;
                let [first, last] = [axis.first, axis.last].map(|tenths| 10 * tenths);
                counts.turned_west += u64::from(question.longitude <= first - 36_000);
                counts.turned_east += u64::from(question.longitude >= last + 36_000);
            }
        }
        _ => {}
    }
}

/// The aux blocks of a good text.
fn aux_blocks(text: &[u8]) -> u64 {
    let (mut inside, mut blocks) = (false, 0);
    for line in text.split(|&b| b == b'\n') {
        match line.get(60..).unwrap_or(b"").trim_ascii_end() {
            b"END OF AUX DATA" => inside = false,
            b"START OF AUX DATA" if !inside => {
                inside = true;
                blocks += 1;
            }
            b"END OF HEADER" if !inside => return blocks,
            _ => {}
        }
    }
    blocks
}

fn has_mixed_ends(text: &[u8]) -> bool {
    let lines = text.split_inclusive(|&b| b == b'\n');
    let mut ends = lines
        .filter(|line| line.ends_with(b"\n"))
        .map(|line| line.ends_with(b"\r\n"));
    let first = ends.next();
    ends.any(|end| Some(end) != first)
}

/// The map in force at a question's second, from 0, and the place of a node before the place asked for.
fn asked_for(set: &MapSet, question: &Question) -> (usize, usize) {
    let grid = set.grid();
    let epochs = &set.areas.epochs[..grid.maps];
    let map = epochs
        .iter()
        .rposition(|&t| t <= question.second)
        .unwrap_or(0);
    let latitudes = set.header.latitudes;
    let longitudes = set.header.longitudes;
    let row = (question.latitude - 10 * latitudes.first) / (10 * latitudes.step);
    let turned = (question.longitude - 10 * longitudes.first).rem_euclid(36_000);
    let column = turned / (10 * longitudes.step);
    let block = (map * grid.layers + question.layer as usize) * grid.rows + row as usize;
    (map, block * grid.columns + column as usize)
}

#[test]
fn each_case_occurs() {
    let mut counts = Counts::default();
    for seed in 1..=SEEDS {
        for job in jobs(seed) {
            count(&mut counts, &job);
        }
    }
    println!("{counts:#?}");
    let all = [
        counts.two_in_epoch,
        counts.far,
        counts.mixed_ends,
        counts.two_aux,
        counts.no_description,
        counts.one_description,
        counts.all_descriptions,
        counts.blank_description,
        counts.short_description,
        counts.twenty_first,
        counts.behind_the_last,
        counts.other_number,
        counts.whole_turn,
        counts.less_one,
        counts.many_maps,
        counts.late_node,
        counts.late_map,
        counts.turned_west,
        counts.turned_east,
    ];
    assert!(all.into_iter().all(|number| number >= 20), "{counts:#?}");
}

/// The counts themselves count.
#[test]
fn what_is_counted() {
    assert!(has_mixed_ends(b"a\r\nb\n"));
    assert!(!has_mixed_ends(b"a\r\nb\r\nc"));
    assert!(!has_mixed_ends(b"a\nb\nc"));
    let epoch = |date: &str| format!("{date:<60}EPOCH OF CURRENT MAP").into_bytes();
    let wrong = |date: &str| wrong_epoch_fields(&epoch(date));
    assert_eq!(wrong("  1999    12    31    23    59    59"), []);
    assert_eq!(
        wrong("  1899    13    32    24    60    60"),
        [0, 1, 2, 3, 4, 5]
    );
    assert_eq!(wrong("  1999    1x    31    23          59"), [1, 4]);
    assert!(calendar::seconds([1899, 13, 1, 0, 0, 0]) == Err(0));
}
