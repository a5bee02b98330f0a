//! How time grows: nanoseconds for a byte of a text, for a node, and for a value of a set, beside the global file's.

use crate::speed::{lent, map_set, time_many, time_node, time_week, time_writing};
use crate::timing::{nanos, Clock};
use bench::files;
use bench::texts::{behind_block, TEXTS};
use compare::archive::Archive;
use compare::biases::{self, Biases};
use compare::boundary::{self, Boundary};
use compare::indexes::{self, Indexes};
use std::hint::black_box;
use std::time::Duration;

const ROUNDS: usize = 3;

/// Room for whatever a text of 10 MB has.
const STATIONS: usize = 130_000;

/// The four exports that take a text.
pub fn texts() {
    println!("\n| ns for a byte | MB | read | needs | index | biases |\n|---|---|---|---|---|---|");
    let large = 10_000_000;
    report("25 TEC maps", &files::global(false));
    report("300 TEC maps", &files::many_maps());
    report("2,000,000 values in one column", &files::one_column());
    report("COMMENT lines", &files::with_comments(large / 68));
    report("lines of 80 blanks", &files::with_blanks(80, large / 81));
    for (name, text) in TEXTS {
        report(name, &text());
    }
}

fn report(name: &str, text: &str) {
    let text = text.as_bytes();
    let mut needs = [0; 6];
    let known = Archive.needs(text, &mut needs, &mut [0; 2]) == 0;
    let needs = if known {
        needs.map(|n| n as usize)
    } else {
        [0; 6]
    };
    let mut ours = lent(needs);
    let mut kept = indexes::Kept {
        header: ours.header.clone(),
        texts: ours.texts.clone(),
        positions: vec![0; needs[3]],
        exponents: vec![0; needs[3]],
        marks: vec![0; needs[5]],
    };
    let mut room = biases::Lent {
        satellites: vec![0; 4 * 198],
        stations: vec![0; 3 * STATIONS],
        names: vec![0; 20 * STATIONS],
        counts: vec![0; 2],
        place: vec![0; 2],
    };
    let clock = Clock::Processor;
    let mut best = [Duration::MAX; 4];
    for _ in 0..ROUNDS {
        let text = black_box(text);
        clock.time(&mut best[0], || Archive.read(text, &mut ours));
        clock.time(&mut best[1], || {
            Archive.needs(text, &mut [0; 6], &mut [0; 2])
        });
        clock.time(&mut best[2], || Archive.index(text, &mut kept, &mut [0; 2]));
        clock.time(&mut best[3], || Archive.biases(text, &mut room));
    }
    let [read, needs, index, biases] = best.map(|time| nanos(time) / text.len() as f64);
    let size = text.len() as f64 / 1e6;
    println!("| {name} | {size:.1} | {read:.2} | {needs:.2} | {index:.2} | {biases:.2} |");
}

/// A node by an index, whose block is followed by what never ends.
pub fn nodes() {
    println!("\n| a node by its index | ns |\n|---|---|");
    let small = files::small();
    let kept = indexes::made(small.as_bytes());
    let row = |name: &str, text: &str| {
        println!("| {name} | {:.0} |", time_node(text.as_bytes(), &kept));
    };
    row("a small file", &small);
    for (name, text) in behind_block() {
        row(name, &text());
    }
}

/// The exports that take a set: write and week for a value, and one of many questions.
pub fn sets() {
    println!("\n| ns for a value | values | write | week | each of many questions |\n|---|---|---|---|---|");
    let one_column = files::one_column();
    let sets = [
        ("25 maps", map_set(&files::global(false)).1),
        ("5 maps of 15 rows", files::with_maps(5)),
        ("300 maps of 15 rows", files::with_maps(300)),
        ("2,000,000 values in one column", map_set(&one_column).1),
    ];
    for (name, set) in sets {
        let given = boundary::given(&set);
        let values = set.areas.tec.len();
        let writing = time_writing(&given, &set, one_column.len(), ROUNDS, Clock::Processor);
        let week = time_week(&given, &set, ROUNDS, Clock::Processor);
        let round = set.header.longitudes.goes_round();
        let asking = match round {
            true => format!("{:.0} ns", nanos(time_many(&given, &set, 1).0[0]) / 1000.0),
            false => String::new(),
        };
        let [write, week] = [writing, week].map(|pair| nanos(pair.0[0]) / values as f64);
        println!("| {name} | {values} | {write:.2} | {week:.2} | {asking} |");
    }
}
