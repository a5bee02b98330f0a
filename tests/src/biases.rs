//! Code biases at the C boundary: blocks in every form, several in a file, others beside them, damaged ones. What two
//! leave is compared; of good texts the biases are known, and their maps must be read as without the blocks.

use crate::boundary::{self, Boundary, Plain, HEADER, TEXTS};
use crate::calls;
use crate::damage;
use crate::gen::{self, edged, record};
use crate::rng::Rng;
use crate::run;
use crate::set::{rubbish, MapSet};
use crate::tally::{self, Comparison, Tally};
use second::biases::{Room, SIZES};
use second::Refusal;

mod crowds;
pub mod faults;

/// What is lent to a reader of biases.
#[derive(Clone, Debug, PartialEq, Eq)]
pub struct Lent {
    pub satellites: Vec<i32>,
    pub stations: Vec<i32>,
    pub names: Vec<u8>,
    /// How many satellites, and how many stations.
    pub counts: Vec<u64>,
    pub place: Vec<u64>,
}

pub trait Biases {
    /// 0, a refusal's number, or 103.
    fn biases(&self, text: &[u8], lent: &mut Lent) -> u64;
}

// ---- the second program at the boundary ----

impl Biases for Plain {
    fn biases(&self, text: &[u8], lent: &mut Lent) -> u64 {
        if lent.counts.len() < 2 || lent.place.len() < 2 {
            return 103;
        }
        let mut room = Room {
            satellites: &mut lent.satellites,
            stations: &mut lent.stations,
            names: &mut lent.names,
        };
        tell(second::biases::biases(text, &mut room), lent)
    }
}

/// What is told of an answer beside the areas.
fn tell(answer: Result<[usize; 2], Refusal>, lent: &mut Lent) -> u64 {
    let refusal = match answer {
        Ok(counts) => {
            lent.counts[..2].copy_from_slice(&counts.map(|count| count as u64));
            return 0;
        }
        Err(refusal) => refusal,
    };
    let place = match refusal {
        Refusal::Place { line, column, .. } => [line, column],
        Refusal::Area { area, need } => [u64::from(area), need],
        other => panic!("{other} is no refusal of a reader"),
    };
    lent.place[..2].copy_from_slice(&place);
    u64::from(refusal.number())
}

// ---- texts with blocks ----

/// A station's numbers and its name.
type Station = ([i32; 3], [u8; 20]);

/// Biases as they stand in the areas, in the order of the file.
#[derive(Clone, Debug, Default, PartialEq, Eq)]
struct Found {
    satellites: Vec<[i32; 4]>,
    stations: Vec<Station>,
}

const TITLE: &str = "DIFFERENTIAL CODE BIASES";
const SATELLITE: &str = "PRN / BIAS / RMS";
const STATION: &str = "STATION / BIAS / RMS";

/// Titles of other blocks.
const OTHERS: [&str; 8] = [
    " DIFFERENTIAL CODE BIASES",
    "DIFFERENTIAL CODE BIASES.",
    "DIFFERENTIAL CODE BIASES                                   x",
    "DIFFERENTIAL CODE BIASE",
    "DIFFERENTIAL  CODE BIASES",
    "differential code biases",
    "",
    "DIFFERENTIAL PHASE BIASES",
];

/// Labels beside those of the two records.
const UNKNOWN: [&str; 8] = [
    "PRN / BIAS / RMS.",
    " PRN / BIAS / RMS",
    "prn / bias / rms",
    "PRN / BIAS",
    "STATION / BIAS / RM",
    "STATION/ BIAS / RMS",
    "DSB / BIAS / RMS",
    "COMMENT",
];

fn biases_of(rng: &mut Rng) -> Found {
    let mut all: Vec<(u8, i32)> = (1..=99).flat_map(|k| [(b'G', k), (b'R', k)]).collect();
    rng.shuffle(&mut all);
    let size = |rng: &mut Rng| rng.pick(&[0, 1, 1, 3, 3, 8, 8, 8, 30, 198]);
    all.truncate(size(rng));
    let satellites = all
        .into_iter()
        .map(|(system, number)| [i32::from(system), number, value(rng), value(rng)])
        .collect();
    let mut stations: Vec<Station> = Vec::new();
    for _ in 0..size(rng) {
        let system = rng.pick(b"GR");
        let name = match stations.last() {
            Some(last) if rng.once_in(2) => near(rng, last.1),
            _ => name(rng),
        };
        let twice = |given: &Station| (given.0[0], given.1) == (i32::from(system), name);
        if !stations.iter().any(twice) {
            stations.push(([i32::from(system), value(rng), value(rng)], name));
        }
    }
    Found {
        satellites,
        stations,
    }
}

/// What F10.3 can hold.
fn value(rng: &mut Rng) -> i32 {
    match rng.below(4) {
        0 => edged(rng, -99_999_999, 999_999_999) as i32,
        1 => rng.range(-999, 999) as i32,
        2 => 0,
        _ => rng.range(-30_000, 30_000) as i32,
    }
}

fn name(rng: &mut Rng) -> [u8; 20] {
    let mut name = [b' '; 20];
    match rng.below(4) {
        0 => name.fill_with(|| rng.printable()),
        1 => {}
        _ => {
            let places = [*b"BRUS 13101M004", *b"TOW2 50140M001", *b"WILL 40134M001"];
            name[..14].copy_from_slice(&rng.pick(&places));
        }
    }
    name
}

/// The same name, or one that differs in one byte.
fn near(rng: &mut Rng, mut name: [u8; 20]) -> [u8; 20] {
    if rng.once_in(2) {
        name[rng.pick(&[0, 3, 18, 19, 19])] = rng.pick(b" xX0~");
    }
    name
}

fn decimal(rng: &mut Rng, value: i32) -> String {
    let size = value.unsigned_abs();
    let whole = match size / 1000 {
        0 if rng.once_in(2) => String::new(),
        whole => whole.to_string(),
    };
    let mut text = format!("{whole}.{:03}", size % 1000);
    let room = 10 - text.len() - usize::from(value < 0);
    if rng.once_in(4) {
        text = "0".repeat(rng.below(room + 1)) + &text;
    }
    if value < 0 || (value == 0 && text.len() < 10 && rng.once_in(3)) {
        text = format!("-{text}");
    }
    format!("{text:>10}")
}

/// The letter of a system in one of its forms.
fn letter(rng: &mut Rng, system: i32) -> char {
    match system as u8 as char {
        'G' if rng.once_in(2) => ' ',
        other => other,
    }
}

fn satellite_line(rng: &mut Rng, [system, number, bias, rms]: [i32; 4]) -> Vec<u8> {
    let number = match rng.once_in(2) {
        true => format!("{number:02}"),
        false => format!("{number:>2}"),
    };
    let body = format!(
        "   {}{number}{}{}",
        letter(rng, system),
        decimal(rng, bias),
        decimal(rng, rms)
    );
    record(body.as_bytes(), SATELLITE)
}

fn station_line(rng: &mut Rng, ([system, bias, rms], name): Station) -> Vec<u8> {
    let front = format!("   {}  ", letter(rng, system));
    let numbers = decimal(rng, bias) + &decimal(rng, rms);
    let body = [front.as_bytes(), &name, numbers.as_bytes()].concat();
    record(&body, STATION)
}

/// The records in their order, satellites and stations mixed.
fn lines_of(rng: &mut Rng, found: &Found) -> Vec<Vec<u8>> {
    let mut satellites = found.satellites.iter().peekable();
    let mut stations = found.stations.iter().peekable();
    let mut lines = Vec::new();
    while satellites.peek().is_some() || stations.peek().is_some() {
        let first = stations.peek().is_none() || rng.once_in(2);
        match satellites.next_if(|_| first) {
            Some(&satellite) => lines.push(satellite_line(rng, satellite)),
            None => {
                let station = stations.next();
                lines.extend(station.map(|&station| station_line(rng, station)));
            }
        }
    }
    lines
}

/// A line of a block that is no record of biases.
fn skipped(rng: &mut Rng) -> Vec<u8> {
    let body = rng.pick(&["", "   E00", "   G01     0.000     0.000", "any text"]);
    match rng.below(6) {
        0 => Vec::new(),
        1 => vec![b' '; rng.below(81)],
        2 => record(TITLE.as_bytes(), "START OF AUX DATA"),
        3 => record(rng.pick(&OTHERS).as_bytes(), "START OF AUX DATA"),
        4 => record(body.as_bytes(), "END OF HEADER"),
        _ => record(body.as_bytes(), rng.pick(&UNKNOWN)),
    }
}

fn block(rng: &mut Rng, title: &str, lines: &[Vec<u8>]) -> Vec<Vec<u8>> {
    let mut all = vec![record(title.as_bytes(), "START OF AUX DATA")];
    for line in lines {
        if rng.once_in(8) {
            all.push(skipped(rng));
        }
        all.push(line.clone());
    }
    if rng.once_in(3) {
        all.push(skipped(rng));
    }
    let title = rng.pick(&[TITLE, title, "", "another"]);
    all.push(record(title.as_bytes(), "END OF AUX DATA"));
    all
}

/// The blocks of biases, and others whose records do not count.
fn blocks(rng: &mut Rng, found: &Found) -> Vec<Vec<Vec<u8>>> {
    let mut lines = lines_of(rng, found);
    let mut blocks = Vec::new();
    while !lines.is_empty() || rng.once_in(6) {
        let many = lines.len() > 40;
        let rest = match rng.below(3) {
            0 if !many => lines.split_off(rng.below(lines.len() + 1)),
            _ => Vec::new(),
        };
        blocks.push(block(rng, TITLE, &lines));
        lines = rest;
        if rng.once_in(3) {
            let again = [
                satellite_line(rng, [71, 1, 0, 0]),
                record(b"   E00", SATELLITE),
            ];
            let title = rng.pick(&OTHERS);
            blocks.push(block(rng, title, &again));
        }
    }
    blocks
}

/// The text with the blocks in its header, in their order.
fn with_blocks(rng: &mut Rng, text: &[u8], blocks: Vec<Vec<Vec<u8>>>) -> Vec<u8> {
    let places = places(text);
    let mut at: Vec<usize> = blocks.iter().map(|_| rng.pick(&places)).collect();
    at.sort_unstable();
    let (tail, end) = (rng.below(3), rng.pick(&["\n", "\n", "\r\n"]));
    let mut changed = Vec::new();
    let mut from = 0;
    for (place, block) in at.into_iter().zip(blocks) {
        changed.extend(&text[from..place]);
        from = place;
        for mut line in block {
            let full = line.trim_ascii_end().len();
            let width = match tail {
                0 => full,
                1 => 80,
                _ => full + rng.below(81 - full),
            };
            line.resize(width, b' ');
            changed.extend(line);
            changed.extend(end.as_bytes());
        }
    }
    changed.extend(&text[from..]);
    changed
}

/// Where a line may be put into the header of a good text: behind its version record, in no aux block.
fn places(text: &[u8]) -> Vec<usize> {
    let mut places = Vec::new();
    let (mut at, mut started, mut aux) = (0, false, false);
    for line in text.split_inclusive(|&b| b == b'\n') {
        if started && !aux {
            places.push(at);
        }
        match line.get(60..).unwrap_or(b"").trim_ascii_end() {
            b"IONEX VERSION / TYPE" => started = true,
            b"START OF AUX DATA" => aux = true,
            b"END OF AUX DATA" => aux = false,
            b"END OF HEADER" if !aux => return places,
            _ => {}
        }
        at += line.len();
    }
    places
}

// ---- damage ----

/// Numbers for F10.3, and most of them none.
const ILL: [&str; 16] = [
    "",
    "-",
    "1.00",
    "1.0000",
    "+1.000",
    "1.000 ",
    ".500",
    "-.500",
    "1,000",
    "1",
    "1.-00",
    "-",
    ".",
    "1.0 0",
    "999999.999",
    "-0.000",
];

fn damaged(rng: &mut Rng, text: &[u8]) -> Vec<u8> {
    let mut lines: Vec<Vec<u8>> = text
        .split_inclusive(|&b| b == b'\n')
        .map(<[u8]>::to_vec)
        .collect();
    for _ in 0..rng.pick(&[1, 1, 2, 3]) {
        damage_line(rng, &mut lines);
    }
    match rng.once_in(8) {
        true => damage::text(rng, &lines.concat()),
        false => lines.concat(),
    }
}

fn with_label(lines: &[Vec<u8>], wanted: &[&str]) -> Vec<usize> {
    let label = |line: &[u8]| line.get(60..).unwrap_or(b"").trim_ascii_end().to_vec();
    (0..lines.len())
        .filter(|&k| {
            wanted
                .iter()
                .any(|name| label(&lines[k]) == name.as_bytes())
        })
        .collect()
}

/// One change of a record of biases, or of the block round it.
fn damage_line(rng: &mut Rng, lines: &mut Vec<Vec<u8>>) {
    let records = with_label(lines, &[SATELLITE, STATION]);
    let starts = with_label(lines, &["START OF AUX DATA"]);
    if records.is_empty() || starts.is_empty() {
        return;
    }
    let at = rng.pick(&records);
    let of_station = lines[at][60] == b'S';
    let line = &mut lines[at];
    match rng.below(12) {
        0 => line[rng.below(60)] = rng.pick(b" x0-.GR"),
        1 | 2 => {
            let first = if of_station { 26 } else { 6 };
            let field = first + rng.pick(&[0, 10]);
            let text = format!("{:>10}", rng.pick(&ILL));
            line[field..field + 10].copy_from_slice(text.as_bytes());
        }
        3 => line[3] = rng.pick(b"EgrGR CJ~"),
        4 if !of_station => {
            let number = rng.pick(&[b"00", b" 0", b"-0", b"-1", b"99", b"9 ", b"  ", b"x1"]);
            line[4..6].copy_from_slice(number);
            if rng.once_in(3) {
                line[3] = rng.pick(b"EgJ");
            }
        }
        5..=7 => {
            // A second time, elsewhere, the letter in another form or another.
            let mut copy = line.clone();
            match copy[3] {
                b'G' | b' ' if rng.once_in(2) => copy[3] = rng.pick(b"G "),
                _ if rng.once_in(4) => copy[3] = rng.pick(b"RGE"),
                _ => {}
            }
            if rng.once_in(4) {
                let column = if of_station { rng.pick(&[6, 25]) } else { 26 };
                copy[column] = rng.pick(b" x");
            }
            let to = rng.pick(&records);
            lines.insert(to, copy);
        }
        8 => line[60..].make_ascii_lowercase(),
        9 => line[rng.pick(&[0, 1, 2, 46, 59])] = rng.pick(b"x0"),
        10 => {
            let title = rng.pick(&[TITLE, TITLE, OTHERS[1], OTHERS[0]]);
            let start = rng.pick(&starts);
            let width = title.len();
            lines[start][..width].copy_from_slice(title.as_bytes());
        }
        _ => {
            let to = rng.pick(&records);
            lines.swap(at, to);
        }
    }
}

// ---- the calls of a seed ----

#[derive(Clone, Debug, PartialEq, Eq)]
pub struct Call {
    pub text: Vec<u8>,
    pub lent: Lent,
}

/// A text, the maps it was made from, and its biases.
fn good(seed: u64) -> (Rng, MapSet, Vec<u8>, Found) {
    let mut rng = Rng::new(seed ^ 0x00b1_a5e5);
    let set = gen::map_set(&mut rng);
    let text = gen::text(&mut rng, &set);
    let found = biases_of(&mut rng);
    let blocks = blocks(&mut rng, &found);
    let text = with_blocks(&mut rng, &text, blocks);
    (rng, set, text, found)
}

fn calls(seed: u64) -> Vec<Call> {
    let (mut rng, _, text, found) = good(seed);
    let mut calls = vec![
        Call {
            lent: room(&mut rng, &found, false),
            text: text.clone(),
        },
        Call {
            lent: room(&mut rng, &found, true),
            text: text.clone(),
        },
    ];
    for _ in 0..6 {
        calls.push(Call {
            lent: room(&mut rng, &found, false),
            text: damaged(&mut rng, &text),
        });
    }
    calls
}

/// The calls of a seed as they are counted: few stations, and thousands.
pub fn counted(seed: u64) -> impl Iterator<Item = (&'static str, Call)> {
    let few = calls(seed).into_iter().map(|call| ("biases", call));
    few.chain([("thousands of biases", crowds::call(seed))])
}

/// Areas for the biases, some too short; by damage they may get one or two more.
fn room(rng: &mut Rng, found: &Found, short: bool) -> Lent {
    let counts = [found.satellites.len(), found.stations.len()];
    let needs = [
        SIZES[0] * counts[0],
        SIZES[1] * counts[1],
        SIZES[2] * counts[1],
    ];
    let mut lengths = needs.map(|need| need + rng.pick(&[0, 0, 1, 3, 50]));
    if short {
        for _ in 0..rng.pick(&[1, 2, 3]) {
            let area = rng.below(3);
            lengths[area] = match rng.below(3) {
                0 => 0,
                1 => needs[area] / 2,
                _ => needs[area].saturating_sub(1),
            };
        }
    }
    Lent {
        satellites: (0..lengths[0]).map(|_| rng.word() as i32).collect(),
        stations: (0..lengths[1]).map(|_| rng.word() as i32).collect(),
        names: (0..lengths[2]).map(|_| rng.word() as u8).collect(),
        counts: calls::mostly_words(rng, 2),
        place: calls::mostly_words(rng, 2),
    }
}

// ---- comparing ----

/// The first's answer to a call, and the difference if there is one.
fn compare_call(a: &dyn Biases, b: &dyn Biases, call: &Call) -> (u64, Option<String>) {
    let (mut left, mut right) = (call.lent.clone(), call.lent.clone());
    let first = a.biases(&call.text, &mut left);
    let second = b.biases(&call.text, &mut right);
    let found = run::first([
        run::answers(first, second),
        run::part("place", &left.place, &right.place),
        run::part("counts", &left.counts, &right.counts),
        run::part("satellites", &left.satellites, &right.satellites),
        run::part("stations", &left.stations, &right.stations),
        run::part("names", &left.names, &right.names),
    ]);
    (first, found)
}

/// Every call of the seeds, by the second program and by another, and the other's answers to good texts judged.
pub fn compare<L: Biases + Boundary>(other: &L, count: u64, seed: u64) -> Tally {
    // 5, 6 and 7 of the blocks' own, where the maps are read.
    let mut expected = tally::answered("biases", &[0, 5, 6, 7, 11, 103]);
    expected.extend(tally::answered("thousands of biases", &[0, 5, 6, 7]));
    Comparison::over(count, seed, expected, |comparison, seed| {
        for (name, call) in counted(seed) {
            let (answer, found) = compare_call(&Plain, other, &call);
            if second::needs(&call.text).is_ok() {
                comparison.count(format!("{name} answered {answer}"), 1);
            }
            comparison.judge(seed, found, || {
                tally::leave(&format!("{seed}-biases.inx"), &call.text)
            });
        }
        comparison.judge(seed, judge(other, seed), || ());
    })
}

/// The biases that a text was made from, and its maps, which the blocks do not change.
fn judge<L: Biases + Boundary>(library: &L, seed: u64) -> Option<String> {
    let (_, set, text, found) = good(seed);
    let mut lent = Lent {
        satellites: vec![7; SIZES[0] * found.satellites.len() + 1],
        stations: vec![7; SIZES[1] * found.stations.len() + 1],
        names: vec![7; SIZES[2] * found.stations.len() + 1],
        counts: vec![7; 3],
        place: vec![7; 3],
    };
    let answer = library.biases(&text, &mut lent);
    let expected = Lent {
        satellites: [found.satellites.as_flattened(), &[7]].concat(),
        stations: found.stations.iter().flat_map(|s| s.0).chain([7]).collect(),
        names: found.stations.iter().flat_map(|s| s.1).chain([7]).collect(),
        counts: vec![
            found.satellites.len() as u64,
            found.stations.len() as u64,
            7,
        ],
        place: vec![7; 3],
    };
    if answer != 0 || lent != expected {
        return Some(format!("not the biases of the text: {answer}"));
    }
    let mut lent = boundary::Lent {
        areas: rubbish(set.needs(), 1),
        header: vec![0; HEADER],
        texts: vec![0; TEXTS],
        place: vec![0; 2],
    };
    let answer = library.read(&text, &mut lent);
    let same = lent.header == boundary::numbers_of(&set.header) && lent.areas == set.areas;
    (answer != 0 || !same).then(|| "the blocks change the maps".to_string())
}
