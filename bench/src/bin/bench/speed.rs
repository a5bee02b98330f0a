//! The table of ratios. Library and plain Rust work in turn, on areas cleared first where they are read into.

use crate::timing::{micros, nanos, report_alone, timed, Clock, Pair};
use bench::ask::{ask, Asker};
use bench::calendar::seconds;
use bench::files;
use bench::join::join;
use bench::plain::{self, read};
use bench::week;
use bench::write::write;
use compare::archive::Archive;
use compare::biases::{self, Biases};
use compare::boundary::{self, Asked, Boundary, Given, Lent, HEADER, TEXTS};
use compare::explains::Explains;
use compare::indexes::{self, Indexes};
use compare::many::{Asking, Chosen, Many};
use compare::set::{rubbish, MapSet};
use compare::weeks::{Weeks, WEEK};
use second::biases::Room;
use second::index::{Entries, Node};
use second::week::Week;
use second::{Buffers, Question};
use std::hint::black_box;
use std::time::Duration;

/// Rounds of whole files, of a header with many lines, of asking, and questions in a round of asking.
const ROUNDS: usize = 200;
const HEADER_ROUNDS: usize = 20;
const ASKING_ROUNDS: usize = 50;
const QUESTIONS: usize = 1000;

pub fn lent(needs: [usize; 6]) -> Lent {
    Lent {
        areas: rubbish(needs, 1),
        header: vec![0; HEADER],
        texts: vec![0; TEXTS],
        place: vec![0; 2],
    }
}

fn clear(areas: &mut Buffers) {
    areas.tec.fill(0);
    areas.rms.fill(0);
    areas.height.fill(0);
    areas.exponents.fill(0);
    areas.epochs.fill(0);
    areas.marks.fill(0);
}

/// The areas that a text needs.
pub fn needs(text: &[u8]) -> [usize; 6] {
    let mut needs = [0; 6];
    let answer = Archive.needs(text, &mut needs, &mut [0; 2]);
    assert_eq!(answer, 0, "the library refuses the file");
    needs.map(|need| need as usize)
}

/// The map set of a file, for the library and for plain Rust.
pub fn map_set(text: &str) -> (Given, MapSet) {
    let mut areas = rubbish(needs(text.as_bytes()), 1);
    let (header, texts) = read(text.as_bytes(), &mut areas.lent()).expect("an accepted file");
    let set = MapSet {
        header,
        texts,
        areas,
    };
    (boundary::given(&set), set)
}

// ---- reading ----

fn time_reading(text: &str, rounds: usize, clock: Clock) -> Pair {
    let text = text.as_bytes();
    let needs = needs(text);
    let (mut ours, mut plain) = (lent(needs), rubbish(needs, 1));
    let mut best = [Duration::MAX; 2];
    for _ in 0..rounds {
        clear(&mut ours.areas);
        let answer = clock.time(&mut best[0], || Archive.read(black_box(text), &mut ours));
        assert_eq!(answer, 0, "the library refuses the file");
        clear(&mut plain);
        let found = clock.time(&mut best[1], || read(black_box(text), &mut plain.lent()));
        assert!(found.is_ok(), "the plain reader refuses the file");
    }
    assert!(ours.areas == plain, "the two readers disagree");
    Pair(best)
}

/// The ratio of the file of TEC maps.
pub fn reading() -> f64 {
    let tec = files::global(false);
    let ratio = time_reading(&tec, ROUNDS, Clock::Wall).report("read 25 TEC maps, LF");
    let files = [
        ("with CR LF", files::with_cr()),
        ("with 25 RMS maps", files::global(true)),
        ("version 1.0, 20 DESCRIPTION lines", files::version_1_0()),
        ("with EXPONENT before every block", files::with_exponents()),
        ("5 maps of 5 layers", files::three_dimensional()),
    ];
    for (name, text) in files {
        time_reading(&text, ROUNDS, Clock::Wall).report(name);
    }
    let text = tec.as_bytes();
    let pair = Pair::of(
        ROUNDS,
        Clock::Wall,
        || Archive.needs(black_box(text), &mut [0; 6], &mut [0; 2]) == 0,
        || plain::check_text(black_box(text)).is_ok(),
    );
    pair.report("needs of the 25 TEC maps");
    ratio
}

/// What each COMMENT line of a header takes, on the processor.
pub fn header_line() {
    const LINES: usize = 100_000;
    let without = time_reading(&files::global(false), HEADER_ROUNDS, Clock::Processor);
    let with = time_reading(
        &files::with_comments(LINES),
        HEADER_ROUNDS,
        Clock::Processor,
    );
    let each = |k: usize| with.0[k].saturating_sub(without.0[k]);
    Pair([each(0), each(1)]).report_each("a COMMENT line", LINES);
}

// ---- asking ----

/// Places and seconds all over a set.
fn questions(set: &MapSet, method: i64) -> Vec<Question> {
    let first = set.header.first_epoch;
    let span = set.header.last_epoch - first;
    (0..QUESTIONS as i64)
        .map(|k| Question {
            kind: 0,
            method,
            layer: 0,
            latitude: k * 7919 % 17_501 - 8750,
            longitude: k * 104_729 % 36_000 - 18_000,
            second: first + k as u64 * 15_485_863 % (span + 1),
        })
        .collect()
}

fn sum<T>(questions: &[T], value: impl Fn(&T) -> i32) -> i64 {
    questions
        .iter()
        .map(|q| i64::from(value(black_box(q))))
        .sum()
}

fn ask_library(given: &Given, asked: &Asked) -> i32 {
    let mut value = [0];
    assert_eq!(Archive.ask(given, asked, &mut value), 0);
    value[0]
}

pub fn asking() {
    let (given, set) = map_set(&files::global(false));
    let plain_given = set.given();
    for method in [1, 2] {
        let questions = questions(&set, method);
        let asked: Vec<Asked> = questions.iter().map(boundary::asked).collect();
        let library = || sum(&asked, |q| ask_library(&given, q));
        let plain = || {
            sum(&questions, |q| {
                ask(black_box(&plain_given), q).expect("a value")
            })
        };
        assert_eq!(library(), plain(), "the two answers disagree");
        let pair = Pair::of(ASKING_ROUNDS, Clock::Wall, library, plain);
        pair.report_each(&format!("one question by method {method}"), QUESTIONS);
    }
    asking_more(&given, &set);
}

/// The delay of an answer, where it came from, and a node by an index.
fn asking_more(given: &Given, set: &MapSet) {
    const CARRIER: f64 = 1_575_420_000.0;
    let plain_given = set.given();
    let questions = questions(set, 1);
    let asked: Vec<Asked> = questions.iter().map(boundary::asked).collect();
    let delay = |q: &Asked| {
        let mut record = [0.0; 3];
        assert_eq!(Archive.delay(given, black_box(q), CARRIER, &mut record), 0);
        record[2]
    };
    let plain_delay = |q: &Question| {
        let value = ask(black_box(&plain_given), black_box(q)).expect("a value");
        f64::from(value) / 1000.0 * 4.03e17 / (CARRIER * CARRIER)
    };
    let pair = Pair::of(
        ASKING_ROUNDS,
        Clock::Wall,
        || asked.iter().map(delay).sum::<f64>(),
        || questions.iter().map(plain_delay).sum::<f64>(),
    );
    pair.report_each("one delay", QUESTIONS);
    let explain = |q: &Asked| {
        let mut nodes = [0; 51];
        let answer = Archive.explain(given, black_box(q), &mut nodes, &mut [0; 5]);
        assert_eq!(answer, 0);
    };
    let mut best = Duration::MAX;
    for _ in 0..ASKING_ROUNDS {
        timed(&mut best, || asked.iter().for_each(explain));
    }
    report_alone("one explanation", nanos(best) / QUESTIONS as f64, "ns");
}

/// Many questions in one call, for each method; plain Rust judges the set once too.
pub fn many() {
    let (given, set) = map_set(&files::global(false));
    for method in 0..4 {
        let name = format!("each of {QUESTIONS} questions by method {method}");
        time_many(&given, &set, method).report_each(&name, QUESTIONS);
    }
}

pub fn time_many(given: &Given, set: &MapSet, method: i64) -> Pair {
    let questions = questions(set, method);
    let asked: Vec<Asked> = questions.iter().map(boundary::asked).collect();
    let asking = Asking {
        lats: asked.iter().map(|asked| asked.lat).collect(),
        lons: asked.iter().map(|asked| asked.lon).collect(),
        seconds: asked.iter().map(|asked| asked.second).collect(),
    };
    let chosen = Chosen {
        kind: 0,
        method: method as u64,
        layer: 0,
    };
    let (mut answers, mut values) = ([77; QUESTIONS], [0; QUESTIONS]);
    let plain_given = set.given();
    let plain = || {
        let asker = Asker::of(black_box(&plain_given), method).expect("a map set");
        sum(&questions, |q| asker.ask(q).expect("a value"))
    };
    let expected = plain();
    let library = || {
        let given = black_box(given);
        let answer = Archive.ask_all(given, &chosen, &asking, &mut answers, &mut values);
        assert_eq!((answer, answers), (0, [0; QUESTIONS]));
        let all: i64 = values.iter().copied().map(i64::from).sum();
        assert_eq!(all, expected, "the two answers disagree");
        all
    };
    Pair::of(ASKING_ROUNDS, Clock::Wall, library, plain)
}

// ---- an epoch moved ----

/// The first and the last second of each year from 1900 to 2199.
fn ends_of_years() -> Vec<u64> {
    let first = |year| seconds([year, 1, 1, 0, 0, 0]).expect("a date");
    let last = |year| seconds([year, 12, 31, 23, 59, 59]).expect("a date");
    (1900..2200)
        .flat_map(|year| [first(year), last(year)])
        .collect()
}

/// Each end of a year moved by 0 seconds: twice a second into its date, and twice back.
pub fn moving() {
    let ends = ends_of_years();
    let mut best = Duration::MAX;
    for _ in 0..ROUNDS {
        timed(&mut best, || {
            for &end in &ends {
                let mut moved = [0];
                assert_eq!(Archive.moved(black_box(end), 0, &mut moved), 0);
                assert_eq!(moved[0], end, "a date is not its own second");
            }
        });
    }
    report_alone("one epoch moved", nanos(best) / ends.len() as f64, "ns");
}

// ---- whole sets ----

pub fn writing() {
    for (name, rms) in [("25 TEC maps", false), ("25 TEC and 25 RMS maps", true)] {
        let text = files::global(rms);
        let (given, set) = map_set(&text);
        time_writing(&given, &set, text.len(), ROUNDS, Clock::Wall)
            .report(&format!("write {name}"));
    }
}

pub fn time_writing(given: &Given, set: &MapSet, room: usize, rounds: usize, clock: Clock) -> Pair {
    let [mut ours, mut plain] = [(); 2].map(|()| vec![0; room]);
    let mut count = [0];
    let pair = Pair::of(
        rounds,
        clock,
        || Archive.write(black_box(given), &mut ours, &mut count),
        || match write(black_box(&set.given()), &mut plain) {
            Ok(_) => 0,
            Err(refusal) => u64::from(refusal.number()),
        },
    );
    assert!(count[0] > 0 && ours == plain, "the two texts differ");
    pair
}

pub fn week() {
    for (name, rms) in [("25 TEC maps", false), ("25 TEC and 25 RMS maps", true)] {
        let (given, set) = map_set(&files::global(rms));
        time_week(&given, &set, ROUNDS, Clock::Wall).report(&format!("add {name} to a week"));
    }
}

pub fn time_week(given: &Given, set: &MapSet, rounds: usize, clock: Clock) -> Pair {
    let [mut ours, mut plain] = [(); 2].map(|()| vec![0; 15 * 301]);
    let pair = Pair::of(
        rounds,
        clock,
        || {
            let mut week = [0; WEEK];
            Archive.week_add(&mut week, black_box(given), &mut ours, &mut [0; 2]) == 0
        },
        || week::add(&mut Week::default(), black_box(&set.given()), &mut plain).is_ok(),
    );
    assert!(ours == plain, "the two weeks differ");
    pair
}

/// Two days joined.
pub fn joining() {
    let (a, earlier) = map_set(&files::global(true));
    let (b, later) = map_set(&files::of_day(2, true));
    let room = files::NEEDS.map(|need| 2 * need);
    let (mut ours, mut plain) = (lent(room), rubbish(room, 1));
    let mut best = [Duration::MAX; 2];
    for _ in 0..ROUNDS {
        clear(&mut ours.areas);
        let answer = timed(&mut best[0], || {
            Archive.join(black_box(&a), black_box(&b), &mut ours)
        });
        assert_eq!(answer, 0, "the library does not join the days");
        clear(&mut plain);
        let (a, b) = (earlier.given(), later.given());
        let found = timed(&mut best[1], || {
            join(black_box(&a), black_box(&b), &mut plain.lent())
        });
        assert!(found.is_ok_and(|(header, _)| header.maps == 49));
    }
    assert!(ours.areas == plain, "the two disagree");
    Pair(best).report("join two days of 25 TEC and 25 RMS maps");
}

// ---- beside a text ----

pub fn index() {
    let text = files::global(false);
    let text = text.as_bytes();
    let mut kept = indexes::made(text);
    let mut plain = kept.clone();
    let pair = Pair::of(
        ROUNDS,
        Clock::Wall,
        || Archive.index(black_box(text), &mut kept, &mut [0; 2]) == 0,
        || {
            let mut entries = Entries {
                positions: &mut plain.positions,
                exponents: &mut plain.exponents,
                marks: &mut plain.marks,
            };
            plain::make_index(black_box(text), &mut entries).is_ok()
        },
    );
    assert!(kept == plain, "the two indexes differ");
    pair.report("the index of 25 TEC maps");
    let time = time_node(text, &kept);
    report_alone("one node by the index", time, "ns");
}

/// Nanoseconds for a node of the first block, whatever is answered. The clock is right for a look of nanoseconds, the
/// processor for one of milliseconds, and each tells too much of the other.
pub fn time_node(text: &[u8], kept: &indexes::Kept) -> f64 {
    let node = Node {
        kind: 0,
        map: 1,
        layer: 0,
        row: 0,
        column: 17,
    };
    let mut best = Duration::MAX;
    for clock in [Clock::Wall, Clock::Processor] {
        for _ in 0..ASKING_ROUNDS {
            clock.time(&mut best, || {
                Archive.indexed_node(black_box(text), kept, &node, &mut [0; 2])
            });
        }
    }
    nanos(best)
}

/// The biases of 32 satellites and so many stations.
pub fn biases(stations: usize) {
    let text = files::with_biases(stations);
    let text = text.as_bytes();
    let mut ours = biases::Lent {
        satellites: vec![0; 4 * 32],
        stations: vec![0; 3 * stations],
        names: vec![0; 20 * stations],
        counts: vec![0; 2],
        place: vec![0; 2],
    };
    let mut plain = ours.clone();
    let pair = Pair::of(
        ASKING_ROUNDS,
        Clock::Wall,
        || Archive.biases(black_box(text), &mut ours) == 0,
        || {
            let mut room = Room {
                satellites: &mut plain.satellites,
                stations: &mut plain.stations,
                names: &mut plain.names,
            };
            bench::biases::biases(black_box(text), &mut room).is_ok()
        },
    );
    assert!(ours.counts[1] == stations as u64 && ours.names == plain.names);
    pair.report(&format!("biases of 32 satellites and {stations} stations"));
    let needs = Pair::of(
        ASKING_ROUNDS,
        Clock::Wall,
        || Archive.needs(black_box(text), &mut [0; 6], &mut [0; 2]),
        || 0,
    );
    report_alone("the needs of that text", micros(needs.0[0]), "us");
}
