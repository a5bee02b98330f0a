//! Every export with its areas right at forbidden pages (`fenced`): every prefix of two files, every byte of one changed,
//! every length of each area, and headers and indexes that promise more than is there. The second program says what is
//! right. A call that touches the number past one of its areas, in a process of its own, must be seen to end it.

use crate::archive::FUNCTIONS;
use crate::biases::{self, Biases};
use crate::boundary::{self, Asked, Boundary, Given, Lent, Plain, HEADER, NEEDS, RECORD, TEXTS};
use crate::explains::{Explains, EXPLAINED, LACKING};
use crate::fenced::{Fenced, Touch};
use crate::gen;
use crate::indexes::{self, Indexes, Kept};
use crate::many::{Asking, Chosen, Many};
use crate::pages::Side;
use crate::program;
use crate::rng::Rng;
use crate::set::{rubbish, MapSet};
use crate::tally::Tally;
use crate::weeks::{Weeks, WEEK};
use second::biases::SIZES;
use second::index::Node;
use second::week::ROW;
use second::Reading;
use std::fs;
use std::os::unix::process::ExitStatusExt;
use std::process::{Command, ExitStatus, Stdio};

/// All functions of the library.
pub trait All: Boundary + Many + Explains + Weeks + Indexes + Biases {}

impl<L: Boundary + Many + Explains + Weeks + Indexes + Biases> All for L {}

/// The first has all kinds of maps, CR LF and an aux block, the second code biases.
const FILES: [&str; 2] = ["accepted-2d-freedoms", "accepted-version-1"];

/// What SIGSEGV is.
const FORBIDDEN: i32 = 11;

/// A file, and what the calls are given and lent for it, of exactly the lengths needed.
pub struct Sample {
    name: &'static str,
    text: Vec<u8>,
    lent: Lent,
    given: Given,
    asked: Asked,
    out: usize,
    rows: usize,
    later: Given,
    joined: Lent,
    index: Kept,
    node: Node,
    biases: biases::Lent,
}

impl Sample {
    pub fn of(name: &'static str) -> Sample {
        let text = fs::read(program::folder().join(format!("{name}.inx"))).expect("an example");
        let needs = second::needs(&text).expect("an accepted text");
        let mut areas = rubbish(needs, 1);
        let Reading::Accepted { header, texts } = second::read(&text, &mut areas.lent()) else {
            panic!("{name} is refused");
        };
        let set = MapSet {
            header,
            texts,
            areas,
        };
        let later = gen::later(&mut Rng::new(1), &set, 2);
        let grid = set.grid();
        let maps = grid.maps + later.grid().maps - 1;
        let values = maps * grid.values();
        let joined = [values, values, values, 3 * maps * grid.blocks(), maps, maps];
        Sample {
            name,
            lent: lent(needs),
            given: boundary::given(&set),
            asked: Asked {
                kind: 0,
                method: 1,
                layer: 0,
                lat: 10 * header.latitudes.last as i32,
                lon: 10 * header.longitudes.last as i32,
                second: header.last_epoch,
            },
            out: second::write::canonical(&set.header, &set.texts, &set.areas.view()).len(),
            rows: 3 * ROW * (grid.maps + 1),
            later: boundary::given(&later),
            joined: lent(joined),
            index: indexes::made(&text),
            node: Node {
                kind: 0,
                map: grid.maps as u64,
                layer: grid.layers as u64 - 1,
                row: grid.rows as u64 - 1,
                column: grid.columns as u64 - 1,
            },
            biases: bias_room(&text),
            text,
        }
    }
}

/// How many questions are asked in one call.
const MANY: usize = 4;

impl Sample {
    /// Questions at the first and at the last epoch, inside and outside.
    fn many(&self) -> (Chosen, Asking) {
        let Asked {
            kind,
            method,
            layer,
            lat,
            lon,
            second,
        } = self.asked;
        let first = self.given.areas.epochs[0];
        let chosen = Chosen {
            kind,
            method,
            layer,
        };
        let asking = Asking {
            lats: vec![lat, lat, i32::MAX, lat],
            lons: vec![lon, lon, lon, i32::MIN],
            seconds: vec![second, first, second, first - 1],
        };
        (chosen, asking)
    }
}

fn lent(needs: [usize; 6]) -> Lent {
    Lent {
        areas: rubbish(needs, 2),
        header: vec![7; HEADER],
        texts: vec![7; TEXTS],
        place: vec![7; 2],
    }
}

fn bias_room(text: &[u8]) -> biases::Lent {
    let of = |length: [usize; 2]| biases::Lent {
        satellites: vec![7; SIZES[0] * length[0]],
        stations: vec![7; SIZES[1] * length[1]],
        names: vec![7; SIZES[2] * length[1]],
        counts: vec![7; 2],
        place: vec![7; 2],
    };
    let mut much = of([200; 2]);
    assert_eq!(Plain.biases(text, &mut much), 0);
    of([much.counts[0] as usize, much.counts[1] as usize])
}

type Export = fn(&dyn All, &Sample) -> u64;

/// A good call of each export.
const EXPORTS: [(&str, Export); 15] = [
    ("ionex_read", |library, sample| {
        library.read(&sample.text, &mut sample.lent.clone())
    }),
    ("ionex_needs", |library, sample| {
        library.needs(&sample.text, &mut [0; NEEDS], &mut [0; 2])
    }),
    ("ionex_ask", |library, sample| {
        library.ask(&sample.given, &sample.asked, &mut [0])
    }),
    ("ionex_ask_all", |library, sample| {
        let (chosen, asking) = sample.many();
        let (given, answers, values) = (&sample.given, &mut [0; MANY], &mut [0; MANY]);
        library.ask_all(given, &chosen, &asking, answers, values)
    }),
    ("ionex_explain", |library, sample| {
        let (given, asked) = (&sample.given, &sample.asked);
        library.explain(given, asked, &mut [0; EXPLAINED], &mut [0; LACKING])
    }),
    ("ionex_tecu_delay", |library, _| {
        library.tecu_delay(1000, 1.5e9, &mut [0.0; RECORD])
    }),
    ("ionex_delay", |library, sample| {
        library.delay(&sample.given, &sample.asked, 1.5e9, &mut [0.0; RECORD])
    }),
    ("ionex_moved", |library, _| library.moved(1, 1, &mut [0])),
    ("ionex_join", |library, sample| {
        library.join(&sample.given, &sample.later, &mut sample.joined.clone())
    }),
    ("ionex_write", |library, sample| {
        library.write(&sample.given, &mut vec![0; sample.out], &mut [0])
    }),
    ("ionex_week_add", |library, sample| {
        let mut rows = vec![0; sample.rows];
        library.week_add(&mut [0; WEEK], &sample.given, &mut rows, &mut [0; 2])
    }),
    ("ionex_index", |library, sample| {
        library.index(&sample.text, &mut sample.index.clone(), &mut [0; 2])
    }),
    ("ionex_indexed_node", |library, sample| {
        library.indexed_node(&sample.text, &sample.index, &sample.node, &mut [0; 2])
    }),
    ("ionex_indexed_block", |library, sample| {
        library.indexed_block(&sample.text, &sample.index, &sample.node, &mut [0; 2])
    }),
    ("ionex_biases", |library, sample| {
        library.biases(&sample.text, &mut sample.biases.clone())
    }),
];

/// One of these cut to every length that an area of it can have.
fn cuts<S: Clone, T>(of: &S, area: fn(&mut S) -> &mut Vec<T>) -> Vec<S> {
    let length = area(&mut of.clone()).len();
    let cut = |length| {
        let mut cut = of.clone();
        area(&mut cut).truncate(length);
        cut
    };
    (0..=length).map(cut).collect()
}

/// A header's numbers with one of them another, that may promise more than is there.
fn promises(header: &[i64]) -> Vec<Vec<i64>> {
    let mut all = Vec::new();
    for at in 0..header.len() {
        let old = header[at];
        let numbers = [
            i64::MIN,
            -1,
            0,
            1,
            2,
            64,
            300,
            1 << 16,
            1 << 32,
            i64::MAX,
            old + 1,
            old - 1,
            old * 2,
            -old,
        ];
        for number in numbers {
            let mut header = header.to_vec();
            header[at] = number;
            all.push(header);
        }
    }
    all
}

/// The set with one area of every length, or with another header.
fn sets(given: &Given) -> Vec<Given> {
    let mut all = cuts(given, |given| &mut given.header);
    all.extend(cuts(given, |given| &mut given.texts));
    all.extend(cuts(given, |given| &mut given.areas.tec));
    all.extend(cuts(given, |given| &mut given.areas.rms));
    all.extend(cuts(given, |given| &mut given.areas.height));
    all.extend(cuts(given, |given| &mut given.areas.exponents));
    all.extend(cuts(given, |given| &mut given.areas.epochs));
    all.extend(cuts(given, |given| &mut given.areas.marks));
    all.extend(promises(&given.header).into_iter().map(|header| Given {
        header,
        ..given.clone()
    }));
    all
}

/// What is lent with one area of every length.
fn rooms(lent: &Lent) -> Vec<Lent> {
    let mut all = cuts(lent, |lent| &mut lent.areas.tec);
    all.extend(cuts(lent, |lent| &mut lent.areas.rms));
    all.extend(cuts(lent, |lent| &mut lent.areas.height));
    all.extend(cuts(lent, |lent| &mut lent.areas.exponents));
    all.extend(cuts(lent, |lent| &mut lent.areas.epochs));
    all.extend(cuts(lent, |lent| &mut lent.areas.marks));
    all.extend(cuts(lent, |lent| &mut lent.header));
    all.extend(cuts(lent, |lent| &mut lent.texts));
    all.extend(cuts(lent, |lent| &mut lent.place));
    all
}

/// The index with one area of every length, with another header, or with every position at its last block.
fn kept(index: &Kept, sample: &Sample) -> Vec<Kept> {
    let mut all = cuts(index, |index| &mut index.header);
    all.extend(cuts(index, |index| &mut index.texts));
    all.extend(cuts(index, |index| &mut index.positions));
    all.extend(cuts(index, |index| &mut index.exponents));
    all.extend(cuts(index, |index| &mut index.marks));
    all.extend(promises(&index.header).into_iter().map(|header| Kept {
        header,
        ..index.clone()
    }));
    let length = sample.text.len() as u64;
    let wide = [u64::MAX, u64::MAX - 80, 1 << 63, 1 << 32];
    for position in (0..length + 3).chain(wide) {
        let mut index = index.clone();
        index.positions.fill(position);
        all.push(index);
    }
    all
}

struct Guards {
    fenced: Fenced,
    tally: Tally,
}

impl Guards {
    /// One call, by the second program and by the library on either side.
    fn same<T: PartialEq>(&mut self, what: &str, call: impl Fn(&dyn All) -> T) {
        let right = call(&Plain);
        for _ in 0..2 {
            let good = call(&self.fenced) == right;
            self.note(good, what);
        }
    }

    /// The readers of a text.
    fn readers(&mut self, sample: &Sample, text: &[u8]) {
        self.same("read", |library| {
            let mut lent = sample.lent.clone();
            (library.read(text, &mut lent), lent)
        });
        self.same("needs", |library| {
            let (mut needs, mut place) = ([7; NEEDS], [7; 2]);
            (library.needs(text, &mut needs, &mut place), needs, place)
        });
        self.same("index", |library| {
            let (mut index, mut place) = (sample.index.clone(), [7; 2]);
            (library.index(text, &mut index, &mut place), index, place)
        });
        self.same("biases", |library| {
            let mut lent = sample.biases.clone();
            (library.biases(text, &mut lent), lent)
        });
        self.indexed(text, &sample.index, &sample.node);
    }

    fn indexed(&mut self, text: &[u8], index: &Kept, node: &Node) {
        self.same("indexed_node", |library| {
            let mut found = [7; 2];
            (library.indexed_node(text, index, node, &mut found), found)
        });
        self.same("indexed_block", |library| {
            let mut bounds = [7; 2];
            (
                library.indexed_block(text, index, node, &mut bounds),
                bounds,
            )
        });
    }

    /// The functions that are given a set.
    fn givens(&mut self, sample: &Sample, given: &Given) {
        self.same("write", |library| {
            let (mut out, mut count) = (vec![7; sample.out], [7]);
            (library.write(given, &mut out, &mut count), out, count)
        });
        for (kind, method) in (0..3).flat_map(|kind| (0..4).map(move |method| (kind, method))) {
            let asked = Asked {
                kind,
                method,
                ..sample.asked
            };
            self.same("ask", |library| {
                let mut value = [7];
                (library.ask(given, &asked, &mut value), value)
            });
            let (chosen, asking) = sample.many();
            let chosen = Chosen {
                kind,
                method,
                ..chosen
            };
            self.same("ask_all", |library| {
                let (mut answers, mut values) = ([7; MANY], [7; MANY]);
                let answer = library.ask_all(given, &chosen, &asking, &mut answers, &mut values);
                (answer, answers, values)
            });
            self.same("explain", |library| {
                let (mut nodes, mut lacking) = ([7; EXPLAINED], [7; LACKING]);
                let answer = library.explain(given, &asked, &mut nodes, &mut lacking);
                (answer, nodes, lacking)
            });
        }
        self.same("delay", |library| {
            let mut record = [7.0; RECORD];
            let answer = library.delay(given, &sample.asked, 1.5e9, &mut record);
            (answer, record)
        });
        self.same("week_add", |library| {
            let (mut week, mut rows, mut place) = ([0; WEEK], vec![7; sample.rows], [7; 2]);
            let answer = library.week_add(&mut week, given, &mut rows, &mut place);
            (answer, week, rows, place)
        });
        self.joined(given, &sample.later, &sample.joined);
        self.joined(&sample.given, given, &sample.joined);
    }

    fn joined(&mut self, earlier: &Given, later: &Given, lent: &Lent) {
        self.same("join", |library| {
            let mut lent = lent.clone();
            (library.join(earlier, later, &mut lent), lent)
        });
    }

    /// Areas to be filled, of every length.
    fn lengths(&mut self, sample: &Sample) {
        for lent in rooms(&sample.lent) {
            self.same("read", |library| {
                let mut lent = lent.clone();
                (library.read(&sample.text, &mut lent), lent)
            });
        }
        for lent in rooms(&sample.joined) {
            self.joined(&sample.given, &sample.later, &lent);
        }
        let mut entries = cuts(&sample.index, |index| &mut index.positions);
        entries.extend(cuts(&sample.index, |index| &mut index.exponents));
        entries.extend(cuts(&sample.index, |index| &mut index.marks));
        for index in entries {
            self.same("index", |library| {
                let (mut index, mut place) = (index.clone(), [7; 2]);
                let answer = library.index(&sample.text, &mut index, &mut place);
                (answer, index, place)
            });
        }
        let mut areas = cuts(&sample.biases, |lent| &mut lent.satellites);
        areas.extend(cuts(&sample.biases, |lent| &mut lent.stations));
        areas.extend(cuts(&sample.biases, |lent| &mut lent.names));
        areas.extend(cuts(&sample.biases, |lent| &mut lent.counts));
        areas.extend(cuts(&sample.biases, |lent| &mut lent.place));
        for lent in areas {
            self.same("biases", |library| {
                let mut lent = lent.clone();
                (library.biases(&sample.text, &mut lent), lent)
            });
        }
        for length in 0..=sample.out + 1 {
            self.same("write", |library| {
                let (mut out, mut count) = (vec![7; length], [7]);
                let answer = library.write(&sample.given, &mut out, &mut count);
                (answer, out, count)
            });
        }
        for length in 0..=sample.rows + 1 {
            self.same("week_add", |library| {
                let (mut week, mut rows, mut place) = ([0; WEEK], vec![7; length], [7; 2]);
                let answer = library.week_add(&mut week, &sample.given, &mut rows, &mut place);
                (answer, week, rows, place)
            });
        }
        self.results(sample);
    }

    /// The areas of a few numbers, of every length.
    fn results(&mut self, sample: &Sample) {
        for length in 0..=WEEK + 1 {
            self.same("needs", |library| {
                let (mut needs, mut place) = (vec![7; length], [7; 2]);
                let answer = library.needs(&sample.text, &mut needs, &mut place);
                (answer, needs, place)
            });
            self.same("week_add", |library| {
                let (mut week, mut rows) = (vec![0; length], vec![7; sample.rows]);
                let answer = library.week_add(&mut week, &sample.given, &mut rows, &mut [7; 2]);
                (answer, week, rows)
            });
        }
        for (slice, length) in (0..5).flat_map(|slice| (0..MANY).map(move |n| (slice, n))) {
            self.same("slices of questions", |library| {
                let (chosen, mut asking) = sample.many();
                let (mut answers, mut values) = (vec![7; MANY], vec![7; MANY]);
                match slice {
                    0 => asking.lats.truncate(length),
                    1 => asking.lons.truncate(length),
                    2 => asking.seconds.truncate(length),
                    3 => answers.truncate(length),
                    _ => values.truncate(length),
                }
                let given = &sample.given;
                let answer = library.ask_all(given, &chosen, &asking, &mut answers, &mut values);
                (answer, answers, values)
            });
        }
        for length in 0..=EXPLAINED + 1 {
            self.same("nodes", |library| {
                let (mut nodes, mut lacking) = (vec![7; length], [7; LACKING]);
                let (given, asked) = (&sample.given, &sample.asked);
                let answer = library.explain(given, asked, &mut nodes, &mut lacking);
                (answer, nodes, lacking)
            });
        }
        for length in 0..=LACKING + 1 {
            for kind in 0..3 {
                let asked = Asked {
                    kind,
                    ..sample.asked
                };
                self.same("lacking", |library| {
                    let (mut nodes, mut lacking) = ([7; EXPLAINED], vec![7; length]);
                    let answer = library.explain(&sample.given, &asked, &mut nodes, &mut lacking);
                    (answer, nodes, lacking)
                });
            }
        }
        for length in 0..5 {
            let few = vec![7; length];
            self.same("place of needs", |library| {
                let mut place = few.clone();
                let answer = library.needs(&sample.text, &mut [7; NEEDS], &mut place);
                (answer, place)
            });
            self.same("place of index", |library| {
                let (mut index, mut place) = (sample.index.clone(), few.clone());
                (library.index(&sample.text, &mut index, &mut place), place)
            });
            self.same("place of week_add", |library| {
                let (mut place, mut rows) = (few.clone(), vec![7; sample.rows]);
                let week = &mut [0; WEEK];
                (
                    library.week_add(week, &sample.given, &mut rows, &mut place),
                    place,
                )
            });
            self.same("count", |library| {
                let mut count = few.clone();
                let out = &mut vec![7; sample.out];
                (library.write(&sample.given, out, &mut count), count)
            });
            self.same("bounds", |library| {
                let (index, mut bounds) = (&sample.index, few.clone());
                let answer = library.indexed_block(&sample.text, index, &sample.node, &mut bounds);
                (answer, bounds)
            });
            self.same("moved", |library| {
                let mut moved = few.clone();
                (library.moved(1, 1, &mut moved), moved)
            });
            self.same("value", |library| {
                let mut value = vec![7; length];
                (library.ask(&sample.given, &sample.asked, &mut value), value)
            });
            self.same("found", |library| {
                let (index, mut found) = (&sample.index, vec![7; length]);
                let answer = library.indexed_node(&sample.text, index, &sample.node, &mut found);
                (answer, found)
            });
            self.same("record", |library| {
                let mut record = vec![7.0; length];
                (library.tecu_delay(1000, 1.5e9, &mut record), record)
            });
            self.same("record of a question", |library| {
                let mut record = vec![7.0; length];
                let answer = library.delay(&sample.given, &sample.asked, 1.5e9, &mut record);
                (answer, record)
            });
        }
    }

    /// Each export is called right, and ends its process where it touches what is past any of its areas.
    fn touches(&mut self, sample: &Sample) {
        let mut seen = 0;
        for (name, export) in EXPORTS {
            if !FUNCTIONS.contains(&(name, true)) {
                continue;
            }
            self.same(name, |library| export(library, sample));
            let areas = self.fenced.areas();
            self.tally.note(areas > 0 && export(&Plain, sample) == 0);
            for side in [Side::Before, Side::Behind] {
                let good = child(name, side, None).success();
                self.note(good, &format!("{name} does not end well"));
                for (area, write) in (0..areas).flat_map(|area| [(area, false), (area, true)]) {
                    let status = child(name, side, Some(Touch { area, write }));
                    let ended = status.signal() == Some(FORBIDDEN);
                    self.note(ended, &format!("NOT FOUND {name} {side:?} {area} {write}"));
                    seen += u64::from(ended);
                }
            }
        }
        println!("{seen} calls that touch what is past an area were ended");
    }

    fn note(&mut self, good: bool, complaint: &str) {
        self.tally
            .judge("WRONG at a forbidden page", (!good).then_some(complaint));
    }
}

/// All of it. The last line says where a call was, should it end the process.
pub fn compare() -> Tally {
    let mut guards = Guards {
        fenced: Fenced::default(),
        tally: Tally::default(),
    };
    let samples = FILES.map(Sample::of);
    for sample in &samples {
        println!("every prefix of {}", sample.name);
        for end in 0..=sample.text.len() {
            guards.readers(sample, &sample.text[..end]);
        }
    }
    let [_, last] = &samples;
    println!("every byte of {} changed", last.name);
    for at in 0..last.text.len() {
        let byte = last.text[at];
        for other in [byte ^ 1, b' ', b'\n', b'9', 0xff] {
            let mut text = last.text.clone();
            text[at] = other;
            guards.readers(last, &text);
        }
    }
    for sample in &samples {
        println!(
            "areas of every length, and other headers, of {}",
            sample.name
        );
        guards.lengths(sample);
        for given in sets(&sample.given) {
            guards.givens(sample, &given);
        }
        for later in sets(&sample.later) {
            guards.joined(&sample.given, &later, &sample.joined);
        }
        for index in kept(&sample.index, sample) {
            guards.indexed(&sample.text, &index, &sample.node);
        }
    }
    println!("calls that touch what is past an area");
    guards.touches(last);
    guards.tally
}

// ---- a planted fault, in a process of its own ----

fn child(export: &str, side: Side, touch: Option<Touch>) -> ExitStatus {
    let (area, how) = match touch {
        Some(Touch { area, write: true }) => (area.to_string(), "write"),
        Some(Touch { area, write: false }) => (area.to_string(), "read"),
        None => ("none".to_string(), "read"),
    };
    let side = match side {
        Side::Before => "before",
        Side::Behind => "behind",
    };
    Command::new(std::env::current_exe().expect("this program"))
        .args(["touch", export, side, &area, how])
        .stdout(Stdio::null())
        .stderr(Stdio::null())
        .status()
        .expect("a process")
}

/// A call of an export that touches what is past an area, or `none`: the answer, if the process has not ended.
pub fn touch(export: &str, side: &str, area: &str, how: &str) -> Option<u64> {
    let (_, call) = EXPORTS.into_iter().find(|(name, _)| *name == export)?;
    let side = match side {
        "before" => Side::Before,
        "behind" => Side::Behind,
        _ => return None,
    };
    let touch = match area {
        "none" => None,
        area => Some(Touch {
            area: area.parse().ok()?,
            write: how == "write",
        }),
    };
    Some(call(&Fenced::from(side, touch), &Sample::of(FILES[1])))
}

#[cfg(test)]
mod tests {
    use super::*;

    #[test]
    fn every_export_has_a_good_call() {
        let sample = Sample::of(FILES[1]);
        let mut names: Vec<&str> = FUNCTIONS.iter().map(|row| row.0).collect();
        names.sort_unstable();
        let mut exports: Vec<&str> = EXPORTS.iter().map(|row| row.0).collect();
        exports.sort_unstable();
        assert_eq!(names, exports);
        for (name, export) in EXPORTS {
            assert_eq!(export(&Plain, &sample), 0, "{name}");
        }
    }
}
