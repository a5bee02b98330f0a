//! How long `check` and `canon` take from bytes to answer, beside the library's own reading and writing into areas that
//! are there already. All in one process, turn about, and the fastest of many rounds counts.
//!
//!     cargo run --release --offline --example times [FILE]

use ionex::ffi::{self, Given, Lent};
use ionex::{MapSet, HEADER, TEXTS};
use ionex_cli::commands::{canon, check};
use ionex_cli::Style;
use std::hint::black_box;
use std::time::{Duration, Instant};

#[path = "../tests/common/global.rs"]
mod global;

/// The library alone, with areas and an output that are made once.
struct Plain {
    tec: Vec<i32>,
    rms: Vec<i32>,
    height: Vec<i32>,
    exponents: Vec<i32>,
    epochs: Vec<u64>,
    marks: Vec<u8>,
    header: [i64; HEADER],
    texts: [u8; TEXTS],
    out: Vec<u8>,
}

impl Plain {
    fn for_text(text: &[u8]) -> Plain {
        let maps = MapSet::read(text).expect("an accepted file");
        let areas = maps.as_areas();
        Plain {
            tec: vec![0; areas.tec.len()],
            rms: vec![0; areas.rms.len()],
            height: vec![0; areas.height.len()],
            exponents: vec![0; areas.exponents.len()],
            epochs: vec![0; areas.epochs.len()],
            marks: vec![0; areas.marks.len()],
            header: [0; HEADER],
            texts: [0; TEXTS],
            out: vec![0; maps.write().expect("a map set").len()],
        }
    }

    fn read(&mut self, text: &[u8]) {
        let lent = Lent {
            tec: &mut self.tec,
            rms: &mut self.rms,
            height: &mut self.height,
            exponents: &mut self.exponents,
            epochs: &mut self.epochs,
            marks: &mut self.marks,
            header: &mut self.header,
            texts: &mut self.texts,
        };
        assert_eq!(ffi::read(text, lent, &mut [0; 2]), 0);
    }

    fn write(&mut self) {
        let given = Given {
            header: &self.header,
            texts: &self.texts,
            tec: &self.tec,
            rms: &self.rms,
            height: &self.height,
            exponents: &self.exponents,
            epochs: &self.epochs,
            marks: &self.marks,
        };
        assert_eq!(ffi::write(given, &mut self.out, &mut [0]), 0);
    }
}

fn timed(best: &mut Duration, run: impl FnOnce()) {
    let start = Instant::now();
    run();
    *best = (*best).min(start.elapsed());
}

fn main() {
    match std::env::args().nth(1) {
        Some(file) => report(&file, &std::fs::read(&file).expect("a file")),
        None => {
            report("25 TEC maps", &global::text(false));
            report("25 TEC and 25 RMS maps", &global::text(true));
        }
    }
}

fn report(name: &str, text: &[u8]) {
    let mut plain = Plain::for_text(text);
    let [mut read, mut both, mut checked, mut canonical] = [Duration::MAX; 4];
    for _ in 0..60 {
        timed(&mut read, || plain.read(black_box(text)));
        timed(&mut checked, || {
            drop(black_box(check::answer(
                "f",
                black_box(text),
                false,
                Style::PLAIN,
            )))
        });
        timed(&mut both, || {
            plain.read(black_box(text));
            plain.write();
        });
        timed(&mut canonical, || {
            drop(black_box(canon::canonical("f", black_box(text))))
        });
    }
    let ms = |time: Duration| time.as_secs_f64() * 1000.0;
    let ratio = |one: Duration, other: Duration| one.as_secs_f64() / other.as_secs_f64();
    println!("{name}, {} bytes", text.len());
    println!(
        "  reading {:.3} ms, check {:.3} ms: {:.2}",
        ms(read),
        ms(checked),
        ratio(checked, read)
    );
    println!(
        "  reading and writing {:.3} ms, canon {:.3} ms: {:.2}",
        ms(both),
        ms(canonical),
        ratio(canonical, both)
    );
}
