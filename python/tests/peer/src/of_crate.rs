//! What the crate for Rust says.

use ionex::{Epoch, Kind, MapSet, Method, Place, Refusal};
use std::hint::black_box;
use std::time::{Duration, Instant};

pub fn meanings() -> Vec<u8> {
    let lines = Refusal::numbers().map(|number| {
        let words = Refusal::meaning_of(number).expect("a number of its own");
        format!("{number} {words}\n")
    });
    lines.collect::<String>().into_bytes()
}

/// Of a refused text its words; else of a question its explanation or the words of its refusal, all in one line.
pub fn words(text: &[u8], question: &[i64]) -> String {
    let told = match MapSet::read(text) {
        Err(refusal) => refusal.to_string(),
        Ok(maps) => {
            let [kind, method, layer, lat, lon, second] = question[..6] else {
                panic!("a question has six numbers");
            };
            let kind = Kind::ALL[kind as usize];
            let method = METHODS[method as usize];
            let place = Place::new(lat as i32, lon as i32);
            let time = Epoch::from_seconds(second as u64);
            match maps.explain(kind, method, layer as u64, place, time) {
                Ok(explanation) => explanation.to_string(),
                Err(refusal) => refusal.to_string(),
            }
        }
    };
    told.replace('\n', "|")
}

const METHODS: [Method; 4] = [
    Method::Nearest,
    Method::Between,
    Method::Sun,
    Method::NearestSun,
];

pub fn time(text: &[u8], rounds: u32) -> Vec<u8> {
    let mut best = Duration::MAX;
    for _ in 0..rounds {
        let start = Instant::now();
        drop(black_box(MapSet::read(black_box(text))));
        best = best.min(start.elapsed());
    }
    format!("{}\n", best.as_nanos()).into_bytes()
}
