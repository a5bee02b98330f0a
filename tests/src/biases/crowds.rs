//! Blocks of thousands of stations: as many as a reader may hold at a time, and one fewer or more; repeats near and
//! far, in the same block and in another, in either form of the letter; 6 and 7 before and behind a repeat.

use super::{biases_of, block, lines_of, room, station_line, value, with_blocks};
use super::{Call, Found, Station, OTHERS, TITLE};
use crate::gen;
use crate::rng::Rng;

/// How many stations the library holds at a time.
pub const CHUNK: usize = 2048;

const SIZES: [usize; 7] = [
    CHUNK - 1,
    CHUNK,
    CHUNK + 1,
    2 * CHUNK - 1,
    2 * CHUNK,
    2 * CHUNK + 1,
    3 * CHUNK + 5,
];

/// The stations of a seed.
pub fn size(seed: u64) -> usize {
    SIZES[(seed % SIZES.len() as u64) as usize]
}

/// The call of a seed.
pub fn call(seed: u64) -> Call {
    let mut rng = Rng::new(seed ^ 0x0c20_3d5e);
    let set = gen::map_set(&mut rng);
    let text = gen::text(&mut rng, &set);
    let found = Found {
        stations: stations(&mut rng, size(seed)),
        ..biases_of(&mut rng)
    };
    let mut lines = lines_of(&mut rng, &found);
    for _ in 0..rng.pick(&[0, 0, 1, 2, 3]) {
        repeat(&mut rng, &found.stations, &mut lines);
    }
    for _ in 0..rng.pick(&[0, 0, 0, 1, 2]) {
        spoil(&mut rng, &found.stations, &mut lines);
    }
    let blocks = blocks(&mut rng, lines);
    Call {
        lent: room(&mut rng, &found, false),
        text: with_blocks(&mut rng, &text, blocks),
    }
}

/// So many stations, their names in rising, falling or no order.
fn stations(rng: &mut Rng, count: usize) -> Vec<Station> {
    let mut keys: Vec<usize> = (0..count).collect();
    match rng.below(4) {
        0 => {}
        1 => keys.reverse(),
        _ => rng.shuffle(&mut keys),
    }
    let front = rng.pick(&["", "S", "BRUS 13101M004"]);
    // Where both systems share names, two keys make one name.
    let shared = rng.once_in(2);
    keys.into_iter()
        .map(|key| {
            let (system, number) = match shared {
                true => (b"GR"[key % 2], key / 2),
                false => (rng.pick(b"GR"), key),
            };
            let mut name = [b' '; 20];
            let text = format!("{front}{number}");
            name[..text.len()].copy_from_slice(text.as_bytes());
            ([i32::from(system), value(rng), value(rng)], name)
        })
        .collect()
}

/// A place among so many, mostly near the ends of a chunk.
fn place(rng: &mut Rng, count: usize) -> usize {
    let places = [
        0,
        1,
        CHUNK - 2,
        CHUNK - 1,
        CHUNK,
        2 * CHUNK - 1,
        2 * CHUNK,
        count - 1,
        rng.below(count),
        rng.below(count),
    ];
    rng.pick(&places).min(count - 1)
}

/// A station given again behind its own record; the letter may have its other form.
fn repeat(rng: &mut Rng, stations: &[Station], lines: &mut Vec<Vec<u8>>) {
    let (given, before) = (place(rng, stations.len()), place(rng, stations.len()));
    let own = line_of(lines, &stations[given]);
    let behind = match rng.below(3) {
        0 => lines.len(),
        _ => line_of(lines, &stations[before]),
    };
    let line = station_line(rng, stations[given]);
    lines.insert(behind.max(own + 1), line);
}

/// Where a station's record stands.
fn line_of(lines: &[Vec<u8>], ([system, ..], name): &Station) -> usize {
    let is_own = |line: &Vec<u8>| {
        let same_system = (line[3] == b'R') == (*system == i32::from(b'R'));
        line[60..].starts_with(b"STATION") && same_system && line[6..26] == *name
    };
    let found = lines.iter().position(is_own);
    found.expect("each station has a line")
}

/// A record with 6 or 7.
fn spoil(rng: &mut Rng, stations: &[Station], lines: &mut Vec<Vec<u8>>) {
    let station = stations[place(rng, stations.len())];
    let at = line_of(lines, &stations[place(rng, stations.len())]);
    let mut line = station_line(rng, station);
    match rng.once_in(2) {
        true => line[26] = b'x',
        false => line[3] = b'E',
    }
    let behind = rng.below(2);
    lines.insert(at + behind, line);
}

/// The lines in one to three blocks, another block between.
fn blocks(rng: &mut Rng, mut lines: Vec<Vec<u8>>) -> Vec<Vec<Vec<u8>>> {
    let mut blocks = Vec::new();
    for _ in 0..rng.below(3) {
        let rest = lines.split_off(rng.below(lines.len()));
        blocks.push(block(rng, TITLE, &lines));
        let other = rng.pick(&OTHERS);
        blocks.push(block(rng, other, &rest[..1]));
        lines = rest;
    }
    blocks.push(block(rng, TITLE, &lines));
    blocks
}
