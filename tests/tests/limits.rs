//! A map set of exactly 2,000,000 values: 100 maps, 50 rows, 400 columns.

use compare::library;
use compare::set::{rubbish, MapSet};
use second::{Buffers, Reading, Refusal};

fn rec(body: &str, label: &str) -> String {
    format!("{body:<60}{label}\n")
}

/// The value of a place in the area: any two rows, columns or maps differ.
fn value(at: usize) -> i32 {
    (at % 99_991) as i32
}

/// The canonical text; map `i` starts at minute `i` (from 0) of 2000-01-01.
fn text() -> String {
    let mut text = String::new();
    let epoch = |map: usize| format!("  2000     1     1{:>6}{:>6}     0", map / 60, map % 60);
    text += &rec(
        "     1.1            IONOSPHERE MAPS     TOP",
        "IONEX VERSION / TYPE",
    );
    text += &rec("", "PGM / RUN BY / DATE");
    text += &rec(&epoch(0), "EPOCH OF FIRST MAP");
    text += &rec(&epoch(99), "EPOCH OF LAST MAP");
    text += &rec("    60", "INTERVAL");
    text += &rec("   100", "# OF MAPS IN FILE");
    text += &rec("", "MAPPING FUNCTION");
    text += &rec("     0.0", "ELEVATION CUTOFF");
    text += &rec("", "OBSERVABLES USED");
    text += &rec("  6371.0", "BASE RADIUS");
    text += &rec("     2", "MAP DIMENSION");
    text += &rec("     0.0   0.0   0.0", "HGT1 / HGT2 / DHGT");
    text += &rec("     0.0   4.9   0.1", "LAT1 / LAT2 / DLAT");
    text += &rec("     0.0 199.5   0.5", "LON1 / LON2 / DLON");
    text += &rec("", "END OF HEADER");
    for map in 0..100 {
        let number = format!("{:>6}", map + 1);
        text += &rec(&number, "START OF TEC MAP");
        text += &rec(&epoch(map), "EPOCH OF CURRENT MAP");
        for row in 0..50 {
            let opening = format!("     {}.{}   0.0 199.5   0.5   0.0", row / 10, row % 10);
            text += &rec(&opening, "LAT/LON1/LON2/DLON/H");
            let first = (map * 50 + row) * 400;
            for line in 0..25 {
                let places = first + 16 * line..first + 16 * (line + 1);
                text.extend(places.map(|at| format!("{:>5}", value(at))));
                text.push('\n');
            }
        }
        text += &rec(&number, "END OF TEC MAP");
    }
    text += &rec("", "END OF FILE");
    text
}

#[test]
fn two_million_values() {
    let text = text();
    for library in library::all() {
        let mut areas = rubbish([2_000_001, 0, 0, 15_000, 100, 100], 1);
        let guard = areas.tec[2_000_000];
        let answer = library.read(text.as_bytes(), &mut areas);
        let Reading::Accepted { header, texts } = answer else {
            panic!("{answer:?}");
        };
        assert_eq!(areas.tec[2_000_000], guard);
        assert!(areas.tec[..2_000_000]
            .iter()
            .copied()
            .eq((0..2_000_000).map(value)));
        let set = MapSet {
            header,
            texts,
            areas,
        };
        let mut out = vec![0; text.len()];
        assert_eq!(library.write(&set, &mut out), Ok(text.len()));
        assert!(out == text.as_bytes());
    }
}

/// The first or the last maps of the set: `from` to `to`, one at least.
fn part(set: &MapSet, from: usize, to: usize) -> MapSet {
    let mut part = set.clone();
    let (size, blocks) = (50 * 400, 50);
    part.areas = Buffers {
        tec: set.areas.tec[from * size..to * size].to_vec(),
        exponents: vec![-1; 3 * (to - from) * blocks],
        epochs: set.areas.epochs[from..to].to_vec(),
        marks: vec![0; to - from],
        ..Buffers::default()
    };
    part.header.maps = (to - from) as i64;
    part.header.first_epoch = set.areas.epochs[from];
    part.header.last_epoch = set.areas.epochs[to - 1];
    part
}

/// Two halves that share a map make the whole again; one map more is beyond the limit.
#[test]
fn joined_to_two_million_values() {
    let mut areas = rubbish([2_000_000, 0, 0, 15_000, 100, 100], 1);
    let Reading::Accepted { header, texts } = second::read(text().as_bytes(), &mut areas.lent())
    else {
        panic!("refused");
    };
    let whole = MapSet {
        header,
        texts,
        areas,
    };
    let (first, second) = (part(&whole, 0, 50), part(&whole, 49, 100));
    // A map once more, a minute after the last.
    let mut longer = second.clone();
    longer.areas.tec.extend_from_within(..50 * 400);
    longer.areas.exponents.extend([-1; 150]);
    longer.areas.epochs.push(whole.header.last_epoch + 60);
    longer.areas.marks.push(0);
    longer.header.maps += 1;
    longer.header.last_epoch += 60;
    for library in library::all() {
        let mut areas = rubbish(whole.areas.lengths(), 1);
        let answer = library.join(&first, &second, &mut areas);
        assert_eq!(answer, Reading::Accepted { header, texts });
        assert!(areas == whole.areas);
        let before = areas.clone();
        let answer = library.join(&first, &longer, &mut areas);
        assert_eq!(answer, Reading::Refused(Refusal::Bare { number: 42 }));
        assert!(areas == before);
    }
}

#[test]
fn one_column_more() {
    let text = text().replace("199.5", "200.0");
    let expected = Refusal::Place {
        number: 7,
        line: 15,
        column: 0,
    };
    for library in library::all() {
        let mut areas = rubbish([0; 6], 1);
        let answer = library.read(text.as_bytes(), &mut areas);
        assert_eq!(answer, Reading::Refused(expected));
    }
}
