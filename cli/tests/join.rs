//! `ionex join`: joined texts by hand and by the second program, and files that do not fit.

mod common;

use common::global::{self, record};
use common::peer::Peer;
use common::{example, ionex, ionex_given, Folder};
use std::fs;

/// Of two rows and three columns: hour of the day, first TEC value and RMS value; the other TEC values count on.
type Map = (u64, i32, Option<i32>);

/// The canonical text of such maps.
fn small(run_by: &str, interval: u64, maps: &[Map]) -> Vec<u8> {
    let hour = |map: &Map| {
        format!(
            "  2000     1{:6}{:6}     0     0",
            1 + map.0 / 24,
            map.0 % 24
        )
    };
    let mut lines = vec![
        record(
            "     1.1            IONOSPHERE MAPS     GNS",
            "IONEX VERSION / TYPE",
        ),
        record(
            &format!("program             {run_by:<20}1-jan-00 00:00"),
            "PGM / RUN BY / DATE",
        ),
        record(&hour(&maps[0]), "EPOCH OF FIRST MAP"),
        record(&hour(&maps[maps.len() - 1]), "EPOCH OF LAST MAP"),
        record(&format!("{interval:6}"), "INTERVAL"),
        record(&format!("{:6}", maps.len()), "# OF MAPS IN FILE"),
        record("  COSZ", "MAPPING FUNCTION"),
        record("    20.0", "ELEVATION CUTOFF"),
        record("carrier phase", "OBSERVABLES USED"),
        record("  6371.0", "BASE RADIUS"),
        record("     2", "MAP DIMENSION"),
        record("   400.0 400.0   0.0", "HGT1 / HGT2 / DHGT"),
        record("    10.0   0.0 -10.0", "LAT1 / LAT2 / DLAT"),
        record("     0.0  20.0  10.0", "LON1 / LON2 / DLON"),
        record("", "END OF HEADER"),
    ];
    for (at, map) in maps.iter().enumerate() {
        let values = [0, 1, 2, 3, 4, 5].map(|more| map.1 + more);
        put_map(&mut lines, "TEC", at, Some(hour(map)), values);
    }
    for (at, map) in maps.iter().enumerate() {
        if let Some(rms) = map.2 {
            put_map(&mut lines, "RMS", at, None, [rms; 6]);
        }
    }
    lines.push(record("", "END OF FILE"));
    global::joined(&lines)
}

fn put_map(
    lines: &mut Vec<String>,
    kind: &str,
    at: usize,
    epoch: Option<String>,
    values: [i32; 6],
) {
    let number = format!("{:6}", at + 1);
    lines.push(record(&number, &format!("START OF {kind} MAP")));
    lines.extend(epoch.map(|epoch| record(&epoch, "EPOCH OF CURRENT MAP")));
    for (latitude, row) in [("    10.0", &values[..3]), ("     0.0", &values[3..])] {
        let opening = format!("{latitude}   0.0  20.0  10.0 400.0");
        lines.push(record(&opening, "LAT/LON1/LON2/DLON/H"));
        lines.push(row.iter().map(|value| format!("{value:5}")).collect());
    }
    lines.push(record(&number, &format!("END OF {kind} MAP")));
}

/// The maker of small texts makes the example that was written by hand, but for its RMS map.
#[test]
fn small_texts_are_canonical() {
    let text = small("agency", 7200, &[(0, 1, None), (2, 11, None)]);
    let example = String::from_utf8(example("accepted-canonical.inx")).expect("ASCII");
    let (maps, _) = example
        .split_once("     2                                                      START OF RMS")
        .expect("RMS");
    assert_eq!(
        String::from_utf8(text).expect("ASCII"),
        format!("{maps}{}\n", record("", "END OF FILE"))
    );
}

/// The shared map is the later file's, TEC and RMS, and so are the texts.
#[test]
fn two_by_hand() {
    let folder = Folder::new();
    let early = folder.file(
        "early.inx",
        &small("early", 7200, &[(0, 1, Some(7)), (2, 11, Some(8))]),
    );
    let late = folder.file(
        "late.inx",
        &small("late", 7200, &[(2, 101, None), (4, 111, Some(9))]),
    );
    let expected = small(
        "late",
        7200,
        &[(0, 1, Some(7)), (2, 101, None), (4, 111, Some(9))],
    );
    assert_eq!(ionex(&["join", &early, &late]).done().as_bytes(), expected);
    let out = folder.file("out.inx", b"old");
    assert_eq!(ionex(&["join", &early, &late, "-o", &out]).done(), "");
    assert_eq!(fs::read(&out).expect("OUT"), expected);
    assert_eq!(ionex(&["join", "-o", "-", &early, &late]).out, expected);
    let text = fs::read(&late).expect("late");
    assert_eq!(ionex_given(&text, &["join", &early, "-"]).out, expected);
    assert_eq!(folder.names(), ["early.inx", "late.inx", "out.inx"]);
    // One of the files may be written over.
    assert_eq!(ionex(&["join", &early, &late, "-o", &late]).done(), "");
    assert_eq!(fs::read(&late).expect("late"), expected);
}

/// Descriptions are the later file's, none where it has none.
#[test]
fn descriptions() {
    let folder = Folder::new();
    let described = |text: Vec<u8>, bodies: &[&str]| {
        let text = String::from_utf8(text).expect("ASCII");
        let mut lines: Vec<String> = text.lines().map(str::to_string).collect();
        lines.splice(2..2, bodies.iter().map(|body| record(body, "DESCRIPTION")));
        global::joined(&lines)
    };
    let early = small("early", 7200, &[(0, 1, None), (2, 11, None)]);
    let late = small("late", 7200, &[(2, 101, None), (4, 111, None)]);
    let both = small(
        "late",
        7200,
        &[(0, 1, None), (2, 101, None), (4, 111, None)],
    );
    for (ours, theirs) in [
        (&["old", "older"][..], &["new", "", "newer"][..]),
        (&[], &["new"]),
        (&["old"; 20], &[]),
    ] {
        let first = folder.file("early.inx", &described(early.clone(), ours));
        let second = folder.file("late.inx", &described(late.clone(), theirs));
        let expected = described(both.clone(), theirs);
        assert_eq!(ionex(&["join", &first, &second]).out, expected);
    }
}

/// An RMS map that only the dropped map had is gone; intervals that differ are 0.
#[test]
fn what_is_not_kept() {
    let folder = Folder::new();
    let early = folder.file(
        "early.inx",
        &small("early", 7200, &[(0, 1, None), (2, 11, Some(8))]),
    );
    let late = folder.file(
        "late.inx",
        &small("late", 3600, &[(2, 101, None), (3, 111, None)]),
    );
    let expected = small("late", 0, &[(0, 1, None), (2, 101, None), (3, 111, None)]);
    assert_eq!(ionex(&["join", &early, &late]).done().as_bytes(), expected);
}

/// Seven days of a small file, all at once and in other groupings.
#[test]
fn seven_days_in_any_grouping() {
    let folder = Folder::new();
    let day = |day: u64| -> Vec<Map> {
        (0..=4)
            .map(|map| {
                (
                    24 * day + 6 * map,
                    (100 * day + 10 * map) as i32,
                    (map > 2).then_some(day as i32),
                )
            })
            .collect()
    };
    let names: Vec<String> = (0..7)
        .map(|number| {
            folder.file(
                &format!("{number}.inx"),
                &small(&format!("day {number}"), 21600, &day(number)),
            )
        })
        .collect();
    let mut maps: Vec<Map> = Vec::new();
    for number in 0..7 {
        maps.pop();
        maps.extend(day(number));
    }
    let expected = small("day 6", 21600, &maps);
    let words: Vec<&str> = [
        &["join"],
        names
            .iter()
            .map(String::as_str)
            .collect::<Vec<_>>()
            .as_slice(),
    ]
    .concat();
    assert_eq!(ionex(&words).done().as_bytes(), expected);
    // The last two first, and the first of each before that.
    let mut right = names[6].clone();
    for number in (0..6).rev() {
        let out = folder.path(&format!("from-{number}.inx"));
        assert_eq!(
            ionex(&["join", &names[number], &right, "-o", &out]).done(),
            ""
        );
        right = out;
    }
    assert_eq!(fs::read(&right).expect("joined"), expected);
    let (front, back) = (folder.path("front.inx"), folder.path("back.inx"));
    assert_eq!(
        ionex(&["join", &names[0], &names[1], &names[2], "-o", &front]).done(),
        ""
    );
    assert_eq!(
        ionex(&["join", &names[3], &names[4], &names[5], &names[6], "-o", &back]).done(),
        ""
    );
    assert_eq!(ionex(&["join", &front, &back]).done().as_bytes(), expected);
}

/// Two full-size days, by the second program.
#[test]
fn agrees_with_the_second_program() {
    let folder = Folder::new();
    let first = global::text(true);
    // The same values a day later, without RMS maps.
    let shifted = String::from_utf8(global::text(false)).expect("ASCII");
    let shifted = shifted
        .replace("  2010    12     5", "  2010    12     6")
        .replace("  2010    12     4", "  2010    12     5");
    let second = shifted.into_bytes();
    let expected = Peer::read(&first)
        .expect("accepted")
        .joined(&Peer::read(&second).expect("accepted"));
    let (first, second) = (
        folder.file("first.inx", &first),
        folder.file("second.inx", &second),
    );
    let ran = ionex(&["join", &first, &second]);
    assert_eq!((ran.status, ran.err.as_str()), (0, ""));
    assert!(ran.out == expected.expect("joined"));
    let checked = ionex_given(&ran.out, &["check", "-"]);
    assert_eq!(
        checked.done(),
        "standard input: ok, 49 TEC and 24 RMS maps, 71 × 73, 2010-12-04 00:00:00 to 2010-12-06 00:00:00\n"
    );
}

/// OUT stays, nothing is printed, and the two files are named with what does not fit.
#[test]
fn files_that_do_not_fit() {
    let folder = Folder::new();
    let text = |hours: &[u64]| {
        small(
            "x",
            0,
            &hours
                .iter()
                .map(|hour| (*hour, 1, None))
                .collect::<Vec<_>>(),
        )
    };
    let a = folder.file("a.inx", &text(&[0, 2]));
    let b = folder.file("b.inx", &text(&[2, 4]));
    let c = folder.file("c.inx", &text(&[5, 6]));
    let out = folder.file("out.inx", b"old");
    let edited = |name: &str, from: &str, to: &str| {
        let text = String::from_utf8(text(&[4, 6])).expect("ASCII");
        assert!(text.contains(from), "{from}");
        folder.file(name, text.replace(from, to).as_bytes())
    };
    let east = edited("east.inx", "   0.0  20.0  10.0", " 100.0 120.0  10.0");
    let radius = edited("radius.inx", "  6371.0", "  6378.0");
    let layer = edited("layer.inx", " 400.0", " 450.0");
    let grids = "refused 40: the grids, dimensions, heights or base radii differ";
    let epochs = "refused 41: the last epoch of the first set is not the first of the second";
    for (files, words) in [
        (&[&a, &b, &c][..], format!("{b} and {c}: {epochs}: 2000-01-01 04:00:00 and 2000-01-01 05:00:00\n")),
        (&[&b, &a], format!("{b} and {a}: {epochs}: 2000-01-01 04:00:00 and 2000-01-01 00:00:00; the other way round they meet\n")),
        (&[&a, &b, &radius], format!("{b} and {radius}: {grids}: base radius 6371.0 and 6378.0\n")),
        (&[&b, &layer, &a], format!("{b} and {layer}: {grids}: heights 400.0 to 400.0 by 0.0 and 450.0 to 450.0 by 0.0\n")),
        (&[&b, &east], format!("{b} and {east}: {grids}: longitudes 0.0 to 20.0 by 10.0 and 100.0 to 120.0 by 10.0\n")),
    ] {
        let mut words_given = vec!["join", "-o", &out];
        words_given.extend(files.iter().map(|file| file.as_str()));
        let ran = ionex(&words_given);
        ran.failed(1, &words);
        assert_eq!((ran.text(), fs::read(&out).expect("OUT").as_slice()), ("", b"old".as_slice()));
    }
}

/// 300 maps are the most; all files that make too many are named.
#[test]
fn too_many_maps() {
    let folder = Folder::new();
    let file = |name: &str, hours: std::ops::RangeInclusive<u64>| {
        let maps: Vec<Map> = hours.map(|hour| (hour, 1, None)).collect();
        folder.file(name, &small("x", 3600, &maps))
    };
    let (a, b) = (file("a.inx", 0..=150), file("b.inx", 150..=299));
    let c = file("c.inx", 299..=300);
    assert_eq!(
        ionex(&["join", &a, &b])
            .done()
            .lines()
            .filter(|line| line.ends_with("START OF TEC MAP"))
            .count(),
        300
    );
    let words = format!("{a}, {b} and {c}: refused 42: the joined set would have too many maps or values: 301 maps of at most 300\n");
    ionex(&["join", &a, &b, &c]).failed(1, &words);
}

#[test]
fn files_that_are_refused_or_missing() {
    let good = "tests/examples/accepted-canonical.inx";
    let ran = ionex(&["join", good, "tests/examples/refused-07.inx"]);
    assert_eq!((ran.status, ran.text()), (1, ""));
    assert!(
        ran.err
            .starts_with("tests/examples/refused-07.inx:3:13: refused 7: "),
        "{}",
        ran.err
    );
    ionex(&["join", good, "no-such-file.inx"]).failed(2, "ionex: no-such-file.inx: no such file\n");
}
