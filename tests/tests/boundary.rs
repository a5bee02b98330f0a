//! What the C boundary promises, in so many words: by the library where it is linked, else by the second program.

use compare::archive::Archive;
use compare::boundary::{
    Asked, Boundary, Given, Lent, FLAGS, HEADER, OLD_HEADER, OLD_TEXTS, TEXTS,
};
use compare::explains::{Explains, EXPLAINED, LACKING};
use compare::many::{Asking, Chosen, Many};
use compare::set::{overlaid, rubbish};
use std::fs;
use std::path::Path;

fn text() -> Vec<u8> {
    let folder = Path::new(env!("CARGO_MANIFEST_DIR")).join("examples");
    fs::read(folder.join("accepted-3d.inx")).expect("the example")
}

fn lent(lengths: [usize; 6]) -> Lent {
    Lent {
        areas: rubbish(lengths, 7),
        header: vec![-77; HEADER],
        texts: vec![b'?'; TEXTS],
        place: vec![7_777; 2],
    }
}

/// What the example needs: n maps of L layers, R rows and C columns.
fn needs(header: &[i64]) -> [usize; 6] {
    let lines = |at: usize| ((header[at + 1] - header[at]) / header[at + 2] + 1) as usize;
    let maps = header[6] as usize;
    let blocks = maps * lines(10) * lines(13);
    let values = blocks * lines(16);
    [values, values, values, 3 * blocks, maps, maps]
}

/// The example's map set, in areas of exactly the lengths needed.
fn set() -> Given {
    let mut first = lent([10_000; 6]);
    assert_eq!(Archive.read(&text(), &mut first), 0);
    let mut exact = lent(needs(&first.header));
    assert_eq!(Archive.read(&text(), &mut exact), 0);
    assert_eq!(exact.place, [7_777; 2], "place as found");
    Given {
        header: exact.header,
        texts: exact.texts,
        areas: exact.areas,
    }
}

fn question(set: &Given) -> Asked {
    Asked {
        kind: 0,
        method: 1,
        layer: 0,
        lat: (set.header[13] * 10) as i32,
        lon: (set.header[16] * 10) as i32,
        second: set.header[3] as u64,
    }
}

fn write(set: &Given) -> (u64, Vec<u8>) {
    let mut out = vec![0; 10_000];
    let mut count = [0];
    let answer = Archive.write(set, &mut out, &mut count);
    out.truncate(count[0] as usize);
    (answer, out)
}

fn ask(set: &Given, asked: &Asked) -> u64 {
    Archive.ask(set, asked, &mut [0])
}

#[test]
fn the_example_serves() {
    let set = set();
    assert_eq!(write(&set).0, 0);
    assert_eq!(ask(&set, &question(&set)), 0);
}

/// "a number that its field cannot hold is 31", at each place, also where its lower bits are the right number.
#[test]
fn numbers_that_no_field_can_hold() {
    let set = set();
    let asked = question(&set);
    for place in (0..HEADER).filter(|place| !FLAGS.contains(place)) {
        let old = set.header[place];
        for wide in [
            i64::MIN,
            i64::MAX,
            -1_000_000,
            old ^ i64::MIN,
            old + (1 << 32),
            old - (1 << 32),
            old + (1 << 48),
        ] {
            let mut changed = set.clone();
            changed.header[place] = wide;
            assert_eq!(write(&changed).0, 31, "writing, place {place}: {wide}");
            assert_eq!(ask(&changed, &asked), 31, "asking, place {place}: {wide}");
        }
    }
}

/// "any number but 0 says that the record stands"
#[test]
fn any_flag_but_0() {
    let mut set = set();
    for flag in FLAGS {
        set.header[flag] = 1;
    }
    let (answer, text) = write(&set);
    assert_eq!(answer, 0);
    for flag in FLAGS {
        for number in [2, -1, 256, 1 << 32, i64::MIN, i64::MAX] {
            let mut changed = set.clone();
            changed.header[flag] = number;
            assert_eq!(write(&changed), (0, text.clone()), "flag {flag}: {number}");
            assert_eq!(ask(&changed, &question(&set)), 0);
        }
        // Its numbers must be 0 where a record does not stand.
        let mut without = set.clone();
        without.header[flag] = 0;
        without.header[flag + 1] = 5;
        assert_eq!(write(&without).0, 31);
        assert_eq!(ask(&without, &question(&set)), 31);
    }
}

/// The lengths of header, texts and result, and the answer that they give.
const SHORT: [([usize; 3], u64); 8] = [
    ([HEADER - 1, TEXTS, 2], 101),
    ([HEADER, TEXTS - 1, 2], 102),
    ([HEADER, TEXTS, 0], 103),
    ([0, 0, 0], 101),
    ([HEADER, 0, 0], 102),
    ([HEADER - 1, TEXTS, 0], 101),
    // A caller of before the descriptions.
    ([OLD_HEADER, OLD_TEXTS, 2], 101),
    ([HEADER, OLD_TEXTS, 2], 102),
];

#[test]
fn own_areas_too_short_for_reading() {
    let needs = needs(&set().header);
    let one_short = ([HEADER, TEXTS, 1], 103);
    for ([header, texts, place], answer) in SHORT.into_iter().chain([one_short]) {
        // Neither a bad text nor a short area is looked at before.
        for (text, lengths) in [(text(), needs), (text(), [0; 6]), (b"x".to_vec(), needs)] {
            let mut lent = lent(lengths);
            lent.header.truncate(header);
            lent.texts.truncate(texts);
            lent.place.truncate(place);
            let before = lent.clone();
            assert_eq!(Archive.read(&text, &mut lent), answer);
            assert!(lent == before, "something was written");
        }
    }
}

#[test]
fn own_areas_too_short_for_writing_and_asking() {
    let set = set();
    let mut no_set = set.clone();
    no_set.header[0] = 0;
    for ([header, texts, result], answer) in SHORT {
        for set in [&set, &no_set] {
            let mut given = set.clone();
            given.header.truncate(header);
            given.texts.truncate(texts);
            let mut out = [b'?'; 100];
            let mut count = vec![7_777; result.min(1)];
            assert_eq!(Archive.write(&given, &mut out, &mut count), answer);
            assert!(out == [b'?'; 100] && count.iter().all(|&n| n == 7_777));
            let mut value = vec![-7_777; result.min(1)];
            for kind in [0, 99] {
                let asked = Asked {
                    kind,
                    ..question(set)
                };
                assert_eq!(Archive.ask(&given, &asked, &mut value), answer);
                assert!(value.iter().all(|&n| n == -7_777));
            }
        }
    }
}

#[test]
fn own_areas_too_short_for_delays() {
    let set = set();
    for ([header, texts, result], answer) in SHORT {
        let mut given = set.clone();
        given.header.truncate(header);
        given.texts.truncate(texts);
        // A record needs three numbers; two are too few.
        let mut record = vec![-7.5; if result == 0 { 2 } else { 3 }];
        for carrier in [1.5e9, 0.0] {
            let found = Archive.delay(&given, &question(&set), carrier, &mut record);
            assert_eq!(found, answer);
            assert!(record.iter().all(|&number| number == -7.5));
        }
    }
    for length in 0..3 {
        let mut record = vec![-7.5; length];
        for carrier in [1.5e9, 0.0] {
            assert_eq!(Archive.tecu_delay(1000, carrier, &mut record), 103);
            assert_eq!(record, vec![-7.5; length]);
        }
    }
    let mut record = [-7.5; 5];
    assert_eq!(Archive.tecu_delay(1000, 0.0, &mut record), 25);
    assert_eq!(record, [-7.5; 5]);
    assert_eq!(Archive.tecu_delay(1000, 1.0e9, &mut record), 0);
    assert_eq!(record, [1.0e9, 1.0, 0.403, -7.5, -7.5]);
}

/// As many questions as the shortest slice has, each answered as if it were alone; the refusals of the whole come first, and
/// there is no 103.
#[test]
fn many_questions() {
    let set = set();
    let one = question(&set);
    let mut chosen = Chosen {
        kind: one.kind,
        method: one.method,
        layer: one.layer,
    };
    let asking = Asking {
        lats: vec![one.lat, one.lat, 9_001, one.lat],
        lons: vec![one.lon; 5],
        seconds: vec![one.second, one.second - 1, one.second, one.second],
    };
    let mut value = [0];
    assert_eq!(Archive.ask(&set, &one, &mut value), 0);
    let (mut answers, mut values) = ([77; 3], [-7; 6]);
    let all = |given: &Given, chosen: &Chosen, answers: &mut [u8], values: &mut [i32]| {
        Archive.ask_all(given, chosen, &asking, answers, values)
    };
    assert_eq!(all(&set, &chosen, &mut answers, &mut values), 0);
    assert_eq!(answers, [0, 20, 21]);
    assert_eq!(values, [value[0], -7, -7, -7, -7, -7]);
    assert_eq!(all(&set, &chosen, &mut [], &mut values), 0);
    let mut given = set.clone();
    given.header[0] = 0;
    assert_eq!(all(&given, &chosen, &mut [], &mut []), 31);
    given.texts.truncate(TEXTS - 1);
    assert_eq!(all(&given, &chosen, &mut answers, &mut values), 102);
    given.header.truncate(HEADER - 1);
    assert_eq!(all(&given, &chosen, &mut answers, &mut values), 101);
    chosen.kind = 1 << 32;
    assert_eq!(all(&set, &chosen, &mut answers, &mut values), 23);
    assert_eq!((answers, values[0]), ([0, 20, 21], value[0]));
}

#[test]
fn own_areas_too_short_for_an_explanation() {
    let set = set();
    let one_short = [
        ([HEADER, TEXTS, EXPLAINED - 1, LACKING], 103),
        ([HEADER, TEXTS, EXPLAINED, LACKING - 1], 103),
        ([HEADER, TEXTS - 1, 0, LACKING], 102),
        ([HEADER - 1, 0, EXPLAINED, 0], 101),
    ];
    for ([header, texts, nodes, lacking], answer) in one_short {
        let mut given = set.clone();
        given.header.truncate(header);
        given.texts.truncate(texts);
        for kind in [0, 2, 99] {
            let asked = Asked {
                kind,
                ..question(&set)
            };
            let (mut nodes, mut lacking) = (vec![-7; nodes], vec![7; lacking]);
            let found = Archive.explain(&given, &asked, &mut nodes, &mut lacking);
            assert_eq!(found, answer);
            assert!(nodes.iter().all(|&n| n == -7) && lacking.iter().all(|&n| n == 7));
        }
    }
    let (mut nodes, mut lacking) = ([-7; EXPLAINED + 2], [7; LACKING + 1]);
    let asked = question(&set);
    assert_eq!(Archive.explain(&set, &asked, &mut nodes, &mut lacking), 0);
    // One node, and zeros up to the last of the eight.
    assert_eq!(
        (nodes[0], nodes[1], &nodes[3..7]),
        (1, nodes[8], &[1, 0, 0, 0][..])
    );
    assert_eq!(nodes[2], nodes[7]);
    assert!(nodes[9..EXPLAINED].iter().all(|&n| n == 0));
    assert_eq!(
        (&nodes[EXPLAINED..], lacking),
        (&[-7, -7][..], [7; LACKING + 1])
    );
}

/// Each of the three headers, and each of the three texts, must be long enough.
#[test]
fn own_areas_too_short_for_joining() {
    let set = set();
    let no_room = || lent([0; 6]);
    for which in 0..3 {
        for (header, texts, answer) in [(HEADER - 1, TEXTS, 101), (HEADER, TEXTS - 1, 102)] {
            let (mut earlier, mut later, mut lent) = (set.clone(), set.clone(), no_room());
            let headers = [&mut earlier.header, &mut later.header, &mut lent.header];
            headers
                .into_iter()
                .nth(which)
                .expect("one")
                .truncate(header);
            let all = [&mut earlier.texts, &mut later.texts, &mut lent.texts];
            all.into_iter().nth(which).expect("one").truncate(texts);
            let before = lent.clone();
            assert_eq!(Archive.join(&earlier, &later, &mut lent), answer, "{which}");
            assert!(lent == before, "something was written");
        }
    }
    let mut lent = no_room();
    lent.place.truncate(1);
    assert_eq!(Archive.join(&set, &set, &mut lent), 103);
    // A set of one map ends where it begins, so that it can follow itself, but not one of a second before.
    let mut lent = no_room();
    let before = lent.clone();
    let mut before_it = set.clone();
    before_it.header[3] -= 1;
    before_it.header[4] -= 1;
    before_it.areas.epochs[0] -= 1;
    assert_eq!(Archive.join(&before_it, &set, &mut lent), 41);
    // A number that its field cannot hold.
    let mut wide = set.clone();
    wide.header[8] += 1 << 32;
    assert_eq!(Archive.join(&set, &wide, &mut lent), 31);
    assert!(lent == before, "something was written");
    assert_eq!(Archive.join(&set, &set, &mut lent), 11);
    assert_eq!(lent.place, [1, needs(&set.header)[0] as u64]);
    lent.place = before.place.clone();
    assert!(lent == before, "something was written");
}

#[test]
fn own_area_too_short_for_moving() {
    for (epoch, by) in [(0, 0), (0, -1), (u64::MAX, 0)] {
        assert_eq!(Archive.moved(epoch, by, &mut []), 103);
    }
    let mut moved = [7_777; 3];
    assert_eq!(Archive.moved(0, -1, &mut moved), 7);
    assert_eq!(moved, [7_777; 3]);
    assert_eq!(Archive.moved(10, -1, &mut moved), 0);
    assert_eq!(moved, [9, 7_777, 7_777]);
}

/// Methods 0 and 1 serve the example, which does not go round, so that 2 and 3 are 24; every other number is 23.
#[test]
fn methods() {
    let set = set();
    let answers = |method| {
        let asked = Asked {
            method,
            ..question(&set)
        };
        ask(&set, &asked)
    };
    assert_eq!([0, 1, 2, 3].map(answers), [0, 0, 24, 24]);
    for method in [4, 5, 255, 256, 257, 1 << 32, (1 << 32) + 2, u64::MAX] {
        assert_eq!(answers(method), 23, "{method}");
    }
}

/// Each of the six areas: exactly the need and more will do, one less and none at all are 11, and nothing is written.
#[test]
fn lengths_of_the_six_areas() {
    let set = set();
    let needs = needs(&set.header);
    let text = text();
    for area in 0..6 {
        for more in [1, 5] {
            let mut lengths = needs;
            lengths[area] += more;
            let mut lent = lent(lengths);
            let tail = lent.areas.clone();
            assert_eq!(Archive.read(&text, &mut lent), 0);
            assert!(
                lent.areas == overlaid(&tail, &set.areas),
                "elements past the need"
            );
        }
        for length in [needs[area] - 1, 0] {
            let mut lengths = needs;
            lengths[area] = length;
            let mut short = lent(lengths);
            let before = short.clone();
            assert_eq!(Archive.read(&text, &mut short), 11);
            assert_eq!(short.place, [area as u64 + 1, needs[area] as u64]);
            short.place = before.place.clone();
            assert!(short == before, "a refusal wrote something");
        }
    }
}

/// All six needs at once; a refusal, and an area too short, leave them as they were.
#[test]
fn needs_of_a_text() {
    let text = text();
    let expected = needs(&set().header).map(|need| need as u64);
    let mut found = [7_777; 8];
    let mut place = [8_888; 3];
    assert_eq!(Archive.needs(&text, &mut found, &mut place), 0);
    assert_eq!((&found[..6], &found[6..]), (&expected[..], &[7_777; 2][..]));
    assert_eq!(place, [8_888; 3]);
    let mut found = [7_777; 6];
    assert_eq!(Archive.needs(b"\nx", &mut found, &mut place), 3);
    assert_eq!((found, place), ([7_777; 6], [2, 61, 8_888]));
    for (needs, place) in [(5, 2), (6, 1), (0, 0), (6, 0), (0, 2)] {
        let (mut found, mut at) = (vec![7_777; needs], vec![8_888; place]);
        for text in [&text[..], b"x"] {
            assert_eq!(Archive.needs(text, &mut found, &mut at), 103);
        }
        assert_eq!((found, at), (vec![7_777; needs], vec![8_888; place]));
    }
}

/// A refusal of writing leaves the output as it was, and 31 leaves count too.
#[test]
fn refused_writings() {
    let mut set = set();
    let need = write(&set).1.len();
    for length in [0, 1, need - 1] {
        let mut out = vec![b'?'; length];
        let mut count = [7_777];
        assert_eq!(Archive.write(&set, &mut out, &mut count), 30);
        assert_eq!((count[0] as usize, out), (need, vec![b'?'; length]));
    }
    set.areas.marks[0] = 4;
    let mut out = vec![b'?'; need];
    let mut count = [7_777];
    assert_eq!(Archive.write(&set, &mut out, &mut count), 31);
    assert_eq!((count, out), ([7_777], vec![b'?'; need]));
}
