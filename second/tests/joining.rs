//! Joining: 02's eleventh and twelfth requests.

mod common;
use common::*;
use second::{join as join_sets, write, Given, Header, Refusal};

/// The base set: two maps of 2 rows and 3 columns 7200 s apart, RMS map 2 only.
fn earlier() -> Set {
    accepted(&base(), [12, 12, 0, 12, 2, 2])
}

/// A set of three maps that begins where the base set ends, 7200 s apart, with RMS map 1 and height map 3; its values
/// are 100, 101, .. and 1000 and 2000 more for RMS and height.
fn later() -> Set {
    let (mut header, mut texts, _) = earlier();
    header.code = 8;
    header.maps = 3;
    header.first_epoch = FIRST + 7200;
    header.last_epoch = FIRST + 3 * 7200;
    texts.date = [b'b'; 20];
    header.descriptions = 2;
    texts.descriptions[1] = [b'd'; 60];
    let mut own = untouched([18, 18, 18, 18, 3, 3]);
    for (at, value) in own.tec.iter_mut().enumerate() {
        *value = 100 + at as i32;
    }
    own.rms.fill(9999);
    own.height.fill(9999);
    for at in 0..6 {
        own.rms[at] = 1100 + at as i32;
        own.height[12 + at] = 2112 + at as i32;
    }
    own.exponents.fill(-1);
    own.exponents[..6].copy_from_slice(&[-3, -3, -2, -2, 0, 0]);
    own.exponents[6..8].copy_from_slice(&[-3, -2]);
    own.exponents[16..].copy_from_slice(&[0, -3]);
    own.epochs = (1..4).map(|k| FIRST + k * 7200).collect();
    own.marks = vec![1, 0, 2];
    (header, texts, own)
}

fn given(set: &Set) -> Given<'_> {
    let (header, texts, own) = set;
    Given {
        header,
        texts,
        areas: own.view(),
    }
}

fn joined(a: &Set, b: &Set, lengths: [usize; 6]) -> Result<Set, Refusal> {
    let mut own = untouched(lengths);
    match join_sets(&given(a), &given(b), &mut own.lent()) {
        Ok((header, texts)) => Ok((header, texts, own)),
        Err(refusal) => {
            assert_eq!(own, untouched(lengths), "a refusal changed an area");
            Err(refusal)
        }
    }
}

const ROOM: [usize; 6] = [200; 6];

/// The number of the refusal, 0 where there is none.
fn number(a: &Set, b: &Set) -> u8 {
    joined(a, b, ROOM).map_or_else(|refusal| refusal.number(), |_| 0)
}

#[test]
fn the_shared_map_is_the_later_sets() {
    let (a, b) = (earlier(), later());
    let (header, texts, own) = joined(&a, &b, [24, 24, 24, 24, 4, 4]).unwrap();
    let expected = Header {
        first_epoch: FIRST,
        maps: 4,
        ..b.0
    };
    assert_eq!((header, texts), (expected, b.1));
    assert_eq!((header.interval, header.last_epoch), (7200, FIRST + 21_600));
    assert_eq!(own.marks, [0, 1, 0, 2]);
    assert_eq!(
        own.epochs,
        [FIRST, FIRST + 7200, FIRST + 14_400, FIRST + 21_600]
    );
    assert_eq!(own.tec[..6], [1, 2, 3, 4, 5, 6]);
    assert_eq!(own.tec[6..], b.2.tec);
    assert_eq!(own.rms[..6], [9999; 6]);
    assert_eq!(own.rms[6..], b.2.rms);
    assert_eq!(own.height[..6], [9999; 6]);
    assert_eq!(own.height[6..], b.2.height);
    let tec = [-1, -1, -3, -3, -2, -2, 0, 0];
    let rms = [-1, -1, -3, -2, -1, -1, -1, -1];
    let height = [-1, -1, -1, -1, -1, -1, 0, -3];
    assert_eq!(own.exponents, [tec, rms, height].concat());
    // It is a map set.
    let set = (header, texts, own);
    let set = given(&set);
    let mut out = vec![0; 10_000];
    assert!(write(set.header, set.texts, &set.areas, &mut out).is_ok());
}

#[test]
fn kinds_of_the_result() {
    // RMS stands in the first set's last map only, which is dropped: no RMS area is needed.
    let (mut a, mut b) = (earlier(), later());
    b.2.marks = vec![0, 0, 2];
    b.2.rms.fill(9999);
    b.2.exponents[6..12].fill(-1);
    let (_, _, own) = joined(&a, &b, [24, 3, 24, 24, 4, 4]).unwrap();
    assert_eq!(own.rms, [UNTOUCHED; 3]);
    assert_eq!(own.marks, [0, 0, 0, 2]);
    // A kind that the later set lacks is absent for its maps.
    a.2.marks = vec![1, 1];
    a.2.rms = (50..62).collect();
    let (_, _, own) = joined(&a, &b, [24, 24, 24, 24, 4, 4]).unwrap();
    assert_eq!(own.marks, [1, 0, 0, 2]);
    assert_eq!(own.rms[..6], [50, 51, 52, 53, 54, 55]);
    assert_eq!(own.rms[6..], [9999; 18]);
}

/// R: "version, code and descriptions of the joined set are the later set's".
#[test]
fn descriptions_of_the_result() {
    for (ours, theirs) in [(0, 2), (5, 2), (20, 0)] {
        let (mut a, mut b) = (earlier(), later());
        a.0.descriptions = ours;
        for line in &mut a.1.descriptions[..ours as usize] {
            line.fill(b'e');
        }
        b.0.descriptions = theirs;
        b.1.descriptions[theirs as usize..].fill([b' '; 60]);
        let (header, texts, _) = joined(&a, &b, ROOM).unwrap();
        assert_eq!(header.descriptions, theirs);
        assert_eq!(texts, b.1);
    }
}

#[test]
fn intervals() {
    let interval = |a: i64, b: i64| {
        let (mut first, mut second) = (earlier(), later());
        first.0.interval = a;
        second.0.interval = b;
        joined(&first, &second, ROOM).map(|set| set.0.interval)
    };
    assert_eq!(interval(7200, 7200), Ok(7200));
    assert_eq!(interval(7200, 0), Ok(0));
    assert_eq!(interval(0, 7200), Ok(0));
    assert_eq!(interval(0, 0), Ok(0));
    // A set of one map may have any INTERVAL; unequal ones make 0 there too.
    let one = |interval: i64| {
        let mut set = earlier();
        set.0.maps = 1;
        set.0.last_epoch = FIRST;
        set.0.interval = interval;
        set.2.marks = vec![0];
        set
    };
    let second = earlier();
    for (interval, expected) in [(7200, 7200), (900, 0), (0, 0)] {
        let set = joined(&one(interval), &second, ROOM).unwrap();
        assert_eq!((set.0.interval, set.0.maps), (expected, 2));
        assert_eq!(set.2.tec[..12], second.2.tec);
    }
    // One map after the other: the later one alone.
    let mut last = one(5);
    last.2.tec[0] = 77;
    let set = joined(&one(5), &last, ROOM).unwrap();
    assert_eq!((set.0.maps, set.0.interval, set.2.tec[0]), (1, 5, 77));
}

#[test]
fn refusals_in_order() {
    let a = earlier();
    assert_eq!(number(&a, &later()), 0);
    // Not the other way round.
    assert_eq!(number(&later(), &a), 41);
    let changes: [&dyn Fn(&mut Header); 4] = [
        &|h| h.radius += 1,
        &|h| (h.heights.first, h.heights.last) = (4001, 4001),
        &|h| (h.latitudes.first, h.latitudes.last) = (200, 100),
        &|h| (h.longitudes.first, h.longitudes.last) = (100, 300),
    ];
    for change in changes {
        let mut b = later();
        change(&mut b.0);
        assert_eq!(number(&a, &b), 40);
        // 40 before 41.
        assert_eq!(number(&b, &a), 40);
        b.2.marks[0] = 4;
        assert_eq!(number(&a, &b), 31);
        assert_eq!(number(&b, &a), 31);
    }
    // The epochs do not meet.
    let mut b = later();
    for epoch in &mut b.2.epochs {
        *epoch += 1;
    }
    b.0.first_epoch += 1;
    b.0.last_epoch += 1;
    assert_eq!(number(&a, &b), 41);
    // Values are judged as writing judges them.
    let mut b = later();
    b.2.tec[0] = 100_000;
    assert_eq!(number(&a, &b), 31);
    let mut b = later();
    b.2.rms[6] = 5;
    assert_eq!(number(&a, &b), 31);
    // Descriptions too, also those of the earlier set.
    let mut first = earlier();
    first.1.descriptions[0][0] = b'x';
    assert_eq!(number(&first, &later()), 31);
}

/// A set of so many maps of one node, a second apart.
fn many(first: u64, maps: u64) -> Set {
    let (mut header, texts, _) = earlier();
    header.latitudes.last = header.latitudes.first;
    header.longitudes.last = header.longitudes.first;
    header.interval = 1;
    header.maps = maps as i64;
    header.first_epoch = first;
    header.last_epoch = first + maps - 1;
    let n = maps as usize;
    let mut own = untouched([n, 0, 0, 3 * n, n, n]);
    own.tec = (0..maps as i32).collect();
    own.exponents.fill(-1);
    own.epochs = (first..first + maps).collect();
    own.marks.fill(0);
    (header, texts, own)
}

#[test]
fn at_most_300_maps() {
    for (a, b, expected) in [
        (150, 151, 0),
        (151, 151, 42),
        (300, 1, 0),
        (1, 300, 0),
        (300, 2, 42),
    ] {
        let (first, second) = (many(FIRST, a), many(FIRST + a - 1, b));
        let found = joined(&first, &second, [900; 6]);
        let number = found.map_or_else(|refusal| refusal.number(), |_| 0);
        assert_eq!(number, expected, "{a} {b}");
    }
    // 41 before 42.
    assert_eq!(number(&many(FIRST, 300), &many(FIRST, 300)), 41);
}

#[test]
fn short_areas() {
    let needs = [24, 24, 24, 24, 4, 4];
    for area in 0..6 {
        let mut lengths = needs;
        lengths[area] -= 1;
        let short = Refusal::Area {
            area: area as u8 + 1,
            need: needs[area] as u64,
        };
        let found = joined(&earlier(), &later(), lengths);
        assert_eq!(found.err(), Some(short));
    }
    let more = joined(&earlier(), &later(), [30, 31, 32, 33, 5, 6]).unwrap();
    assert_eq!(more.2.tec[24..], [UNTOUCHED; 6]);
    assert_eq!(more.2.exponents[24..], [UNTOUCHED; 9]);
    assert_eq!((more.2.epochs[4], more.2.marks[4]), (77, 77));
}

/// Both groupings of three sets.
fn groupings(sets: [&Set; 3]) -> [Result<Set, u8>; 2] {
    let join = |a: &Set, b: &Set| {
        let found = joined(&a.clone(), &b.clone(), [900; 6]);
        found.map_err(|refusal| refusal.number())
    };
    let [a, b, c] = sets;
    [
        join(a, b).and_then(|ab| join(&ab, c)),
        join(b, c).and_then(|bc| join(a, &bc)),
    ]
}

#[test]
fn either_way_round() {
    // INTERVAL 3600, 900 and 0; 3600, 0 and 3600: 0 in both groupings.
    for intervals in [[3600, 900, 0], [3600, 0, 3600]] {
        let mut sets: Vec<Set> = Vec::new();
        let mut first = FIRST;
        for (k, interval) in intervals.into_iter().enumerate() {
            let gap = if interval == 0 { 100 } else { interval as u64 };
            let mut set = many(first, 2);
            set.0.interval = interval;
            set.2.epochs[1] = first + gap;
            set.0.last_epoch = first + gap;
            set.2.tec = vec![10 * k as i32, 10 * k as i32 + 1];
            sets.push(set);
            first += gap;
        }
        let [left, right] = groupings([&sets[0], &sets[1], &sets[2]]);
        let (header, _, own) = left.clone().unwrap();
        assert_eq!((header.interval, header.maps), (0, 4));
        assert_eq!(own.tec[..4], [0, 10, 20, 21]);
        assert_eq!(left, right);
    }
}

#[test]
fn refused_either_way() {
    // The second and the third do not meet, and the first has another radius: 40 or 41 first.
    let mut a = many(FIRST, 2);
    a.0.radius += 1;
    let (b, c) = (many(FIRST + 1, 2), many(FIRST + 3, 2));
    assert_eq!(groupings([&a, &b, &c]), [Err(40), Err(41)]);
    // 200 maps and 200 are too many; 150 and 2 are not.
    let sets = [
        many(FIRST, 200),
        many(FIRST + 199, 200),
        many(FIRST + 398, 2),
    ];
    assert_eq!(
        groupings([&sets[0], &sets[1], &sets[2]]),
        [Err(42), Err(42)]
    );
    let sets = [
        many(FIRST, 150),
        many(FIRST + 149, 2),
        many(FIRST + 150, 151),
    ];
    assert_eq!(
        groupings([&sets[0], &sets[1], &sets[2]]),
        [Err(42), Err(42)]
    );
    let mut c = many(FIRST + 2, 2);
    c.2.marks[0] = 9;
    let mut a = many(FIRST, 2);
    a.0.radius += 1;
    assert_eq!(groupings([&a, &b, &c]), [Err(40), Err(31)]);
}
