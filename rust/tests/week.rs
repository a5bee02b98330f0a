//! The week in figures, worked out by hand on sets of two rows and three columns.

use ionex::{Answer, Areas, Figures, Kind, MapSet, MilliKm, MilliTecu, Sum, Week};

fn read(name: &str) -> MapSet {
    let text = std::fs::read(format!("../tests/examples/{name}")).expect("an example");
    MapSet::read(&text).expect("accepted")
}

fn edited(set: &MapSet, edit: impl FnOnce(&mut Areas)) -> MapSet {
    let mut areas = set.as_areas().clone();
    edit(&mut areas);
    MapSet::from_areas(areas)
}

/// Counts with a value and without, smallest and largest, sum; of TEC or RMS maps.
fn tecu(with: u64, without: u64, range: Option<(i32, i32)>, sum: i64) -> Figures {
    Figures {
        with,
        without,
        smallest: range.map(|range| Answer::Tecu(MilliTecu(range.0))),
        largest: range.map(|range| Answer::Tecu(MilliTecu(range.1))),
        sum: Sum::MilliTecu(sum),
    }
}

/// As `tecu`, of height maps.
fn km(with: u64, without: u64, range: Option<(i32, i32)>, sum: i64) -> Figures {
    Figures {
        with,
        without,
        smallest: range.map(|range| Answer::Km(MilliKm(range.0))),
        largest: range.map(|range| Answer::Km(MilliKm(range.1))),
        sum: Sum::MilliKm(sum),
    }
}

fn figures(week: &Week) -> [Figures; 3] {
    Kind::ALL.map(|kind| week.figures(kind))
}

#[test]
fn a_week_of_no_sets() {
    let week = Week::new();
    assert_eq!(week.sets(), 0);
    assert_eq!(
        figures(&week),
        [tecu(0, 0, None, 0), tecu(0, 0, None, 0), km(0, 0, None, 0)]
    );
}

/// TEC 0.1 to 0.6 and 1.1 to 1.6; RMS of the second map alone, 2.1 to 2.5 and one node without; no heights.
#[test]
fn two_maps_by_hand() {
    let mut week = Week::new();
    let set = week
        .add(&read("accepted-canonical.inx"))
        .expect("a valid set");
    assert_eq!(set.maps(), 2);
    let rows = |kind| [0, 1].map(|map| set.map(kind, map).expect("a map"));
    assert_eq!(
        rows(Kind::Tec),
        [
            tecu(6, 0, Some((100, 600)), 2100),
            tecu(6, 0, Some((1100, 1600)), 8100)
        ]
    );
    assert_eq!(
        rows(Kind::Rms),
        [tecu(0, 6, None, 0), tecu(5, 1, Some((2100, 2500)), 11_500)]
    );
    assert_eq!(rows(Kind::Height), [km(0, 6, None, 0); 2]);
    let kinds = [
        tecu(12, 0, Some((100, 1600)), 10_200),
        tecu(5, 7, Some((2100, 2500)), 11_500),
        km(0, 12, None, 0),
    ];
    assert_eq!(Kind::ALL.map(|kind| set.kind(kind)), kinds);
    assert_eq!(set.map(Kind::Tec, 2), None);
    assert_eq!((week.sets(), figures(&week)), (1, kinds));
}

/// Exponents -2, -1 and 0, negative values, and a height map; then added to the other example.
#[test]
fn two_sets_by_hand() {
    let mut week = Week::new();
    let freedoms = read("accepted-2d-freedoms.inx");
    let set = week.add(&freedoms).expect("a valid set");
    // Map 1 has 0.01, -0.02, 0.00 and one node without a value.
    assert_eq!(
        set.map(Kind::Tec, 0),
        Some(tecu(3, 1, Some((-20, 10)), -10))
    );
    // 5 and 6 hundredths, 7 and 8 tenths of a kilometre.
    assert_eq!(
        set.map(Kind::Height, 0),
        Some(km(4, 0, Some((50, 800)), 1610))
    );
    assert_eq!(set.map(Kind::Height, 1), Some(km(0, 4, None, 0)));
    assert_eq!(
        set.map(Kind::Rms, 1),
        Some(tecu(4, 0, Some((1000, 2000)), 6000))
    );
    // -999.9 and 9999.9, 1.1 and 1.2 in map 2.
    let tec = tecu(7, 1, Some((-999_900, 9_999_900)), 9_002_290);
    assert_eq!(set.kind(Kind::Tec), tec);
    assert_eq!(set.kind(Kind::Rms), tecu(4, 4, Some((1000, 2000)), 6000));
    assert_eq!(set.kind(Kind::Height), km(4, 4, Some((50, 800)), 1610));
    week.add(&read("accepted-canonical.inx"))
        .expect("a valid set");
    assert_eq!(
        week.figures(Kind::Tec),
        tecu(19, 1, Some((-999_900, 9_999_900)), 9_012_490)
    );
    assert_eq!(
        week.figures(Kind::Rms),
        tecu(9, 11, Some((1000, 2500)), 17_500)
    );
    assert_eq!(week.figures(Kind::Height), km(4, 16, Some((50, 800)), 1610));
}

/// The other way round, and with refused sets in between, the figures are the same.
#[test]
fn the_order_does_not_matter() {
    let sets = [
        "accepted-canonical.inx",
        "accepted-2d-freedoms.inx",
        "accepted-3d.inx",
    ]
    .map(read);
    let broken = edited(&sets[0], |areas| areas.header[6] = 0);
    let mut one = Week::new();
    let mut other = Week::new();
    for set in &sets {
        one.add(set).expect("a valid set");
    }
    for set in sets.iter().rev() {
        other.add(set).expect("a valid set");
        assert_eq!(other.add(&broken).unwrap_err().number(), 31);
    }
    assert_eq!(one, other);
    assert_eq!(one.sets(), 3);
}

/// A hundred sets are the most; a full week is told before an invalid set, and both leave the week as it was.
#[test]
fn refusals() {
    let set = read("accepted-canonical.inx");
    let broken = edited(&set, |areas| areas.exponents[0] = 1);
    let many = edited(&set, |areas| areas.header[6] = i64::MAX);
    let mut week = Week::new();
    for _ in 0..100 {
        let before = week.clone();
        assert_eq!(week.add(&broken).unwrap_err().number(), 31);
        assert_eq!(week.add(&many).unwrap_err().number(), 31);
        assert_eq!(week, before);
        week.add(&set).expect("one of a hundred");
    }
    let full = week.clone();
    let refusal = week.add(&set).unwrap_err();
    assert_eq!(refusal.to_string(), "refused 60: more than 100 map sets");
    assert_eq!(week.add(&broken).unwrap_err().number(), 60);
    assert_eq!((week.sets(), &week), (100, &full));
    assert_eq!(
        week.figures(Kind::Tec),
        tecu(1200, 0, Some((100, 1600)), 1_020_000)
    );
}
