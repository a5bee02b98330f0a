//! Two map sets joined, worked out by hand on sets of two rows and three columns.

use ionex::{Areas, Epoch, Kind, MapSet, Method, Place};

/// Of each map the first TEC value, from which the others count on, and the RMS value where it stands. The first map is at
/// so many hours, the others follow two hours apart.
fn set(hours: u64, maps: &[(i32, Option<i32>)]) -> MapSet {
    let text = std::fs::read("../tests/examples/accepted-canonical.inx").expect("an example");
    let mut areas = MapSet::read(&text).expect("accepted").into_areas();
    let midnight = areas.epochs[0];
    areas.epochs = (0..maps.len() as u64)
        .map(|map| midnight + 3600 * (hours + 2 * map))
        .collect();
    areas.header[3] = areas.epochs[0] as i64;
    areas.header[4] = areas.epochs[maps.len() - 1] as i64;
    areas.header[6] = maps.len() as i64;
    areas.marks = maps.iter().map(|map| u8::from(map.1.is_some())).collect();
    areas.tec = maps.iter().flat_map(|map| map.0..map.0 + 6).collect();
    areas.rms = maps
        .iter()
        .flat_map(|map| [map.1.unwrap_or(9999); 6])
        .collect();
    if areas.marks.iter().all(|mark| *mark == 0) {
        areas.rms.clear();
    }
    areas.exponents = vec![-1; 6 * maps.len()];
    MapSet::from_areas(areas)
}

fn edited(set: &MapSet, edit: impl FnOnce(&mut Areas)) -> MapSet {
    let mut areas = set.as_areas().clone();
    edit(&mut areas);
    MapSet::from_areas(areas)
}

/// The number of the refusal, 0 where there is none.
fn number(early: &MapSet, late: &MapSet) -> u64 {
    let joined = early.join(late);
    joined.map_or_else(|refusal| refusal.number(), |_| 0)
}

/// Descriptions are the later set's, also where it has fewer; one set that has them wrong is refused.
#[test]
fn descriptions_are_the_later_sets() {
    let described = |set: &MapSet, lines: &[&str]| {
        edited(set, |areas| {
            areas.header[44] = lines.len() as i64;
            for (line, place) in lines.iter().zip(areas.texts[124..].chunks_mut(60)) {
                place[..line.len()].copy_from_slice(line.as_bytes());
            }
        })
    };
    let (early, late) = (
        set(0, &[(1, None), (11, None)]),
        set(2, &[(101, None), (111, None)]),
    );
    for (ours, theirs) in [
        (&["a", "b", ""][..], &["", "c"][..]),
        (&["a"; 20], &[]),
        (&[], &["c"; 20]),
    ] {
        let (first, second) = (described(&early, ours), described(&late, theirs));
        let both = first.join(&second).expect("joined");
        assert_eq!(both.descriptions().collect::<Vec<_>>(), theirs);
        assert_eq!(
            MapSet::read(&both.write().expect("valid")).as_ref(),
            Ok(&both)
        );
    }
    let wrong = edited(&described(&early, &["a", "b"]), |areas| {
        areas.header[44] = 1
    });
    assert_eq!(number(&wrong, &late), 31);
    let wrong = edited(&described(&late, &["a"]), |areas| areas.header[44] = 21);
    assert_eq!(number(&early, &wrong), 31);
}

/// The shared map is the later set's: the earlier one's TEC and RMS values of two o'clock are gone.
#[test]
fn the_shared_map_comes_from_the_later_set() {
    let early = set(0, &[(1, Some(50)), (11, Some(51))]);
    let late = edited(&set(2, &[(101, None), (111, Some(60))]), |areas| {
        areas.header[2] = 8;
        areas.texts[..5].copy_from_slice(b"later");
    });
    let both = early.join(&late).expect("joined");
    let expected = edited(
        &set(0, &[(1, Some(50)), (101, None), (111, Some(60))]),
        |areas| {
            areas.header[2] = 8;
            areas.texts[..5].copy_from_slice(b"later");
        },
    );
    assert_eq!(both, expected);
    let text = both.write().expect("valid");
    assert_eq!(MapSet::read(&text), Ok(both));
}

/// A kind that only the dropped map had is gone, and needs no area.
#[test]
fn a_kind_of_the_dropped_map_alone() {
    let early = set(0, &[(1, None), (11, Some(51))]);
    let late = set(2, &[(101, None)]);
    let both = early.join(&late).expect("joined");
    assert_eq!(both, set(0, &[(1, None), (101, None)]));
    assert!(both.as_areas().rms.is_empty());
    // And of one map each, the later is all that is left.
    let alone = set(2, &[(7, Some(8))]).join(&late).expect("joined");
    assert_eq!(alone, late);
}

/// Heights stand in a third of the exponents of their own.
#[test]
fn heights_keep_their_exponents() {
    let early = edited(&set(0, &[(1, None), (11, None)]), |areas| {
        areas.marks[0] = 2;
        areas.height = [[4000; 6], [9999; 6]].concat();
        areas.exponents[8] = -2;
    });
    let late = set(2, &[(101, Some(5))]);
    let expected = edited(&set(0, &[(1, None), (101, Some(5))]), |areas| {
        areas.marks[0] = 2;
        areas.height = [[4000; 6], [9999; 6]].concat();
        areas.exponents[8] = -2;
    });
    assert_eq!(early.join(&late), Ok(expected));
}

#[test]
fn an_interval_that_both_have() {
    let interval = |early: i64, late: i64| {
        let [early, late] = [early, late]
            .map(|interval| edited(&set(0, &[(1, None)]), |areas| areas.header[5] = interval));
        early.join(&late).expect("joined").header().interval
    };
    assert_eq!(interval(7200, 7200), 7200);
    assert_eq!(interval(7200, 3600), 0);
    assert_eq!(interval(7200, 0), 0);
    assert_eq!(interval(0, 7200), 0);
    assert_eq!(interval(0, 0), 0);
}

/// What was answered by one of the two is answered by both.
#[test]
fn asked_as_before() {
    let (early, late) = (
        set(0, &[(1, None), (40, None), (11, None)]),
        set(4, &[(101, None), (300, None)]),
    );
    let both = early.join(&late).expect("joined");
    let place = Place::new(333, 777);
    let ask = |set: &MapSet, minutes: u64| {
        let time = Epoch::from_seconds(early.header().first.seconds() + 60 * minutes);
        set.ask(Kind::Tec, Method::Between, 0, place, time)
    };
    for minutes in (0..=120).step_by(15) {
        assert_eq!(ask(&both, minutes), ask(&early, minutes), "{minutes}");
    }
    for minutes in (240..=360).step_by(15) {
        assert_eq!(ask(&both, minutes), ask(&late, minutes), "{minutes}");
    }
    assert!(ask(&both, 180).is_ok() && ask(&both, 361).is_err());
}

#[test]
fn refused() {
    let (early, late) = (set(0, &[(1, None), (11, None)]), set(2, &[(101, None)]));
    // One of the two is no map set, whatever else is wrong.
    let broken = edited(&set(9, &[(1, None)]), |areas| areas.exponents[0] = 1);
    assert_eq!([number(&broken, &late), number(&early, &broken)], [31, 31]);
    // Base radius, heights, latitudes, longitudes.
    for places in [&[8][..], &[10, 11], &[13, 14], &[16, 17]] {
        let other = edited(&late, |areas| {
            places.iter().for_each(|at| areas.header[*at] += 100)
        });
        assert!(other.write().is_ok(), "{places:?}");
        assert_eq!(number(&early, &other), 40, "{places:?}");
    }
    assert_eq!(number(&early, &set(4, &[(101, None)])), 41);
    assert_eq!(number(&late, &early), 41);
    let refusal = late.join(&early).unwrap_err();
    assert_eq!(
        refusal.to_string(),
        "refused 41: the last epoch of the first set is not the first of the second"
    );
}

/// 300 maps are the most, so 151 and 150 can be joined.
#[test]
fn the_most_maps() {
    let many = |hours: u64, maps: usize| set(hours, &vec![(1, None); maps]);
    let early = many(0, 151);
    let both = early.join(&many(300, 150)).expect("joined");
    assert_eq!((both.maps(), both.as_areas().tec.len()), (300, 1800));
    assert_eq!(number(&early, &many(300, 151)), 42);
    assert_eq!(number(&early, &many(301, 151)), 41);
}

/// Three sets in both groupings.
#[test]
fn either_way() {
    let [a, b, c] = [
        set(0, &[(1, None), (11, Some(3))]),
        set(2, &[(101, Some(4)), (111, None)]),
        set(4, &[(201, None), (211, Some(5))]),
    ];
    let left = a.join(&b).and_then(|both| both.join(&c));
    let right = b.join(&c).and_then(|both| a.join(&both));
    assert_eq!(left, right);
    assert_eq!(
        left,
        Ok(set(
            0,
            &[(1, None), (101, Some(4)), (201, None), (211, Some(5))]
        ))
    );
}
