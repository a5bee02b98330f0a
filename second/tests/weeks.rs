//! A week in figures, worked out by hand.

mod common;

use common::{accepted, base, with, Set};
use second::week::{add, Figures, Week};
use second::Refusal;

fn put(week: &mut Week, set: &Set, rows: &mut [i64]) -> Result<(), Refusal> {
    add(week, &set.0, &set.1, &set.2.view(), rows)
}

fn example() -> Set {
    accepted(&base(), [12, 12, 0, 12, 2, 2])
}

/// TEC 1 to 6 and 11 to 16 under -1; of RMS 21 to 25 and 9999 in the second map; no height map.
const ROWS: [[i64; 5]; 9] = [
    [6, 0, 100, 600, 2_100],
    [6, 0, 1_100, 1_600, 8_100],
    [12, 0, 100, 1_600, 10_200],
    [0, 6, 0, 0, 0],
    [5, 1, 2_100, 2_500, 11_500],
    [5, 7, 2_100, 2_500, 11_500],
    [0, 6, 0, 0, 0],
    [0, 6, 0, 0, 0],
    [0, 12, 0, 0, 0],
];

#[test]
fn one_set() {
    let mut week = Week::default();
    let mut rows = [7; 46];
    assert_eq!(put(&mut week, &example(), &mut rows), Ok(()));
    assert_eq!(rows[..45], *ROWS.as_flattened());
    assert_eq!(rows[45], 7);
    assert_eq!(week.sets, 1);
    let kinds = week.kinds.map(|kind| kind.row());
    assert_eq!(kinds[0], [12, 0, 100, 1_600, 10_200]);
    assert_eq!(kinds[1], [5, 7, 2_100, 2_500, 11_500]);
    assert_eq!(kinds[2], [0, 12, 0, 0, 0]);
    assert_eq!(week.kinds[2].range, None);
}

/// A value below 0 and one under exponent 0: the exponent is that of its block.
#[test]
fn two_sets_either_way_round() {
    let one = example();
    let mut two = accepted(&with(19, "   -1 9999    3"), [12, 12, 0, 12, 2, 2]);
    two.2.exponents[1] = 0;
    let total = |sets: [&Set; 2]| {
        let mut week = Week::default();
        for set in sets {
            assert_eq!(put(&mut week, set, &mut [0; 45]), Ok(()));
        }
        week
    };
    let week = total([&one, &two]);
    assert_eq!(week, total([&two, &one]));
    // -1 and 3 under -1, 4, 5, 6 under 0, 11 to 16 under -1, and the first set.
    let sum = -100 + 300 + 4_000 + 5_000 + 6_000 + 8_100 + 10_200;
    assert_eq!(week.kinds[0].row(), [23, 1, -100, 6_000, sum]);
    assert_eq!(week.sets, 2);
}

#[test]
fn refusals_in_order() {
    let set = example();
    let mut invalid = example();
    invalid.2.exponents[0] = 1;
    let mut full = Week {
        sets: 100,
        ..Week::default()
    };
    let mut rows = [7; 44];
    let bare = |number| Err(Refusal::Bare { number });
    assert_eq!(put(&mut full, &invalid, &mut rows), bare(60));
    let mut week = Week::default();
    assert_eq!(put(&mut week, &invalid, &mut rows), bare(31));
    let short = Refusal::Area { area: 1, need: 45 };
    assert_eq!(put(&mut week, &set, &mut rows), Err(short));
    assert_eq!((week, rows), (Week::default(), [7; 44]));
    for _ in 0..100 {
        assert_eq!(put(&mut week, &set, &mut [0; 45]), Ok(()));
    }
    let before = week;
    assert_eq!(put(&mut week, &set, &mut [0; 45]), bare(60));
    assert_eq!(week, before);
    assert_eq!(
        week.kinds[0].row(),
        [1_200, 0, 100, 1_600, 1_020_000].map(i128::from)
    );
}

/// What no sets can have brought, at the edges.
#[test]
fn weeks_that_cannot_be() {
    let good = Figures {
        with: 1,
        without: 1_999_999,
        range: Some((-99_999_000, 99_999_000)),
        sum: -99_999_000,
    };
    let answer = |kind: usize, figures: Figures| {
        let mut week = Week {
            sets: 1,
            ..Week::default()
        };
        week.kinds[kind] = figures;
        put(&mut week, &example(), &mut [0; 45])
    };
    let wrong = [
        Figures { with: 2, ..good },
        Figures { with: 0, ..good },
        Figures { with: -1, ..good },
        Figures {
            without: 2_000_000,
            ..good
        },
        Figures {
            without: -1,
            ..good
        },
        Figures {
            range: None,
            ..good
        },
        Figures {
            range: Some((1, 0)),
            ..good
        },
        Figures {
            sum: 99_999_001,
            ..good
        },
        Figures {
            sum: -99_999_001,
            ..good
        },
        Figures {
            with: 0,
            sum: 0,
            ..good
        },
        Figures {
            with: 0,
            range: None,
            ..good
        },
    ];
    for kind in 0..3 {
        assert_eq!(answer(kind, good), Ok(()));
        for figures in wrong {
            let found = answer(kind, figures);
            assert_eq!(found, Err(Refusal::Bare { number: 31 }), "{figures:?}");
        }
    }
}
