//! Where an answer came from (02, Ask 10): nodes and weights by hand, and against the answers themselves.

mod common;
use common::*;
use second::{ask, explain, Answer, Axis, Cause, Explanation, Lacking, Question};

fn at(method: i64, latitude: i64, longitude: i64, after: u64) -> Question {
    Question {
        kind: 0,
        method,
        layer: 0,
        latitude,
        longitude,
        second: FIRST + after,
    }
}

fn explained(set: &Set, question: &Question) -> Result<Explanation, (u8, Option<Lacking>)> {
    let (header, texts, own) = set;
    let found = explain(header, texts, &own.view(), question);
    // Whatever is said, the question is answered alike.
    let answer = ask(header, texts, &own.view(), question);
    match &found {
        Ok(found) => assert_eq!(Ok(found.answer), answer, "{question:?}"),
        Err(why) => assert_eq!(Err(why.refusal), answer, "{question:?}"),
    }
    found.map_err(|why| (why.refusal.number(), why.lacking))
}

/// Map, layer, row, column, value and weight of each node; the denominator.
fn listed(set: &Set, question: &Question) -> (Vec<[i64; 6]>, i64) {
    let found = explained(set, question).expect("an answer");
    let nodes = found.nodes.iter().map(|node| {
        let [map, layer, row, column] =
            [node.map, node.layer, node.row, node.column].map(|place| place as i64);
        [map, layer, row, column, node.value, node.weight]
    });
    (nodes.collect(), found.denominator)
}

#[test]
fn four_nodes_of_one_map() {
    // Halfway between the rows, a quarter of the way from column 0 to column 1.
    let expected = vec![
        [1, 0, 0, 0, 100, 375_000],
        [1, 0, 0, 1, 200, 125_000],
        [1, 0, 1, 0, 400, 375_000],
        [1, 0, 1, 1, 500, 125_000],
    ];
    let found = listed(&set(), &at(0, 500, 250, 0));
    assert_eq!(found, (expected, 1_000_000));
}

#[test]
fn two_maps_and_their_gap() {
    // A quarter of the time on: 5400 and 1800 of 7200.
    let mut expected = Vec::new();
    for (map, more, seconds) in [(1, 0, 5_400), (2, 1_000, 1_800)] {
        for (row, column, value, weight) in [
            (0, 0, 100, 375_000),
            (0, 1, 200, 125_000),
            (1, 0, 400, 375_000),
            (1, 1, 500, 125_000),
        ] {
            expected.push([map, 0, row, column, value + more, weight * seconds]);
        }
    }
    let found = listed(&set(), &at(1, 500, 250, 1_800));
    assert_eq!(found, (expected, 7_200_000_000));
}

#[test]
fn only_what_is_needed() {
    // On a node, at an epoch that is not the last: the gap counts, the later map is not needed.
    let set = set();
    let one = vec![[1, 0, 0, 1, 200, 7_200_000_000]];
    assert_eq!(listed(&set, &at(1, 1000, 1000, 0)), (one, 7_200_000_000));
    // At the last epoch there is no gap; nor has method 0 one.
    let last = vec![[2, 0, 0, 1, 1200, 1_000_000]];
    assert_eq!(
        listed(&set, &at(1, 1000, 1000, 7_200)),
        (last.clone(), 1_000_000)
    );
    assert_eq!(listed(&set, &at(0, 1000, 1000, 3_601)), (last, 1_000_000));
    // On a column: its two rows. On a row: its two columns.
    let rows = vec![[1, 0, 0, 2, 300, 999_000], [1, 0, 1, 2, 600, 1_000]];
    assert_eq!(listed(&set, &at(0, 999, 2000, 0)), (rows, 1_000_000));
    let columns = vec![[1, 0, 1, 1, 500, 1_000], [1, 0, 1, 2, 600, 999_000]];
    assert_eq!(listed(&set, &at(0, 0, 1999, 0)), (columns, 1_000_000));
}

/// Columns in tenths from 0.0 on.
fn around(last: i64, step: i64) -> Set {
    let first = 0;
    common::around(Axis { first, last, step }, 1000)
}

#[test]
fn by_column_number_in_the_strip() {
    // 1/250 of the way from the last column, 143, to the first.
    let expected = vec![[1, 0, 0, 0, 100, 1_000], [1, 0, 0, 143, 1530, 249_000]];
    let found = listed(&around(3575, 25), &at(0, 1000, 35_751, 0));
    assert_eq!(found, (expected, 250_000));
}

#[test]
fn each_map_has_columns_of_its_own() {
    // 12.5 degrees, halfway in time: the first map at 27.5, the second at 357.5 in the strip.
    let half = 1_000 * 3_000 * 3_600;
    let expected = vec![
        [1, 0, 0, 5, 150, half],
        [1, 0, 0, 6, 160, half],
        [2, 0, 0, 0, 1100, half],
        [2, 0, 0, 71, 1810, half],
    ];
    let set = around(3550, 50);
    let all = 1_000 * 6_000 * 7_200;
    assert_eq!(listed(&set, &at(2, 1000, 1_250, 3_600)), (expected, all));
    // The nearest map, which is the earlier, has no gap.
    let expected = vec![
        [1, 0, 0, 5, 150, 1_000 * 3_000],
        [1, 0, 0, 6, 160, 1_000 * 3_000],
    ];
    assert_eq!(
        listed(&set, &at(3, 1000, 1_250, 3_600)),
        (expected, 6_000_000)
    );
    // A second is 5 of the 6,000 between two columns.
    let (nodes, all) = listed(&set, &at(3, 1000, 1_000, 1));
    assert_eq!((nodes[0][5], nodes[1][5]), (5_995_000, 5_000));
    assert_eq!(all, 6_000_000);
}

fn lacking(place: [u64; 4], cause: Cause) -> Result<Explanation, (u8, Option<Lacking>)> {
    let [map, layer, row, column] = place;
    let lacking = Lacking {
        map,
        layer,
        row,
        column,
        cause,
    };
    Err((22, Some(lacking)))
}

#[test]
fn the_first_without_a_value() {
    let mut set = set();
    let question = at(1, 500, 500, 1);
    // Nodes that are not needed do not count.
    set.2.tec[2] = 9999;
    assert!(explained(&set, &question).is_ok());
    set.2.tec[6 + 1] = 100_000;
    let of_map_2 = lacking([2, 0, 0, 1], Cause::NumberOutOfRange);
    assert_eq!(explained(&set, &question), of_map_2);
    set.2.tec[4] = 9999;
    let of_row_1 = lacking([1, 0, 1, 1], Cause::NoValue);
    assert_eq!(explained(&set, &question), of_row_1);
    // The exponent of row 1 comes before the 9999 in it, and so names the row's first needed node.
    set.2.exponents[1] = 1;
    let of_exponent = lacking([1, 0, 1, 0], Cause::ExponentOutOfRange);
    assert_eq!(explained(&set, &question), of_exponent);
    set.2.tec[1] = -10_000;
    let of_row_0 = lacking([1, 0, 0, 1], Cause::NumberOutOfRange);
    assert_eq!(explained(&set, &question), of_row_0);
}

#[test]
fn of_two_causes() {
    let mut set = set();
    // Column 2 of row 1 of the RMS map is 9999, and map 1 is absent, whatever it holds.
    let question = |after| Question {
        kind: 1,
        ..at(0, 0, 2000, after)
    };
    assert_eq!(
        explained(&set, &question(7_200)),
        lacking([2, 0, 1, 2], Cause::NoValue)
    );
    set.2.rms[11] = 123_456;
    assert_eq!(
        explained(&set, &question(7_200)),
        lacking([2, 0, 1, 2], Cause::NumberOutOfRange)
    );
    set.2.exponents[4 + 3] = -4;
    assert_eq!(
        explained(&set, &question(7_200)),
        lacking([2, 0, 1, 2], Cause::ExponentOutOfRange)
    );
    set.2.rms[5] = 9999;
    set.2.exponents[4 + 1] = 7;
    assert_eq!(
        explained(&set, &question(0)),
        lacking([1, 0, 1, 2], Cause::MapAbsent)
    );
    // No height map at all, and so no area to look at.
    let height = Question {
        kind: 2,
        ..at(1, 500, 500, 1)
    };
    assert_eq!(
        explained(&set, &height),
        lacking([1, 0, 0, 0], Cause::MapAbsent)
    );
}

#[test]
fn refused_as_the_question() {
    let mut set = set();
    let refused = |question: &Question| explained(&set, question).expect_err("refused");
    assert_eq!(refused(&at(4, 0, 0, 0)), (23, None));
    assert_eq!(refused(&at(2, 0, 0, 0)), (24, None));
    assert_eq!(refused(&at(1, 0, 0, 7_201)), (20, None));
    assert_eq!(refused(&at(1, 1, 2001, 0)), (21, None));
    set.0.maps = 3;
    assert_eq!(
        explained(&set, &at(1, 0, 0, 0)),
        Err((31, None)),
        "a header of three maps"
    );
}

/// Every method, over places on and off the lines: the weights add to the denominator, in order and none of them zero.
#[test]
fn weights_add_up() {
    let mut tried = 0;
    for (set, methods) in [
        (set(), 0..2),
        (around(3550, 50), 0..4),
        (around(3600, 50), 0..4),
        (around(3575, 25), 0..4),
    ] {
        for method in methods {
            for latitude in [0, 1, 500, 777, 1000] {
                for longitude in (-400..2_100).step_by(125) {
                    for after in [0, 1, 1_199, 1_200, 3_600, 3_601, 7_199, 7_200] {
                        let question = at(method, latitude, longitude, after);
                        let Ok(found) = explained(&set, &question) else {
                            continue;
                        };
                        tried += 1;
                        let sum: i64 = found.nodes.iter().map(|node| node.weight).sum();
                        assert_eq!(sum, found.denominator);
                        assert!(found.nodes.iter().all(|node| node.weight > 0));
                        assert!((1..=8).contains(&found.nodes.len()));
                        let place = |k: usize| {
                            let node = found.nodes[k];
                            (node.map, node.row, node.column)
                        };
                        assert!((1..found.nodes.len()).all(|k| place(k - 1) < place(k)));
                        assert!(matches!(found.answer, Answer::ThousandthsOfTecu(_)));
                    }
                }
            }
        }
    }
    assert!(tried > 9_000, "{tried}");
}
