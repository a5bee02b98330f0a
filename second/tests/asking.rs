//! Asking: 01's figures, 'Easy to get wrong', and the order of refusals.

mod common;
use common::*;
use second::{ask, Answer, Axis, Question};

fn at(latitude: i64, longitude: i64, after: u64) -> Question {
    Question {
        kind: 0,
        method: 1,
        layer: 0,
        latitude,
        longitude,
        second: FIRST + after,
    }
}

fn answer(set: &Set, question: &Question) -> Result<Answer, u8> {
    let (header, texts, own) = set;
    ask(header, texts, &own.view(), question).map_err(|r| r.number())
}

fn tecu(value: i64) -> Result<Answer, u8> {
    Ok(Answer::ThousandthsOfTecu(value))
}

#[test]
fn figure_four_corners() {
    // "corners 100, 200 over 300, 400 (exponent -1): p = q = 1/2 gives 25,000"
    let mut set = set();
    set.2.tec[..6].copy_from_slice(&[300, 400, 9999, 100, 200, 9999]);
    assert_eq!(answer(&set, &at(500, 500, 0)), tecu(25_000));
    set.2.tec[..6].copy_from_slice(&[100, 200, 9999, 300, 400, 9999]);
    assert_eq!(answer(&set, &at(500, 500, 0)), tecu(25_000));
}

#[test]
fn figure_halves() {
    // "0 and 1 under -3, halfway: 1; 0 and -1: -1", in space and in time.
    let mut set = set();
    set.2.exponents[..4].fill(-3);
    for (one, half) in [(1, 1), (-1, -1)] {
        set.2.tec[..6].copy_from_slice(&[0, one, 0, 0, 0, 0]);
        set.2.tec[6..].copy_from_slice(&[one; 6]);
        assert_eq!(answer(&set, &at(1000, 500, 0)), tecu(half));
        assert_eq!(answer(&set, &at(1000, 2000, 3600)), tecu(half));
        assert_eq!(answer(&set, &at(1000, 2000, 3599)), tecu(0));
    }
}

#[test]
fn rounded_once() {
    // Map 1: 0 and 1 halfway is 1/2, map 2: 0; a third of the time on: 1/3, so 0.
    // Rounding in space first would make 2/3, so 1.
    let mut set = set();
    set.2.exponents[..4].fill(-3);
    set.2.tec.fill(0);
    set.2.tec[1] = 1;
    assert_eq!(answer(&set, &at(1000, 500, 2400)), tecu(0));
    assert_eq!(answer(&set, &at(1000, 500, 0)), tecu(1));
}

#[test]
fn each_block_has_its_exponent() {
    let mut set = set();
    set.2.tec[0] = 7;
    for (exponent, value) in [(-3, 7), (-2, 70), (-1, 700), (0, 7000)] {
        set.2.exponents[0] = exponent;
        assert_eq!(answer(&set, &at(1000, 0, 0)), tecu(value));
    }
    // Halfway between 7 under 0 (7000) and 4 under -1 (400).
    assert_eq!(answer(&set, &at(500, 0, 0)), tecu(3700));
}

#[test]
fn nodes_without_a_value() {
    let mut set = set();
    set.2.tec[1] = 9999;
    // The absent node has weight zero at its neighbour, in space and in time.
    assert_eq!(answer(&set, &at(1000, 0, 0)), tecu(100));
    assert_eq!(answer(&set, &at(1000, 1, 0)), Err(22));
    assert_eq!(answer(&set, &at(1000, 1000, 7200)), tecu(1200));
    assert_eq!(answer(&set, &at(1000, 1000, 7199)), Err(22));
    assert_eq!(answer(&set, &at(0, 1000, 0)), tecu(500));
    assert_eq!(answer(&set, &at(1, 1000, 0)), Err(22));
    for (wrong, exponent) in [(100_000, -1), (-10_000, -1), (5, 1), (5, -4)] {
        set.2.tec[1] = wrong;
        set.2.exponents[0] = exponent;
        assert_eq!(answer(&set, &at(1000, 1000, 0)), Err(22));
        assert_eq!(answer(&set, &at(0, 1000, 0)), tecu(500));
    }
    set.2.tec[1] = 99_999;
    set.2.exponents[0] = 0;
    assert_eq!(answer(&set, &at(1000, 1000, 0)), tecu(99_999_000));
}

#[test]
fn kinds_and_units() {
    let mut set = set();
    let mut question = at(1000, 0, 7200);
    question.kind = 1;
    assert_eq!(answer(&set, &question), tecu(2100));
    // RMS map 1 is absent.
    question.second -= 1;
    assert_eq!(answer(&set, &question), Err(22));
    question.method = 0;
    assert_eq!(answer(&set, &question), tecu(2100));
    question.kind = 2;
    assert_eq!(answer(&set, &question), Err(22));
    set.2.marks = vec![2, 3];
    set.2.height = vec![-5; 12];
    let answered = answer(&set, &question);
    assert_eq!(answered, Ok(Answer::ThousandthsOfKilometre(-500)));
}

#[test]
fn in_time() {
    let set = set();
    let mut question = at(1000, 0, 3600);
    // Halfway between 1 and 11 under -1: 6, so 600; the earlier map alone: 100.
    assert_eq!(answer(&set, &question), tecu(600));
    question.method = 0;
    assert_eq!(answer(&set, &question), tecu(100));
    question.second += 1;
    assert_eq!(answer(&set, &question), tecu(1100));
    question.second = FIRST + 7200;
    assert_eq!(answer(&set, &question), tecu(1100));
    question.method = 1;
    assert_eq!(answer(&set, &question), tecu(1100));
    question.second += 1;
    assert_eq!(answer(&set, &question), Err(20));
    question.second = FIRST - 1;
    assert_eq!(answer(&set, &question), Err(20));
}

#[test]
fn in_space() {
    let set = set();
    assert_eq!(answer(&set, &at(1001, 0, 0)), Err(21));
    assert_eq!(answer(&set, &at(-1, 0, 0)), Err(21));
    assert_eq!(answer(&set, &at(i64::MIN, i64::MIN, 0)), Err(21));
    assert_eq!(answer(&set, &at(i64::MAX, 0, 0)), Err(21));
    assert_eq!(answer(&set, &at(0, 2000, 0)), tecu(600));
    assert_eq!(answer(&set, &at(0, 2001, 0)), Err(21));
    assert_eq!(answer(&set, &at(0, -1, 0)), Err(21));
    assert_eq!(answer(&set, &at(0, 36_000, 0)), tecu(400));
    assert_eq!(answer(&set, &at(0, -36_000 * 5 + 1000, 0)), tecu(500));
    let mut question = at(0, 0, 0);
    question.layer = 1;
    assert_eq!(answer(&set, &question), Err(21));
    question.layer = -1;
    assert_eq!(answer(&set, &question), Err(21));
    question.layer = i64::MIN;
    assert_eq!(answer(&set, &question), Err(21));
}

/// Columns in tenths.
fn around(first: i64, last: i64, step: i64) -> Set {
    common::around(Axis { first, last, step }, 0)
}

#[test]
fn in_the_strip() {
    // 02, Ask 2: the last column, 143, has 1530, and the first has 100.
    let mut set = around(0, 3575, 25);
    for (longitude, value) in [
        (35_750, 1530),
        // 1430 / 250 = 5.72 for each hundredth of a degree.
        (35_751, 1524),
        (35_850, 958),
        // 815, halfway.
        (35_875, 815),
        (35_999, 106),
        (36_000, 100),
        (-1, 106),
        (-125 - 36_000 * 7, 815),
    ] {
        let mut question = at(1000, longitude, 0);
        for method in [0, 1] {
            question.method = method;
            assert_eq!(answer(&set, &question), tecu(value), "{longitude}");
        }
    }
    // The first column of each row has no value: only the last column itself is left of the strip.
    for row in 0..4 {
        set.2.tec[144 * row] = 9999;
    }
    assert_eq!(answer(&set, &at(1000, 35_750, 0)), tecu(1530));
    assert_eq!(answer(&set, &at(1000, 35_751, 0)), Err(22));
    assert_eq!(answer(&set, &at(1000, 35_749, 0)), tecu(1530));
    // Two other grids with a strip, whose last column, 71, has 810.
    for (first, last) in [(0, 3550), (-1800, 1750)] {
        let set = around(first, last, 50);
        let longitude = last * 10 + 250;
        assert_eq!(answer(&set, &at(500, longitude, 0)), tecu(455));
        assert_eq!(answer(&set, &at(-1, longitude, 0)), Err(21));
    }
}

#[test]
fn no_strip() {
    // One column less than a strip needs; LON2 = LON1 + 360.0 keeps its two end columns.
    for (last, step) in [(3550, 25), (3500, 50)] {
        let set = around(0, last, step);
        let end = 10 * last;
        let columns = last / step;
        assert_eq!(answer(&set, &at(0, end, 0)), tecu(100 + 10 * columns));
        assert_eq!(answer(&set, &at(0, end + 1, 0)), Err(21));
        assert_eq!(answer(&set, &at(0, -1, 0)), Err(21));
    }
    let mut set = around(0, 3600, 50);
    assert_eq!(answer(&set, &at(0, 35_750, 0)), tecu(815));
    assert_eq!(answer(&set, &at(0, 36_000, 0)), tecu(100));
    set.2.tec[73] = 9999;
    assert_eq!(answer(&set, &at(0, 35_750, 0)), tecu(815));
    assert_eq!(answer(&set, &at(0, 36_000, 0)), Err(22));
}

/// The grid 0.0 to 355.0 by 5.0, the second map 1000 above the first: columns 100, 110, .. 810 and 1100, 1110, .. 1810.
fn turning() -> Set {
    let mut set = around(0, 3550, 50);
    for value in &mut set.2.tec[144..] {
        *value += 1000;
    }
    set
}

fn by(method: i64, longitude: i64, after: u64) -> Question {
    Question {
        method,
        ..at(1000, longitude, after)
    }
}

#[test]
fn maps_that_turn() {
    let set = turning();
    for (method, longitude, after, value) in [
        // Halfway: 15 degrees forward and back. At 40.0 and 10.0: 180 and 1120.
        (2, 2_500, 3_600, 650),
        // At 25.0 and -5.0, which is 355.0: 150 and 1810.
        (2, 1_000, 3_600, 980),
        // The later map in the strip: 27.5 and 357.5, so 155 and halfway from 1810 to 1100, 1455.
        (2, 1_250, 3_600, 805),
        // A quarter of the time: 7.5 forward, 22.5 back. At 17.5 and 347.5: 135 and 1795, so 101.25 + 448.75.
        (2, 1_000, 1_800, 550),
        // A second is 1/240 of a degree, so 1/1200 of a column. The first map at 10 + 1/240: 120 + 1/120; the second
        // at 10 - 7199/240 = 340 + 1/240: 1780 + 1/120. The mean is 120 + 1/120 + 1660/7200 = 120.23..
        (2, 1_000, 1, 120),
        // Four times that much above 120: 120.95..
        (2, 1_000, 4, 121),
        // The nearest map alone: the earlier of two equally near, 15 degrees on.
        (3, 1_000, 3_600, 150),
        // The later one, 3599 s back: -4.9958.., between 355.0 and 360.0 by 1/1200: 1810 - 710/1200 = 1809.4..
        (3, 1_000, 3_601, 1_809),
        // 0.5 degrees on: 121; 0.25 on, 120.5, away from zero.
        (3, 1_000, 120, 121),
        (3, 1_000, 60, 121),
        (3, 1_000, 59, 120),
    ] {
        let question = by(method, longitude, after);
        assert_eq!(answer(&set, &question), tecu(value), "{question:?}");
        // Whole turns change nothing.
        for turns in [-7, 1, 50_000] {
            let question = by(method, longitude + 36_000 * turns, after);
            assert_eq!(answer(&set, &question), tecu(value));
        }
    }
    // The same on a grid that closes on itself, but for the place in the strip: its last column has 1820.
    let mut set = around(0, 3600, 50);
    for value in &mut set.2.tec[146..] {
        *value += 1000;
    }
    assert_eq!(answer(&set, &by(2, 1_000, 3_600)), tecu(980));
    assert_eq!(answer(&set, &by(2, 1_250, 3_600)), tecu(985));
}

#[test]
fn turned_and_rounded_once() {
    // At 3600 s each map is asked 15 degrees off. The first gives 1/2, the second 0, so a quarter.
    let mut set = turning();
    set.2.tec.fill(0);
    set.2.tec[3] = 1;
    assert_eq!(answer(&set, &by(2, 250, 3_600)), tecu(0));
    assert_eq!(answer(&set, &by(3, 250, 3_600)), tecu(1));
}

/// "At a map's own epoch, where 24 is not given, methods 2 and 1 must give the same answer or the same refusal."
#[test]
fn at_a_maps_own_epoch() {
    let mut set = turning();
    set.2.tec[7] = 9999;
    set.2.tec[144 + 71] = 9999;
    for after in [0, 7_200, 7_201] {
        for longitude in (-50..36_050).step_by(50) {
            for latitude in [1000, 500, 0, -1] {
                let ask = |set: &Set, method| {
                    let question = Question {
                        latitude,
                        ..by(method, longitude, after)
                    };
                    answer(set, &question)
                };
                assert_eq!(ask(&mut set, 2), ask(&mut set, 1));
                assert_eq!(ask(&mut set, 3), ask(&mut set, 0));
            }
        }
    }
}

#[test]
fn nodes_needed_of_moved_maps() {
    let mut set = turning();
    // 25.0 in the first map and 355.0 in the second are nodes: columns 5 and 71 alone are needed.
    for column in (0..72).filter(|&column| column != 5) {
        set.2.tec[column] = 9999;
    }
    for column in (0..72).filter(|&column| column != 71) {
        set.2.tec[144 + column] = 9999;
    }
    assert_eq!(answer(&set, &by(2, 1_000, 3_600)), tecu(980));
    assert_eq!(answer(&set, &by(2, 1_000, 3_599)), Err(22));
    assert_eq!(answer(&set, &by(2, 1_001, 3_600)), Err(22));
    assert_eq!(answer(&set, &by(1, 1_000, 3_600)), Err(22));
    // Latitude and layer can be outside, a longitude not.
    let outside = Question {
        latitude: 1001,
        ..by(2, 1_000, 3_600)
    };
    assert_eq!(answer(&set, &outside), Err(21));
    let outside = Question {
        layer: 1,
        ..by(3, 1_000, 3_600)
    };
    assert_eq!(answer(&set, &outside), Err(21));
}

/// "24 when the grid does not go round, DLON is above 5.0, or two neighbouring epochs are more than 7,200 s apart"
#[test]
fn maps_that_cannot_turn() {
    let asked = |set: Set| [2, 3].map(|method| answer(&set, &by(method, 0, 0)));
    for (first, last, step) in [
        (0, 3550, 50),
        (-1800, 1800, 50),
        (0, 3575, 25),
        (0, 3600, 25),
    ] {
        assert_ne!(asked(around(first, last, step)), [Err(24); 2]);
    }
    for (first, last, step) in [
        (0, 3500, 50),
        (0, 3550, 25),
        (50, 3550, 50),
        (0, 3540, 60),
        (0, 3600, 60),
        (0, 3575, 55),
        (0, 3600, 150),
    ] {
        assert_eq!(asked(around(first, last, step)), [Err(24); 2]);
    }
    // Gaps of 7,200 s and 7,201 s.
    let mut set = around(0, 3550, 50);
    set.0.interval = 0;
    assert_eq!(asked(set.clone()), [tecu(100); 2]);
    set.0.last_epoch += 1;
    set.2.epochs[1] += 1;
    assert_eq!(asked(set.clone()), [Err(24); 2]);
    assert_eq!(answer(&set, &by(1, 0, 0)), tecu(100));
    assert_eq!(answer(&set, &by(0, 0, 0)), tecu(100));
}

#[test]
fn one_row_one_column() {
    let mut set = set();
    set.0.latitudes.last = 100;
    set.0.longitudes.first = 100;
    set.0.longitudes.last = 100;
    set.2.marks.fill(0);
    assert_eq!(answer(&set, &at(1000, 1000, 7200)), tecu(200));
    assert_eq!(answer(&set, &at(1000, 1001, 7200)), Err(21));
    assert_eq!(answer(&set, &at(1000, 999, 7200)), Err(21));
    assert_eq!(answer(&set, &at(999, 1000, 7200)), Err(21));
    assert_eq!(answer(&set, &at(1000, 1000 - 36_000, 0)), tecu(100));
}

#[test]
fn one_map() {
    let mut set = set();
    set.0.maps = 1;
    set.0.last_epoch = set.0.first_epoch;
    set.2.marks = vec![0];
    for method in [0, 1] {
        let mut question = at(1000, 500, 0);
        question.method = method;
        // Halfway between 1 and 2 under -1.
        assert_eq!(answer(&set, &question), tecu(150));
        question.second += 1;
        assert_eq!(answer(&set, &question), Err(20));
    }
}

#[test]
fn order_of_refusals() {
    let mut set = set();
    let mut question = at(5000, 0, 9999);
    question.kind = 3;
    set.0.maps = 0;
    assert_eq!(answer(&set, &question), Err(23));
    question.kind = 1;
    question.method = 4;
    assert_eq!(answer(&set, &question), Err(23));
    question.method = -1;
    assert_eq!(answer(&set, &question), Err(23));
    question.method = i64::MAX;
    assert_eq!(answer(&set, &question), Err(23));
    for method in 0..4 {
        question.method = method;
        assert_eq!(answer(&set, &question), Err(31));
    }
    set.0.maps = 2;
    // The base grid does not go round: 24 before 20, for methods 2 and 3 only.
    assert_eq!(answer(&set, &question), Err(24));
    question.method = 2;
    assert_eq!(answer(&set, &question), Err(24));
    question.method = 1;
    assert_eq!(answer(&set, &question), Err(20));
    question.second = FIRST;
    assert_eq!(answer(&set, &question), Err(21));
    question.latitude = 1000;
    assert_eq!(answer(&set, &question), Err(22));
}

#[test]
fn what_asking_judges() {
    let question = at(1000, 0, 0);
    let with = |change: &dyn Fn(&mut Set)| {
        let mut set = set();
        change(&mut set);
        answer(&set, &question)
    };
    assert_eq!(with(&|s| s.2.marks[1] = 4), Err(31));
    assert_eq!(with(&|s| s.2.marks[0] = 2), Err(31));
    assert_eq!(with(&|s| s.2.epochs[1] += 1), Err(31));
    assert_eq!(with(&|s| s.2.rms.truncate(11)), Err(31));
    assert_eq!(with(&|s| s.2.exponents.truncate(11)), Err(31));
    assert_eq!(with(&|s| s.1.date[0] = 9), Err(31));
    assert_eq!(with(&|s| s.0.stations.count = 1), Err(31));
    // Descriptions, their number and what stands behind the last.
    assert_eq!(with(&|s| s.0.descriptions = 20), tecu(100));
    for count in [-1, 21, i64::MAX] {
        assert_eq!(with(&|s| s.0.descriptions = count), Err(31));
    }
    let with_one = |byte: u8, count: i64| {
        with(&|s| {
            s.0.descriptions = count;
            s.1.descriptions[6][59] = byte;
        })
    };
    assert_eq!(with_one(b'~', 7), tecu(100));
    assert_eq!(with_one(b'~', 6), Err(31));
    assert_eq!(with_one(127, 7), Err(31));
    // Values and exponents of nodes that are not needed are not looked at.
    assert_eq!(with(&|s| s.2.tec[11] = i32::MIN), tecu(100));
    assert_eq!(with(&|s| s.2.exponents[3] = 99), tecu(100));
    assert_eq!(with(&|s| s.2.rms[0] = 5), tecu(100));
    assert_eq!(with(&|s| s.2.exponents[11] = 0), tecu(100));
}
