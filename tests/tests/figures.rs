//! The figures of the scope paper that are not proved, and what it calls easy to get wrong, by the second program and
//! by the library where it is linked.

use compare::delays::L1;
use compare::library::{self, Library, Second};
use compare::set::{rubbish, MapSet};
use second::{Answer, Axis, Question, Reading, Refusal};

/// 2000-01-01 00:00:00.
const START: u64 = 3_155_673_600;

fn record(body: &str, label: &str) -> String {
    format!("{body:<60}{label}\n")
}

/// A date in January 2000, by seconds from its start.
fn date(second: u64) -> String {
    let (day, clock) = (1 + second / 86_400, second % 86_400);
    let (hour, minute) = (clock / 3600, clock / 60 % 60);
    format!("  2000     1{day:>6}{hour:>6}{minute:>6}{:>6}", clock % 60)
}

/// A header of two rows and two columns, ten degrees apart, with `more` records in it.
fn header(maps: u64, last: u64, more: &str) -> String {
    [
        record(
            "     1.1            IONOSPHERE MAPS     GNS",
            "IONEX VERSION / TYPE",
        ),
        record("", "PGM / RUN BY / DATE"),
        record(&date(0), "EPOCH OF FIRST MAP"),
        record(&date(last), "EPOCH OF LAST MAP"),
        record("     0", "INTERVAL"),
        record(&format!("{maps:>6}"), "# OF MAPS IN FILE"),
        record("", "MAPPING FUNCTION"),
        record("     0.0", "ELEVATION CUTOFF"),
        record("", "OBSERVABLES USED"),
        record("  6371.0", "BASE RADIUS"),
        record("     2", "MAP DIMENSION"),
        record("   450.0 450.0   0.0", "HGT1 / HGT2 / DHGT"),
        record("    10.0   0.0 -10.0", "LAT1 / LAT2 / DLAT"),
        record("     0.0  10.0  10.0", "LON1 / LON2 / DLON"),
        more.to_string(),
        record("", "END OF HEADER"),
    ]
    .concat()
}

/// A map with the given values; `between` stands before its second block.
fn map(
    kind: &str,
    number: u64,
    epoch: Option<u64>,
    values: [[i32; 2]; 2],
    between: &str,
) -> String {
    let number = format!("{number:>6}");
    let mut text = record(&number, &format!("START OF {kind} MAP"));
    if let Some(second) = epoch {
        text += &record(&date(second), "EPOCH OF CURRENT MAP");
    }
    for (row, latitude) in ["  10.0", "   0.0"].iter().enumerate() {
        if row == 1 {
            text += between;
        }
        let opening = format!("  {latitude}   0.0  10.0  10.0 450.0");
        text += &record(&opening, "LAT/LON1/LON2/DLON/H");
        text += &format!("{:>5}{:>5}\n", values[row][0], values[row][1]);
    }
    text + &record(&number, &format!("END OF {kind} MAP"))
}

fn end() -> String {
    record("", "END OF FILE")
}

fn exponent(k: i32) -> String {
    record(&format!("{k:>6}"), "EXPONENT")
}

fn read(library: &dyn Library, text: &str) -> Result<MapSet, Refusal> {
    let mut areas = rubbish([8, 8, 8, 12, 2, 2], 1);
    match library.read(text.as_bytes(), &mut areas) {
        Reading::Accepted { header, texts } => Ok(MapSet {
            header,
            texts,
            areas,
        }),
        Reading::Refused(refusal) => Err(refusal),
    }
}

fn each(test: impl Fn(&dyn Library)) {
    for library in library::all() {
        test(library.as_ref());
    }
}

fn line_of(text: &str, what: &str) -> u64 {
    let place = text.lines().position(|line| line.contains(what));
    place.expect("the line") as u64 + 1
}

const ZEROS: [[i32; 2]; 2] = [[0, 0], [0, 0]];

/// "A line of 80 bytes ... pass; 81 ... are refused", in the header and in the maps.
#[test]
fn lines_of_80_bytes() {
    let long = |length: usize| {
        let line = record("a line:", "COMMENT");
        format!("{:<length$}\n", line.trim_end())
    };
    each(|library| {
        for (length, good) in [(80, true), (81, false)] {
            let texts = [
                header(1, 0, &long(length)) + &map("TEC", 1, Some(0), ZEROS, "") + &end(),
                header(1, 0, "") + &map("TEC", 1, Some(0), ZEROS, &long(length)) + &end(),
            ];
            for text in texts {
                let line = line_of(&text, "a line:");
                let expected = Refusal::Place {
                    number: 1,
                    line,
                    column: 81,
                };
                match read(library, &text) {
                    Ok(_) => assert!(good),
                    Err(refusal) => assert_eq!((refusal, good), (expected, false)),
                }
            }
        }
    });
}

/// Texts without a record end too early, on the line behind their last.
#[test]
fn texts_of_blanks() {
    each(|library| {
        for (text, line) in [("", 1), ("\n", 2), ("  \r\n\n ", 4)] {
            let expected = Refusal::Place {
                number: 10,
                line,
                column: 0,
            };
            assert_eq!(read(library, text).err(), Some(expected));
        }
    });
}

/// "exponent 0 ... pass; ... 1 ... refused"
#[test]
fn exponents_up_to_0() {
    each(|library| {
        for (k, good) in [(0, true), (1, false)] {
            let texts = [
                header(1, 0, &exponent(k)) + &map("TEC", 1, Some(0), ZEROS, "") + &end(),
                header(1, 0, "") + &map("TEC", 1, Some(0), ZEROS, &exponent(k)) + &end(),
            ];
            for text in texts {
                let line = line_of(&text, "EXPONENT");
                let expected = Refusal::Place {
                    number: 7,
                    line,
                    column: 1,
                };
                let refusal = read(library, &text).err();
                assert_eq!(refusal, (!good).then_some(expected));
            }
        }
    });
}

/// "a gap of 21,600 s pass; ... 21,601 are refused"
#[test]
fn gaps_up_to_21600() {
    each(|library| {
        for (gap, good) in [(21_600, true), (21_601, false)] {
            let text = header(2, gap, "")
                + &map("TEC", 1, Some(0), ZEROS, "")
                + &map("TEC", 2, Some(gap), ZEROS, "")
                + &end();
            let starts = text.lines().enumerate();
            let line = starts
                .filter(|(_, line)| line.contains("EPOCH OF CURRENT"))
                .last()
                .map_or(0, |(k, _)| k as u64 + 1);
            let expected = Refusal::Place {
                number: 8,
                line,
                column: 1,
            };
            let refusal = read(library, &text).err();
            assert_eq!(refusal, (!good).then_some(expected));
        }
    });
}

/// "Setting the exponent back to -1 at each map or kind": it stays in force across all of them.
#[test]
fn exponents_stay_in_force() {
    let text = header(2, 60, &exponent(-2))
        + &map("TEC", 1, Some(0), ZEROS, &exponent(0))
        + &map("RMS", 1, None, ZEROS, "")
        + &map("TEC", 2, Some(60), ZEROS, "")
        + &exponent(-3)
        + &map("HEIGHT", 2, None, ZEROS, "")
        + &end();
    each(|library| {
        let set = read(library, &text).expect("accepted");
        let tec = [-2, 0, 0, 0];
        let rms = [0, 0, -1, -1];
        let height = [-1, -1, -3, -3];
        assert_eq!(set.areas.exponents, [tec, rms, height].concat());
        assert_eq!(set.areas.marks, [1, 2]);
        assert_eq!(set.areas.rms[4..], [9999; 4]);
        assert_eq!(set.areas.height[..4], [9999; 4]);
    });
}

fn question(latitude: i64, longitude: i64, second: u64, method: i64) -> Question {
    Question {
        kind: 0,
        method,
        layer: 0,
        latitude,
        longitude,
        second: START + second,
    }
}

fn tecu(value: i64) -> Result<Answer, Refusal> {
    Ok(Answer::ThousandthsOfTecu(value))
}

fn no(number: u8) -> Result<Answer, Refusal> {
    Err(Refusal::Bare { number })
}

fn one_map(values: [[i32; 2]; 2]) -> String {
    header(1, 0, "") + &map("TEC", 1, Some(0), values, "") + &end()
}

/// "Treating 9999 as 999.9 TECU, or refusing for an absent node whose weight is zero."
#[test]
fn absent_nodes() {
    let text = one_map([[100, 9999], [300, 400]]);
    each(|library| {
        let set = read(library, &text).expect("accepted");
        let ask = |latitude, longitude| library.ask(&set, &question(latitude, longitude, 0, 1));
        assert_eq!(ask(1000, 1000), no(22));
        assert_eq!(ask(1000, 1), no(22));
        assert_eq!(ask(1, 1), no(22));
        assert_eq!(ask(1000, 0), tecu(10_000));
        assert_eq!(ask(500, 0), tecu(20_000));
        assert_eq!(ask(0, 500), tecu(35_000));
    });
}

/// A map whose weight in time is zero is not needed either.
#[test]
fn absent_maps() {
    let text = header(2, 60, "")
        + &map("TEC", 1, Some(0), [[9999; 2]; 2], "")
        + &map("TEC", 2, Some(60), [[7; 2]; 2], "")
        + &end();
    each(|library| {
        let set = read(library, &text).expect("accepted");
        for (second, method, expected) in [
            (60, 1, tecu(700)),
            (59, 1, no(22)),
            (31, 0, tecu(700)),
            (30, 0, no(22)),
            (0, 1, no(22)),
        ] {
            let found = library.ask(&set, &question(500, 500, second, method));
            assert_eq!(found, expected, "{second} {method}");
        }
    });
}

/// "Rounding in space and again in time": a quarter is 0, though a half is 1 and half of that 1 again.
#[test]
fn rounded_once() {
    let text = header(2, 60, &exponent(-3))
        + &map("TEC", 1, Some(0), [[0, 1], [0, 1]], "")
        + &map("TEC", 2, Some(60), ZEROS, "")
        + &end();
    each(|library| {
        let set = read(library, &text).expect("accepted");
        let ask = |second| library.ask(&set, &question(1000, 500, second, 1));
        assert_eq!(ask(0), tecu(1));
        assert_eq!(ask(30), tecu(0));
        assert_eq!(ask(60), tecu(0));
    });
}

/// A set of one map with two rows and these columns, in tenths; the values are 100 at the first
/// column and 10 more at each next one, in thousandths.
fn columns(first: i64, last: i64, step: i64) -> MapSet {
    let mut set = read(&Second, &one_map(ZEROS)).expect("accepted");
    set.header.longitudes = Axis { first, last, step };
    let count = (last - first) / step + 1;
    let row = (0..count).map(|column| 100 + 10 * column as i32);
    set.areas.tec = row.clone().chain(row).collect();
    set.areas.exponents.fill(-3);
    set
}

/// The strip of document 02's second request: three grids have one, and two that lack a column do not.
#[test]
fn the_strip() {
    each(|library| {
        let ask = |set: &MapSet, longitude| library.ask(set, &question(500, longitude, 0, 1));
        for (first, last, step, halfway) in [
            (0, 3575, 25, 815),
            (0, 3550, 50, 455),
            (-1800, 1750, 50, 455),
        ] {
            let set = columns(first, last, step);
            assert_eq!(ask(&set, 10 * last + 5 * step), tecu(halfway));
            assert_eq!(ask(&set, 10 * first - 5 * step), tecu(halfway));
            assert_eq!(ask(&set, 10 * first), tecu(100));
        }
        for (last, step) in [(3550, 25), (3500, 50)] {
            let set = columns(0, last, step);
            assert_eq!(ask(&set, 10 * last), tecu(100 + 10 * last / step));
            assert_eq!(ask(&set, 10 * last + 1), no(21));
            assert_eq!(ask(&set, -1), no(21));
        }
    });
}

/// Document 02's third request: two maps two hours apart on the columns 0.0 to 355.0 by 5.0, the second 1000 above the
/// first. Each is asked where the Sun has gone with it: halfway, 15 degrees on and 15 degrees back.
#[test]
fn maps_that_turn() {
    let mut set = columns(0, 3550, 50);
    let above = set.areas.tec.iter().map(|value| value + 1000);
    set.areas.tec = set.areas.tec.iter().copied().chain(above).collect();
    set.areas.exponents = vec![-3, -3, -3, -3, -1, -1, -1, -1, -1, -1, -1, -1];
    set.areas.epochs = vec![START, START + 7200];
    set.areas.marks = vec![0, 0];
    set.header.maps = 2;
    set.header.last_epoch = START + 7200;
    each(|library| {
        let ask = |longitude, second, method| {
            let question = question(500, longitude, second, method);
            library.ask(&set, &question)
        };
        // At 40.0 and 10.0: 180 and 1120.
        assert_eq!(ask(2_500, 3_600, 2), tecu(650));
        // At 27.5 and in the strip, at 357.5: 155 and 1455.
        assert_eq!(ask(1_250, 3_600, 2), tecu(805));
        // 7.5 on and 22.5 back, at 17.5 and 347.5: 135 and 1795, with weights 3/4 and 1/4.
        assert_eq!(ask(1_000, 1_800, 2), tecu(550));
        // The earlier map alone, at 25.0.
        assert_eq!(ask(1_000, 3_600, 3), tecu(150));
        // As methods 1 and 0 at an epoch.
        for longitude in [0, 2_500, 35_750] {
            for second in [0, 7_200, 7_201] {
                assert_eq!(ask(longitude, second, 2), ask(longitude, second, 1));
                assert_eq!(ask(longitude, second, 3), ask(longitude, second, 0));
            }
        }
    });
}

/// "24 when the grid does not go round, DLON is above 5.0, or two neighbouring epochs are more than 7,200 s apart"
#[test]
fn maps_that_do_not_turn() {
    each(|library| {
        let ask = |set: &MapSet, second, method| {
            let question = question(500, 0, second, method);
            library.ask(set, &question)
        };
        for (first, last, step, good) in [
            (0, 3550, 50, true),
            (-1800, 1800, 50, true),
            (0, 3500, 50, false),
            (0, 3540, 60, false),
            (0, 3600, 60, false),
            (0, 3575, 55, false),
        ] {
            let set = columns(first, last, step);
            for method in [2, 3] {
                let expected = if good { ask(&set, 0, 1) } else { no(24) };
                assert_eq!(ask(&set, 0, method), expected);
                // 24 before 20.
                let expected = if good { no(20) } else { no(24) };
                assert_eq!(ask(&set, 1, method), expected);
            }
        }
        for (gap, good) in [(7_200, true), (7_201, false)] {
            let mut set = columns(0, 3550, 50);
            set.areas.tec.extend_from_within(..);
            set.areas.exponents = vec![-1; 12];
            set.areas.epochs = vec![START, START + gap];
            set.areas.marks = vec![0, 0];
            set.header.maps = 2;
            set.header.last_epoch = START + gap;
            for method in [2, 3] {
                let expected = if good { tecu(10_000) } else { no(24) };
                assert_eq!(ask(&set, 0, method), expected);
            }
            assert_eq!(ask(&set, 0, 1), tecu(10_000));
        }
    });
}

/// Document 02's thirteenth request: one TECU at L1 is about 0.162 m, and at 1 GHz 0.403 m.
#[test]
fn delays_in_metres() {
    each(|library| {
        let delay = |x, carrier| {
            let record = library.tecu_delay(x, carrier);
            record.map(|bits| bits.map(f64::from_bits))
        };
        let [carrier, tecu, metres] = delay(1000, L1).expect("a delay");
        assert_eq!((carrier, tecu), (1_575_420_000.0, 1.0));
        assert_eq!(format!("{metres:.4}"), "0.1624");
        assert_eq!(delay(1000, 1.0e9), Ok([1.0e9, 1.0, 0.403]));
        assert_eq!(delay(-1000, 2.0e9), Ok([2.0e9, -1.0, -0.100_75]));
        let zero = library.tecu_delay(0, L1);
        assert_eq!(zero, Ok([L1.to_bits(), 0, 0]));
        let beside = |value: f64, by| f64::from_bits(value.to_bits().wrapping_add_signed(by));
        for carrier in [
            beside(1.0e9, -1),
            beside(2.0e9, 1),
            -L1,
            -0.0,
            f64::INFINITY,
            f64::NEG_INFINITY,
            f64::NAN,
            -f64::NAN,
        ] {
            let refused = Err(Refusal::Bare { number: 25 });
            assert_eq!(delay(1000, carrier), refused, "{carrier}");
        }
    });
}

/// The delay of a question's answer: 25 TECU between the corners. A height is 23, and 25 comes last.
#[test]
fn delays_of_questions() {
    let text = one_map([[100, 200], [300, 9999]]);
    each(|library| {
        let set = read(library, &text).expect("accepted");
        let ask = |latitude, kind, second, carrier| {
            let question = Question {
                kind,
                ..question(latitude, 0, second, 1)
            };
            let record = library.delay(&set, &question, carrier);
            record.map(|bits| bits.map(f64::from_bits))
        };
        let no = |number| Err(Refusal::Bare { number });
        // Halfway between 10 and 30 TECU.
        let [carrier, tecu, metres] = ask(500, 0, 0, L1).expect("a delay");
        assert_eq!((carrier, tecu), (L1, 20.0));
        assert_eq!(format!("{metres:.3}"), "3.247");
        assert_eq!(ask(500, 0, 0, 1.0), no(25));
        assert_eq!(ask(500, 2, 0, 1.0), no(23));
        assert_eq!(ask(500, 3, 0, 1.0), no(23));
        assert_eq!(ask(500, 1, 0, 1.0), no(22));
        assert_eq!(ask(-1, 1, 0, 1.0), no(21));
        assert_eq!(ask(-1, 1, 1, 1.0), no(20));
    });
}

/// Document 02's eleventh request: two days that share midnight. Its map comes from the later day, with its RMS map.
#[test]
fn two_days_joined() {
    let corner = |value: i32| [[value; 2]; 2];
    let first = header(2, 3600, "")
        + &map("TEC", 1, Some(0), corner(10), "")
        + &map("TEC", 2, Some(3600), corner(20), "")
        + &map("RMS", 2, None, corner(1), "")
        + &end();
    let second = header(2, 7200, "").replace(&date(0), &date(3600))
        + &map("TEC", 1, Some(3600), corner(30), "")
        + &map("RMS", 1, None, corner(2), "")
        + &map("TEC", 2, Some(7200), corner(40), "")
        + &end();
    each(|library| {
        let (first, second) = (read(library, &first), read(library, &second));
        let (first, second) = (first.expect("accepted"), second.expect("accepted"));
        let mut areas = rubbish([12, 12, 0, 18, 3, 3], 1);
        let answer = library.join(&first, &second, &mut areas);
        let Reading::Accepted { header, texts } = answer else {
            panic!("{answer:?}");
        };
        assert_eq!((header.maps, header.interval), (3, 0));
        assert_eq!(
            (header.first_epoch, header.last_epoch),
            (START, START + 7200)
        );
        assert_eq!(areas.marks, [0, 1, 0]);
        assert_eq!(areas.tec, [[10; 4], [30; 4], [40; 4]].concat());
        assert_eq!(areas.rms, [[9999; 4], [2; 4], [9999; 4]].concat());
        let set = MapSet {
            header,
            texts,
            areas,
        };
        // Halfway from 10 to 30, though the first day alone says 15.
        assert_eq!(library.ask(&set, &question(500, 500, 1800, 1)), tecu(2_000));
        assert_eq!(
            library.ask(&first, &question(500, 500, 1800, 1)),
            tecu(1_500)
        );
        // Not the other way round, and not with another radius.
        let mut areas = rubbish([12, 12, 0, 18, 3, 3], 1);
        let refused = |number| Reading::Refused(Refusal::Bare { number });
        assert_eq!(library.join(&second, &first, &mut areas), refused(41));
        let mut other = second.clone();
        other.header.radius += 1;
        assert_eq!(library.join(&first, &other, &mut areas), refused(40));
        assert_eq!(library.join(&other, &first, &mut areas), refused(40));
    });
}

/// The figures of interpolation that are proved, run as well.
#[test]
fn corners_and_halves() {
    let corners = [[100, 200], [300, 400]];
    let text = one_map(corners);
    let halves = |one: i32| {
        header(1, 0, &exponent(-3)) + &map("TEC", 1, Some(0), [[0, one]; 2], "") + &end()
    };
    each(|library| {
        let ask = |text: &str| {
            let set = read(library, text).expect("accepted");
            library.ask(&set, &question(500, 500, 0, 1))
        };
        assert_eq!(ask(&text), tecu(25_000));
        assert_eq!(ask(&halves(1)), tecu(1));
        assert_eq!(ask(&halves(-1)), tecu(-1));
    });
}
