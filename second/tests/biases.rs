//! Code biases, on a small text with blocks put into its header.

mod common;

use common::{base, join, rec};
use second::biases::{biases, gathered, Room, Satellite, Station};
use second::Refusal;

fn satellite(body: &str) -> String {
    rec(body, "PRN / BIAS / RMS")
}

fn station(body: &str) -> String {
    rec(body, "STATION / BIAS / RMS")
}

/// A block of these lines.
fn block(title: &str, lines: &[String]) -> Vec<String> {
    let mut block = vec![rec(title, "START OF AUX DATA")];
    block.extend_from_slice(lines);
    block.push(rec("", "END OF AUX DATA"));
    block
}

const TITLE: &str = "DIFFERENTIAL CODE BIASES";

/// The base text with lines behind its second, so that the first of them is line 3.
fn text(lines: &[String]) -> Vec<u8> {
    let mut all = base();
    all.splice(2..2, lines.iter().cloned());
    join(&all)
}

fn told(lines: &[String]) -> String {
    match gathered(&text(&block(TITLE, lines))) {
        Ok(found) => format!("{} and {}", found.satellites.len(), found.stations.len()),
        Err(refusal) => refusal.to_string(),
    }
}

/// As in 004's examples: one letter, a number of two digits, a name of A4,1X,A9,6X.
#[test]
fn the_records_of_004() {
    let mut lines = block(
        TITLE,
        &[
            satellite("    01    -1.234     0.005"),
            satellite("   R 2      .500     -.001"),
            station("   G  BRUS 13101M004          12.345     0.010"),
            rec("DCB values in ns", "COMMENT"),
            rec("anything", "ANYTHING"),
            rec("a block", "START OF AUX DATA"),
            "".to_string(),
        ],
    );
    lines.extend(block("OTHER", &[satellite("   X99   -1.234")]));
    lines.extend(block(
        TITLE,
        &[station("   R  BRUS 13101M004      999999.999-99999.999")],
    ));
    let found = gathered(&text(&lines)).unwrap();
    let satellites = [(b'G', 1, -1_234, 5), (b'R', 2, 500, -1)];
    let satellites = satellites.map(|(system, number, bias, rms)| Satellite {
        system,
        number,
        bias,
        rms,
    });
    assert_eq!(found.satellites, satellites);
    let name = *b"BRUS 13101M004      ";
    let stations = [(b'G', 12_345, 10), (b'R', 999_999_999, -99_999_999)];
    let stations = stations.map(|(system, bias, rms)| Station {
        system,
        name,
        bias,
        rms,
    });
    assert_eq!(found.stations, stations);
}

#[test]
fn fields_then_letter_then_number_then_twice() {
    let good = "   G01     0.000     0.000";
    let after = |body: &str| told(&[satellite(good), satellite(body)]);
    assert_eq!(after("   R01     0.000     0.000"), "2 and 0");
    let table = [
        // 6: the leftmost of X columns and fields.
        ("  xE00     0.00      0.000", "6 line 5 column 3"),
        ("   Ex0     0.00      0.000", "6 line 5 column 5"),
        ("   E00     0.00      0.000", "6 line 5 column 7"),
        ("   E00     0.000     0.0 0", "6 line 5 column 17"),
        ("   E00     0.000     0.000       x", "6 line 5 column 34"),
        // 7: the letter before the number.
        ("   E00     0.000     0.000", "7 line 5 column 4"),
        ("   g01     0.000     0.000", "7 line 5 column 4"),
        ("   G00     0.000     0.000", "7 line 5 column 5"),
        ("    -1     0.000     0.000", "7 line 5 column 5"),
        // 5: blank and G are one.
        (good, "5 line 5 column 61"),
        ("     1     0.000     0.000", "5 line 5 column 61"),
    ];
    for (body, place) in table {
        assert_eq!(after(body), format!("refused {place}"), "{body}");
    }
}

#[test]
fn stations() {
    let good = "   G  BRUS                     0.000     0.000";
    let after = |body: &str| told(&[station(good), station(body)]);
    let table = [
        ("   R  BRUS                     0.000     0.000", "0 and 2"),
        ("      BRUS               x     0.000     0.000", "0 and 2"),
        ("       BRUS                    0.000     0.000", "0 and 2"),
        ("                               0.000     0.000", "0 and 2"),
        (
            "      BRUS                     1.000     0.000",
            "refused 5 line 5 column 61",
        ),
        (
            "   E  BRUS                     1.000     0.000",
            "refused 7 line 5 column 4",
        ),
        (
            "   G BBRUS                     0.000     0.000",
            "refused 6 line 5 column 6",
        ),
        (
            "   G  BRUS                xxxx 0.000     0.000",
            "refused 6 line 5 column 27",
        ),
        (
            "   G  BRUS                     0.000     0.00",
            "refused 6 line 5 column 37",
        ),
        (
            "   G  BRUS                     0.000     0.000x",
            "refused 6 line 5 column 47",
        ),
    ];
    for (body, expected) in table {
        assert_eq!(after(body), expected, "{body}");
    }
}

/// "over all such blocks of the file"; the map reader's refusals come first, wherever they stand.
#[test]
fn over_blocks_and_after_the_maps() {
    let one = satellite("   G01     0.000     0.000");
    let mut lines = block(TITLE, std::slice::from_ref(&one));
    lines.extend(block(TITLE, std::slice::from_ref(&one)));
    let twice = text(&lines);
    let place = |number, line, column| {
        Err(Refusal::Place {
            number,
            line,
            column,
        })
    };
    assert_eq!(gathered(&twice), place(5, 7, 61));
    let mut cut = twice.clone();
    cut.truncate(cut.len() - 72);
    let line = base().len() as u64 + 6;
    assert_eq!(gathered(&cut), place(10, line, 0));
    for title in [
        "DIFFERENTIAL CODE BIASES x",
        " DIFFERENTIAL CODE BIASES",
        "differential code biases",
    ] {
        let mut lines = block(TITLE, std::slice::from_ref(&one));
        lines.extend(block(title, std::slice::from_ref(&one)));
        assert_eq!(
            gathered(&text(&lines)).unwrap().satellites.len(),
            1,
            "{title}"
        );
    }
}

#[test]
fn areas() {
    let lines = block(
        TITLE,
        &[
            satellite("   R99    -0.001     2.000"),
            station("      ABCDEFGHIJKLMNOPQRST     1.000     0.500"),
        ],
    );
    let text = text(&lines);
    let ask = |lengths: [usize; 3]| {
        let mut satellites = vec![7; lengths[0]];
        let mut stations = vec![7; lengths[1]];
        let mut names = vec![b'#'; lengths[2]];
        let answer = biases(
            &text,
            &mut Room {
                satellites: &mut satellites,
                stations: &mut stations,
                names: &mut names,
            },
        );
        (answer, satellites, stations, names)
    };
    let (answer, satellites, stations, names) = ask([5, 4, 21]);
    assert_eq!(answer, Ok([1, 1]));
    assert_eq!(satellites, [82, 99, -1, 2_000, 7]);
    assert_eq!(stations, [71, 1_000, 500, 7]);
    assert_eq!(names, b"ABCDEFGHIJKLMNOPQRST#");
    for (lengths, area, need) in [([3, 0, 0], 1, 4), ([4, 2, 0], 2, 3), ([4, 3, 19], 3, 20)] {
        let (answer, satellites, stations, names) = ask(lengths);
        assert_eq!(answer, Err(Refusal::Area { area, need }));
        assert!(satellites.iter().chain(&stations).all(|&n| n == 7));
        assert!(names.iter().all(|&b| b == b'#'));
    }
}

/// The first repeat in the order of the lines, however far it stands from the row that it repeats.
#[test]
fn many_stations() {
    let row = |k: usize| station(&format!("   R  S{k:<19}     0.000     0.000"));
    let mut lines: Vec<String> = (0..5000).map(row).collect();
    assert_eq!(told(&lines), "0 and 5000");
    lines.push(row(0));
    assert_eq!(told(&lines), "refused 5 line 5004 column 61");
    lines.insert(4500, row(4499));
    assert_eq!(told(&lines), "refused 5 line 4504 column 61");
    lines.insert(4500, station("   E  S0"));
    assert_eq!(told(&lines), "refused 6 line 4504 column 27");
}

/// Outside an aux block the labels are none of the map reader's.
#[test]
fn labels_outside_a_block() {
    for line in [satellite("   G01     0.000     0.000"), station("")] {
        let place = Refusal::Place {
            number: 4,
            line: 3,
            column: 61,
        };
        assert_eq!(gathered(&text(&[line])), Err(place));
    }
}
