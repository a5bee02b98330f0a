//! `ionex ask`: answers, refusals in words, and many questions from standard input.

mod common;

use common::peer::{Chance, Peer};
use common::{command, example, global, ionex, ionex_given, Folder};
use second::Question;
use std::io::{BufRead, BufReader, Write};
use std::process::Stdio;

const TABLE_3: &str = "tests/examples/001-table-3.inx";
const CANONICAL: &str = "tests/examples/accepted-canonical.inx";

fn asked(file: &str, at: &str, time: &str, more: &[&str]) -> common::Ran {
    ionex(&[&["ask", file, "--at", at, "--time", time], more].concat())
}

/// Rows 10.0 and 0.0, columns 0.0, 10.0 and 20.0: 1 2 3 over 4 5 6 at midnight, and 10 more each two hours later, all in
/// tenths of a TECU.
#[test]
fn by_hand() {
    let at_midnight =
        |at, more: &[&str]| asked(CANONICAL, at, "2000-01-01", more).done().to_string();
    assert_eq!(at_midnight("10,0", &[]), "0.100 TECU\n");
    // A quarter of each of 1, 2, 4 and 5.
    assert_eq!(at_midnight("5,5", &[]), "0.300 TECU\n");
    // 1/2 north to south, 1/4 from 2 to 3: 2.25 and 5.25.
    assert_eq!(
        at_midnight("5,12.5", &["--method", "nearest"]),
        "0.375 TECU\n"
    );
    let between = |time| {
        asked(CANONICAL, "10.00,20.00", time, &[])
            .done()
            .to_string()
    };
    assert_eq!(between("2000-01-01T00:30:00"), "0.550 TECU\n");
    assert_eq!(between("2000-01-01 02:00:00"), "1.300 TECU\n");
    let nearest = |time| {
        asked(CANONICAL, "10,20", time, &["--method=nearest"])
            .done()
            .to_string()
    };
    assert_eq!(nearest("2000-01-01T01:00:00"), "0.300 TECU\n");
    assert_eq!(nearest("2000-01-01T01:00:01"), "1.300 TECU\n");
    let rms = asked(CANONICAL, "0,10", "2000-01-01T02:00:00", &["--kind", "rms"]);
    assert_eq!(rms.done(), "2.500 TECU\n");
    let height = asked(TABLE_3, "-85,0", "1995-10-15", &["--kind", "height"]);
    assert_eq!(height.done(), "0.000 km\n");
}

#[test]
fn refused_in_words() {
    let cases: &[(&str, &str, &[&str], &str)] = &[
        (
            "0,0",
            "2000-01-02",
            &[],
            "20: the time lies before the first or after the last map: 2000-01-02 00:00:00 is not within 2000-01-01 \
             00:00:00 to 2000-01-01 02:00:00",
        ),
        ("-0.01,0", "2000-01-01", &[], "21: the place or the layer lies outside the grid: latitude -0.01 is not within 10.0 to 0.0"),
        ("5,-10", "2000-01-01", &[], "21: the place or the layer lies outside the grid: longitude -10.00 is not within 0.0 to 20.0"),
        ("5,5", "2000-01-01", &["--layer", "1"], "21: the place or the layer lies outside the grid: layer 1 of 1, counted from 0"),
        ("0,20", "2000-01-01T02:00:00", &["--kind", "rms"], "22: a node that the answer needs has no value"),
        (
            "0,20",
            "2000-01-01T02:00:00",
            &["--kind", "height"],
            "22: a node that the answer needs has no value: the file has no height map",
        ),
        (
            "0,0",
            "2000-01-01",
            &["--method", "sun"],
            "24: maps that cannot be turned with the Sun: the grid does not go round the Earth, its columns are more than 5.0 \
             degrees apart, or two maps more than 7200 seconds: longitudes 0.0 to 20.0 by 10.0 do not go round",
        ),
    ];
    for (at, time, more, words) in cases {
        let ran = asked(CANONICAL, at, time, more);
        ran.failed(1, &format!("ionex: refused {words}\n"));
        assert_eq!(ran.text(), "");
    }
    let ran = asked(TABLE_3, "0,0", "1995-10-15", &["--method", "nearest-sun"]);
    assert_eq!(ran.status, 1);
    assert!(
        ran.err.ends_with(": maps 1 and 2 are 21600 s apart\n"),
        "{}",
        ran.err
    );
}

#[test]
fn json() {
    let ran = asked(CANONICAL, "5,-5", "2000-01-01", &["--json"]);
    let expected = r#"{"lat":5.00,"lon":-5.00,"time":"2000-01-01T00:00:00","kind":"tec","method":"between","layer":0,"refused":21,"reason":"the place or the layer lies outside the grid: longitude -5.00 is not within 0.0 to 20.0"}"#;
    assert_eq!(
        (ran.status, ran.text()),
        (1, format!("{expected}\n").as_str())
    );
    let ran = asked(
        CANONICAL,
        "5,5",
        "2000-01-01",
        &["--json", "--method", "nearest"],
    );
    let expected = r#"{"lat":5.00,"lon":5.00,"time":"2000-01-01T00:00:00","kind":"tec","method":"nearest","layer":0,"value":0.300,"unit":"TECU"}"#;
    assert_eq!(ran.done(), format!("{expected}\n"));
}

/// Refusals and lines that are not understood stand among the answers, in the order of the questions.
#[test]
fn many_in_order() {
    let questions = "10 0 2000-01-01\n\
                     5,5,2000-01-01T00:00:00\r\n\
                     \n\
                     -1 0 2000-01-01\n\
                     5 12.505 2000-01-01\n\
                     10 20 2000-01-01 02:00:00";
    let ran = ionex_given(questions.as_bytes(), &["ask", CANONICAL]);
    let expected = "0.100 TECU\n\
                    0.300 TECU\n\
                    \n\
                    refused 21: the place or the layer lies outside the grid: latitude -1.00 is not within 10.0 to 0.0\n\
                    not understood: \"12.505\": expected degrees with at most two decimals, as 47.25 or -8.5\n\
                    1.300 TECU\n";
    assert_eq!(
        (ran.status, ran.err.as_str(), ran.text()),
        (2, "", expected)
    );
    let ran = ionex_given(b"10 0 2000-01-01\n-1 0 2000-01-01\n", &["ask", CANONICAL]);
    assert_eq!(ran.status, 1);
    assert_eq!(ionex_given(b"", &["ask", CANONICAL]).done(), "");
    let ran = ionex_given(b"x y z\n\n10 0 2000-01-01", &["ask", CANONICAL, "--json"]);
    assert_eq!((ran.status, ran.text().lines().count()), (2, 3));
    assert!(ran.text().starts_with(r#"{"line":"x y z","error":"#));
    assert_eq!(ran.text().lines().nth(1), Some("null"));
}

/// What is written to the program, and the line that it answers with before more is written.
fn in_turn(parts: &[(&str, &str)]) {
    let mut child = command()
        .args(["ask", CANONICAL])
        .stdin(Stdio::piped())
        .stdout(Stdio::piped())
        .spawn()
        .expect("the program runs");
    let mut to = child.stdin.take().expect("standard input");
    let mut from = BufReader::new(child.stdout.take().expect("standard output"));
    for (part, answer) in parts {
        to.write_all(part.as_bytes()).expect("a part");
        let mut line = String::new();
        from.read_line(&mut line).expect("an answer");
        assert_eq!(line, *answer);
    }
    drop(to);
    assert_eq!(child.wait().expect("an end").code(), Some(0));
}

/// An answer comes before the next question is asked.
#[test]
fn one_by_one() {
    in_turn(&[
        ("10 0 2000-01-01\n", "0.100 TECU\n"),
        ("5 5 2000-01-01\n", "0.300 TECU\n"),
    ]);
}

/// A question that is whole is answered though the next one has begun.
#[test]
fn half_a_line_is_not_waited_for() {
    in_turn(&[
        ("10 0 2000-01-01\n5 5", "0.100 TECU\n"),
        (" 2000-01-01\n10", "0.300 TECU\n"),
        (" 20 2000-01-01\n", "0.300 TECU\n"),
    ]);
}

/// Thousands of lines in one go, more than are answered at once, with lines among them that are no questions: each has its
/// answer in its place.
#[test]
fn blocks_of_lines() {
    let kinds: [(&str, &str); 5] = [
        ("10 0 2000-01-01", "0.100 TECU"),
        ("", ""),
        ("0 20 2000-01-01 02:00:00", "1.600 TECU"),
        (
            "-1 0 2000-01-01",
            "refused 21: the place or the layer lies outside the grid: latitude -1.00 is not within 10.0 to 0.0",
        ),
        (
            "x y z",
            "not understood: \"x\": expected degrees with at most two decimals, as 47.25 or -8.5",
        ),
    ];
    for count in [999, 1000, 1001, 2000, 7777] {
        // 7 and 5 have no divisor in common, so that every sort stands at a block's end once.
        let sorts: Vec<usize> = (0..count).map(|k| (k * k + 7 * k) % 5).collect();
        let [questions, expected] = [0, 1].map(|side| {
            let line = |sort: &usize| {
                let (question, answer) = kinds[*sort];
                format!("{}\n", [question, answer][side])
            };
            sorts.iter().map(line).collect::<String>()
        });
        let ran = ionex_given(questions.as_bytes(), &["ask", CANONICAL]);
        assert_eq!((ran.status, ran.text()), (2, expected.as_str()), "{count}");
    }
    // Maps that cannot be turned are told of each question.
    let ran = ionex_given(
        "10 0 2000-01-01\n".repeat(1500).as_bytes(),
        &["ask", CANONICAL, "--method", "sun"],
    );
    assert_eq!((ran.status, ran.text().lines().count()), (1, 1500));
    assert!(ran
        .text()
        .lines()
        .all(|line| line.starts_with("refused 24: ")));
}

/// The file from standard input, and one question.
#[test]
fn a_file_from_standard_input() {
    let ran = ionex_given(
        &example("accepted-canonical.inx"),
        &["ask", "-", "--at", "10,0", "--time", "2000-01-01"],
    );
    assert_eq!(ran.done(), "0.100 TECU\n");
}

/// Questions inside and outside the grid and the day, by the second program. The maps of 001 are too far apart to be
/// turned with the Sun.
#[test]
fn agrees_with_the_second_program() {
    let folder = Folder::new();
    let day = folder.file("day.inx", &global::text(true));
    for (file, first, methods) in [
        (day.as_str(), [2010, 12, 4, 0, 0, 0], 4),
        (TABLE_3, [1995, 10, 15, 0, 0, 0], 2),
    ] {
        let text = std::fs::read(common::repository().join(file)).expect("a file");
        let peer = Peer::read(&text).expect("accepted");
        let first = second::calendar::seconds(first).expect("a date");
        for method in 0..methods {
            for kind in 0..2 {
                agree(file, &peer, kind, method, first);
            }
        }
    }
}

/// The methods by the numbers of the scope paper.
const METHODS: [&str; 4] = ["nearest", "between", "sun", "nearest-sun"];

fn agree(file: &str, peer: &Peer, kind: i64, method: i64, first: u64) {
    let mut chance = Chance::new((10 * kind + method) as u64 + first);
    let (mut questions, mut answers) = (String::new(), Vec::new());
    for _ in 0..1000 {
        let (latitude, longitude) = (
            chance.below(18_400) as i64 - 9_200,
            chance.below(80_000) as i64 - 40_000,
        );
        let second = first - 600 + chance.below(86_400 + 1200);
        let question = Question {
            kind,
            method,
            layer: 0,
            latitude,
            longitude,
            second,
        };
        answers.push(peer.ask(&question));
        let degrees = |hundredths: i64| {
            let sign = if hundredths < 0 { "-" } else { "" };
            format!(
                "{sign}{}.{:02}",
                hundredths.abs() / 100,
                hundredths.abs() % 100
            )
        };
        questions += &format!(
            "{} {} {}\n",
            degrees(latitude),
            degrees(longitude),
            date(second)
        );
    }
    let words = [
        "ask",
        file,
        "--kind",
        ["tec", "rms"][kind as usize],
        "--method",
        METHODS[method as usize],
    ];
    let ran = ionex_given(questions.as_bytes(), &words);
    assert_eq!(ran.text().lines().count(), answers.len());
    let mut refused = 0;
    for ((question, line), answer) in questions.lines().zip(ran.text().lines()).zip(answers) {
        match answer {
            Ok(words) => assert_eq!(line, words, "{question}"),
            Err(number) => {
                refused += 1;
                assert!(
                    line.starts_with(&format!("refused {number}: ")),
                    "{question}: {line}"
                );
            }
        }
    }
    assert!(
        (10..500).contains(&refused),
        "{refused} of 1000 are refused"
    );
}

/// The date of a second from 1900, by the second program's calendar.
fn date(second: u64) -> String {
    let [year, month, day, hour, minute, second] = second::calendar::date(second).expect("a date");
    format!("{year:04}-{month:02}-{day:02}T{hour:02}:{minute:02}:{second:02}")
}

/// Half an hour turns a map by 7.5 degrees: the map before is asked to the east, the map behind to the west.
#[test]
fn turned_with_the_sun() {
    let folder = Folder::new();
    let day = folder.file("day.inx", &global::text(false));
    let sun = |time, more: &[&str]| asked(&day, "0,0", time, more).done().to_string();
    let (equator, greenwich) = (35, 36);
    let node = |map, step: i32| global::tec(map, equator, (greenwich + step) as usize);
    let four = node(0, 1) + node(0, 2) + node(1, -1) + node(1, -2);
    // The mean of four, in thousandths; a half is rounded away from zero.
    let thousandths = (100 * four + 2) / 4;
    let expected = format!("{}.{:03} TECU\n", thousandths / 1000, thousandths % 1000);
    assert_eq!(sun("2010-12-04T00:30:00", &["--method", "sun"]), expected);
    // Twenty minutes are five degrees, one column.
    let nearest = format!("{}.{}00 TECU\n", node(0, 1) / 10, node(0, 1) % 10);
    assert_eq!(
        sun("2010-12-04T00:20:00", &["--method", "nearest-sun"]),
        nearest
    );
    // At an epoch nothing is turned.
    assert_eq!(
        sun("2010-12-04T07:00:00", &["--method", "sun"]),
        sun("2010-12-04T07:00:00", &[])
    );
}

/// Questions repeated before their answers; a line of names is passed over, and so are blank lines.
#[test]
fn csv() {
    let questions = "lat,lon,time\n5,5,2000-01-01T00:30\n\n50,5,2000-01-01\n1.234,5,2000-01-01\n5 5 @946684800\n";
    let ran = ionex_given(questions.as_bytes(), &["ask", CANONICAL, "--csv"]);
    let expected = "\
lat,lon,time,value,unit,refused,reason
5.00,5.00,2000-01-01T00:30:00,0.550,TECU,,
50.00,5.00,2000-01-01T00:00:00,,,21,the place or the layer lies outside the grid: latitude 50.00 is not within 10.0 to 0.0
,,,,,,\"not understood: \"\"1.234\"\": expected degrees with at most two decimals, as 47.25 or -8.5\"
5.00,5.00,2000-01-01T00:00:00,0.300,TECU,,
";
    assert_eq!((ran.status, ran.text()), (2, expected));
    let one = [
        "ask",
        CANONICAL,
        "--csv",
        "--at",
        "5,5",
        "--time",
        "2000-01-01T00:30",
    ];
    let expected =
        "lat,lon,time,value,unit,refused,reason\n5.00,5.00,2000-01-01T00:30:00,0.550,TECU,,\n";
    assert_eq!(ionex(&one).done(), expected);
    // In the other forms a line of names is no question either.
    let ran = ionex_given(b"Lat Lon Time\n5 5 2000-01-01T00:30\n", &["ask", CANONICAL]);
    assert_eq!(ran.done(), "0.550 TECU\n");
}

/// More decimals are rounded where that was asked for, and the place that was asked is told.
#[test]
fn rounded_places() {
    let at = |place: &str, more: &[&str]| {
        let words = [
            "ask",
            CANONICAL,
            "--at",
            place,
            "--time",
            "2000-01-01T00:30",
        ];
        ionex(&[&words[..], more].concat())
    };
    assert_eq!(
        at("4.99951,5.0049", &["--round"]).done(),
        "0.550 TECU at 5.00,5.00\n"
    );
    assert_eq!(at("5.00,5.0", &["--round"]).done(), "0.550 TECU\n");
    assert_eq!(
        at("4.99951,5", &["--round", "--json"]).done(),
        concat!(
            r#"{"lat":5.00,"lon":5.00,"time":"2000-01-01T00:30:00","kind":"tec","method":"between","layer":0,"#,
            r#""rounded":true,"value":0.550,"unit":"TECU"}"#,
            "\n"
        )
    );
    let ran = ionex_given(
        b"4.9996 5.0 2000-01-01T00:30\n5 5 2000-01-01T00:30\n",
        &["ask", CANONICAL, "--round"],
    );
    assert_eq!(ran.done(), "0.550 TECU at 5.00,5.00\n0.550 TECU\n");
    assert_eq!(at("4.9996,5", &[]).status, 2);
    // `why` says the place in its first line.
    let ran = ionex(&[
        "why",
        CANONICAL,
        "--at",
        "4.9996,5.0",
        "--time",
        "2000-01-01T00:30",
        "--round",
    ]);
    assert!(
        ran.done()
            .contains(": 0.550 TECU is the TEC at 5.00,5.00, "),
        "{}",
        ran.text()
    );
}

/// One second in every form: half an hour into 2000, day 1 of its year, the last day of GPS week 1042; 13 leap seconds.
#[test]
fn times() {
    for time in [
        "2000-01-01T00:30:00",
        "2000-01-01 00:30",
        "2000-01-01T00:30Z",
        "2000-001T00:30",
        "2000:001:01800",
        "@946686600",
        "gps:1042:520213",
    ] {
        let ran = ionex(&["ask", CANONICAL, "--at", "5,5", "--time", time]);
        assert_eq!(ran.done(), "0.550 TECU\n", "{time}");
        let ran = ionex_given(format!("5 5 {time}\n").as_bytes(), &["ask", CANONICAL]);
        assert_eq!(ran.done(), "0.550 TECU\n", "{time}");
    }
}
