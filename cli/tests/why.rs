//! `ionex why`: the nodes of an answer by hand and by the second program, and the node that has no value.

mod common;

use common::peer::{Chance, Peer};
use common::{example, global, ionex, ionex_given, Folder};
use second::Question;

const CANONICAL: &str = "tests/examples/accepted-canonical.inx";

fn asked(file: &str, at: &str, time: &str, more: &[&str]) -> common::Ran {
    ionex(&[&["why", file, "--at", at, "--time", time], more].concat())
}

/// Rows 10.0 and 0.0, columns 0.0, 10.0 and 20.0: 1 2 3 over 4 5 6 at midnight, and 10 more each two hours later, all in
/// tenths of a TECU.
#[test]
fn by_hand() {
    // Halfway between the rows, a quarter of the way from column 1 to column 2, the earlier of two maps equally near.
    let ran = asked(
        CANONICAL,
        "5,12.5",
        "2000-01-01T01:00:00",
        &["--method", "nearest"],
    );
    let expected = "tests/examples/accepted-canonical.inx: 0.375 TECU is the TEC at 5.00,12.50, 2000-01-01 01:00:00, by nearest, layer 0
  map  epoch                   lat     lon  layer   row  column             value          weight      share
    1  2000-01-01 00:00:00    10.0    10.0      0     0       1        0.200 TECU          375000   37.500 %
    1  2000-01-01 00:00:00    10.0    20.0      0     0       2        0.300 TECU          125000   12.500 %
    1  2000-01-01 00:00:00     0.0    10.0      0     1       1        0.500 TECU          375000   37.500 %
    1  2000-01-01 00:00:00     0.0    20.0      0     1       2        0.600 TECU          125000   12.500 %
sum of value times weight: 375000000/1000000 thousandths = 0.375000 TECU
rounded once: 0.375 TECU
";
    assert_eq!(ran.done(), expected);
    // Of RMS only the later map is there.
    let ran = asked(CANONICAL, "10,0", "2000-01-01T02:00:00", &["--kind", "rms"]);
    let expected = "tests/examples/accepted-canonical.inx: 2.100 TECU is the RMS at 10.00,0.00, 2000-01-01 02:00:00, by between, layer 0
  map  epoch                   lat     lon  layer   row  column             value          weight      share
    2  2000-01-01 02:00:00    10.0     0.0      0     0       0        2.100 TECU         1000000  100.000 %
sum of value times weight: 2100000000/1000000 thousandths = 2.100000 TECU
rounded once: 2.100 TECU
";
    assert_eq!(ran.done(), expected);
}

#[test]
fn the_node_without_a_value() {
    let of = "refused 22: a node that the answer needs has no value";
    let ran = asked(CANONICAL, "5,15", "2000-01-01T02:00:00", &["--kind", "rms"]);
    let node = "map 2 (2000-01-01 02:00:00), layer 0, row 1 (latitude 0.0), column 2 (longitude 20.0): its number is 9999";
    ran.failed(1, &format!("ionex: {of}: {node}\n"));
    assert_eq!(ran.text(), "");
    let ran = asked(CANONICAL, "5,15", "2000-01-01T01:59:59", &["--kind", "rms"]);
    let node = "map 1 (2000-01-01 00:00:00), layer 0, row 0 (latitude 10.0), column 1 (longitude 10.0): there is no RMS map at \
                that epoch";
    ran.failed(1, &format!("ionex: {of}: {node}\n"));
    let ran = asked(
        CANONICAL,
        "0,20",
        "2000-01-01T02:00:00",
        &["--kind", "rms", "--json"],
    );
    let expected = r#"{"lat":0.00,"lon":20.00,"time":"2000-01-01T02:00:00","kind":"rms","method":"between","layer":0,"lacking":{"map":2,"epoch":"2000-01-01T02:00:00","layer":0,"row":1,"lat":0.0,"column":2,"lon":20.0,"cause":"9999"},"refused":22,"reason":"a node that the answer needs has no value: map 2 (2000-01-01 02:00:00), layer 0, row 1 (latitude 0.0), column 2 (longitude 20.0): its number is 9999"}"#;
    assert_eq!(
        (ran.status, ran.text()),
        (1, format!("{expected}\n").as_str())
    );
}

/// Every other refusal is told as `ionex ask` tells it.
#[test]
fn refused_as_the_question() {
    let cases: &[(&str, &str, &[&str])] = &[
        ("0,0", "2000-01-02", &[]),
        ("-0.01,0", "2000-01-01", &[]),
        ("5,-10", "2000-01-01", &["--json"]),
        ("5,5", "2000-01-01", &["--layer", "1"]),
        ("0,0", "2000-01-01", &["--method", "sun"]),
    ];
    for (at, time, more) in cases {
        let why = asked(CANONICAL, at, time, more);
        let ask = ionex(&[&["ask", CANONICAL, "--at", at, "--time", time], *more].concat());
        assert_eq!(
            (why.status, why.text(), &why.err),
            (1, ask.text(), &ask.err)
        );
    }
    let ran = asked("tests/examples/refused-07.inx", "0,0", "2000-01-01", &[]);
    assert_eq!((ran.status, ran.text()), (1, ""));
    assert!(ran
        .err
        .starts_with("tests/examples/refused-07.inx:3:13: refused 7: "));
}

#[test]
fn json() {
    let ran = asked(
        CANONICAL,
        "10,5",
        "2000-01-01",
        &["--json", "--method", "nearest"],
    );
    let expected = r#"{"lat":10.00,"lon":5.00,"time":"2000-01-01T00:00:00","kind":"tec","method":"nearest","layer":0,"value":0.150,"unit":"TECU","sum":150000000,"denominator":1000000,"nodes":[{"map":1,"epoch":"2000-01-01T00:00:00","layer":0,"row":0,"lat":10.0,"column":0,"lon":0.0,"value":0.100,"weight":500000},{"map":1,"epoch":"2000-01-01T00:00:00","layer":0,"row":0,"lat":10.0,"column":1,"lon":10.0,"value":0.200,"weight":500000}]}"#;
    assert_eq!(ran.done(), format!("{expected}\n"));
}

#[test]
fn a_file_from_standard_input() {
    let ran = ionex_given(
        &example("accepted-canonical.inx"),
        &["why", "-", "--at", "10,0", "--time", "2000-01-01"],
    );
    assert!(ran
        .done()
        .starts_with("standard input: 0.100 TECU is the TEC at 10.00,0.00, "));
    assert!(ran.text().ends_with("rounded once: 0.100 TECU\n"));
}

/// Questions all over a day, by every method, against the second program.
#[test]
fn agrees_with_the_second_program() {
    let folder = Folder::new();
    let text = global::text(true);
    let day = folder.file("day.inx", &text);
    let peer = Peer::read(&text).expect("accepted");
    let first = second::calendar::seconds([2010, 12, 4, 0, 0, 0]).expect("a date");
    let mut chance = Chance::new(7);
    let (mut explained, mut lacking) = (0, 0);
    for k in 0..240 {
        let question = Question {
            kind: k % 3 / 2,
            method: k % 4,
            layer: 0,
            latitude: chance.below(18_000) as i64 - 9_000,
            longitude: chance.below(80_000) as i64 - 40_000,
            second: first + chance.below(86_400),
        };
        let [year, month, date, hour, minute, second] =
            second::calendar::date(question.second).expect("a date");
        let time = format!("{year:04}-{month:02}-{date:02}T{hour:02}:{minute:02}:{second:02}");
        let at = format!(
            "{:.2},{:.2}",
            question.latitude as f64 / 100.0,
            question.longitude as f64 / 100.0
        );
        let kind = ["tec", "rms"][question.kind as usize];
        let method = ["nearest", "between", "sun", "nearest-sun"][question.method as usize];
        let ran = asked(
            &day,
            &at,
            &time,
            &["--kind", kind, "--method", method, "--json"],
        );
        match peer.explained(&question) {
            Ok(suffix) => {
                explained += 1;
                let value = peer.ask(&question).expect("an answer").replace(" TECU", "");
                let end = format!("\"value\":{value},\"unit\":\"TECU\",{suffix}\n");
                assert!(ran.done().ends_with(&end), "{}\n{end}", ran.text());
            }
            Err((number, node)) => {
                assert_eq!(ran.status, 1);
                assert!(ran.text().contains(&format!("\"refused\":{number},")));
                if let Some(node) = node {
                    lacking += 1;
                    let node = node.replace("NoValue", "\"9999\"");
                    assert!(
                        ran.text().contains(&format!("\"lacking\":{{{node}}}")),
                        "{node}"
                    );
                }
            }
        }
    }
    assert!(explained > 150 && lacking > 3, "{explained} and {lacking}");
}
