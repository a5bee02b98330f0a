//! `ionex delay`: delays by hand and by the second program, refusals in words, and many questions.

mod common;

use common::peer::{Chance, Peer};
use common::{example, global, ionex, ionex_given, Folder};
use second::Question;

const CANONICAL: &str = "tests/examples/accepted-canonical.inx";

fn asked(at: &str, time: &str, carrier: &str, more: &[&str]) -> common::Ran {
    let words = ["delay", CANONICAL, "--at", at, "--time", time];
    ionex(&[&words[..], &["--carrier", carrier], more].concat())
}

/// Rows 10.0 and 0.0, columns 0.0, 10.0 and 20.0: 1 2 3 over 4 5 6 at midnight, and 10 more each two hours later, all in
/// tenths of a TECU.
#[test]
fn by_hand() {
    let at = |place, carrier| {
        let ran = asked(place, "2000-01-01", carrier, &[]);
        ran.done().to_string()
    };
    // 0.403 m for each TECU at 1 GHz, and by the square of the frequency elsewhere.
    assert_eq!(
        at("0,10", "1e9"),
        "0.2015 m (0.500 TECU at 1000000000 Hz)\n"
    );
    assert_eq!(
        at("10,0", "2000000000"),
        "0.0101 m (0.100 TECU at 2000000000 Hz)\n"
    );
    // 0.5 * 0.403 / 1.57542^2, 1.2276^2 and 1.17645^2
    assert_eq!(at("0,10", "L1"), "0.0812 m (0.500 TECU at 1575420000 Hz)\n");
    assert_eq!(at("0,10", "L2"), "0.1337 m (0.500 TECU at 1227600000 Hz)\n");
    assert_eq!(at("0,10", "L5"), "0.1456 m (0.500 TECU at 1176450000 Hz)\n");
    // Halfway in time 3 and 13 tenths are 8, and nearest to one o'clock is the earlier map.
    let one = |more: &[&str]| {
        let ran = asked("10,20", "2000-01-01T01:00:00", "1e9", more);
        ran.done().to_string()
    };
    assert_eq!(one(&[]), "0.3224 m (0.800 TECU at 1000000000 Hz)\n");
    assert_eq!(
        one(&["--method", "nearest"]),
        "0.1209 m (0.300 TECU at 1000000000 Hz)\n"
    );
    let rms = asked("0,10", "2000-01-01T02:00:00", "1e9", &["--kind", "rms"]);
    assert_eq!(rms.done(), "1.0075 m (2.500 TECU at 1000000000 Hz)\n");
}

#[test]
fn refused_in_words() {
    let outside = "25: a carrier outside 1.0e9 to 2.0e9 hertz";
    let cases: &[(&str, &str, &str, &[&str], &str)] = &[
        ("0,0", "2000-01-01", "1575.42", &[], &format!("{outside}: 1575.42 Hz")),
        ("0,0", "2000-01-01", "2000000001", &[], &format!("{outside}: 2000000001 Hz")),
        ("0,0", "2000-01-01", "-1575420000", &[], &format!("{outside}: -1575420000 Hz")),
        (
            "0,0",
            "2000-01-02",
            "1",
            &[],
            "20: the time lies before the first or after the last map: 2000-01-02 00:00:00 is not within 2000-01-01 \
             00:00:00 to 2000-01-01 02:00:00",
        ),
        (
            "-0.01,0",
            "2000-01-01",
            "L1",
            &[],
            "21: the place or the layer lies outside the grid: latitude -0.01 is not within 10.0 to 0.0",
        ),
        (
            "0,20",
            "2000-01-01T02:00:00",
            "L1",
            &["--kind", "rms"],
            "22: a node that the answer needs has no value",
        ),
    ];
    for (at, time, carrier, more, words) in cases {
        let ran = asked(at, time, carrier, more);
        ran.failed(1, &format!("ionex: refused {words}\n"));
        assert_eq!(ran.text(), "");
    }
}

#[test]
fn json() {
    let ran = asked("0,10", "2000-01-01", "1e9", &["--json"]);
    let expected = r#"{"lat":0.00,"lon":10.00,"time":"2000-01-01T00:00:00","kind":"tec","method":"between","layer":0,"carrier":1000000000,"tecu":0.5,"metres":0.2015}"#;
    assert_eq!(ran.done(), format!("{expected}\n"));
    let ran = asked("0,10", "2000-01-01", "1.5", &["--json"]);
    let expected = r#"{"lat":0.00,"lon":10.00,"time":"2000-01-01T00:00:00","kind":"tec","method":"between","layer":0,"carrier":1.5,"refused":25,"reason":"a carrier outside 1.0e9 to 2.0e9 hertz: 1.5 Hz"}"#;
    assert_eq!(
        (ran.status, ran.text()),
        (1, format!("{expected}\n").as_str())
    );
}

/// Refusals and lines that are not understood stand among the delays, in the order of the questions.
#[test]
fn many_in_order() {
    let questions = "0 10 2000-01-01\n\
                     \n\
                     -1 0 2000-01-01\n\
                     5 12.505 2000-01-01\n\
                     0,20,2000-01-01 02:00:00";
    let ran = ionex_given(
        questions.as_bytes(),
        &["delay", CANONICAL, "--carrier", "1e9"],
    );
    let expected = "0.2015 m (0.500 TECU at 1000000000 Hz)\n\
                    \n\
                    refused 21: the place or the layer lies outside the grid: latitude -1.00 is not within 10.0 to 0.0\n\
                    not understood: \"12.505\": expected degrees with at most two decimals, as 47.25 or -8.5\n\
                    0.6448 m (1.600 TECU at 1000000000 Hz)\n";
    assert_eq!(
        (ran.status, ran.err.as_str(), ran.text()),
        (2, "", expected)
    );
    let words = ["delay", CANONICAL, "--carrier", "L1"];
    assert_eq!(ionex_given(b"", &words).done(), "");
}

#[test]
fn a_file_from_standard_input() {
    let words = "delay - --at 0,10 --time 2000-01-01 --carrier 1e9";
    let words: Vec<&str> = words.split(' ').collect();
    let ran = ionex_given(&example("accepted-canonical.inx"), &words);
    assert_eq!(ran.done(), "0.2015 m (0.500 TECU at 1000000000 Hz)\n");
}

/// Bit for bit, on a day of the whole Earth.
#[test]
fn agrees_with_the_second_program() {
    let folder = Folder::new();
    let text = global::text(true);
    let day = folder.file("day.inx", &text);
    let peer = Peer::read(&text).expect("accepted");
    for (seed, (carrier, hertz)) in [
        ("L1", 1_575_420_000.0),
        ("L2", 1_227_600_000.0),
        ("L5", 1_176_450_000.0),
        ("1999999999.9", 1_999_999_999.9),
        ("999999999.9", 999_999_999.9),
    ]
    .into_iter()
    .enumerate()
    {
        for (kind, name) in [(0, "tec"), (1, "rms")] {
            let words = ["delay", &day, "--json", "--carrier", carrier];
            let words = [&words[..], &["--kind", name, "--method", "sun"]].concat();
            agree(&peer, kind, hertz, seed as u64, &words);
        }
    }
}

fn agree(peer: &Peer, kind: i64, hertz: f64, seed: u64, words: &[&str]) {
    let mut chance = Chance::new(seed);
    let questions: Vec<(Question, String)> =
        (0..500).map(|_| question(kind, &mut chance)).collect();
    let lines: String = questions.iter().map(|(_, line)| line.as_str()).collect();
    let ran = ionex_given(lines.as_bytes(), words);
    let answers: Vec<&str> = ran.text().lines().collect();
    assert_eq!(answers.len(), questions.len());
    for ((question, line), answer) in questions.iter().zip(answers) {
        let members = |names: [&str; 3]| names.map(|name| number(answer, name).map(f64::to_bits));
        match peer.delay(question, hertz) {
            Ok(record) => {
                let bits = record.map(|value| Some(value.to_bits()));
                assert_eq!(
                    members(["carrier", "tecu", "metres"]),
                    bits,
                    "{line}{answer}"
                );
            }
            Err(refused) => {
                let refused = Some(f64::from(refused));
                assert_eq!(number(answer, "refused"), refused, "{line}{answer}");
            }
        }
    }
}

/// A question of the day or up to half an hour later, and its line.
fn question(kind: i64, chance: &mut Chance) -> (Question, String) {
    let (latitude, east) = (chance.below(178) as i64 - 89, chance.below(360) as i64);
    let minute = chance.below(1440 + 30) as i64;
    let (day, hour, minute) = (4 + minute / 1440, minute / 60 % 24, minute % 60);
    let question = Question {
        kind,
        method: 2,
        layer: 0,
        latitude: 100 * latitude,
        longitude: 100 * east,
        second: second::calendar::seconds([2010, 12, day, hour, minute, 0]).expect("a date"),
    };
    let line = format!("{latitude} {east} 2010-12-{day:02}T{hour:02}:{minute:02}:00\n");
    (question, line)
}

/// The number of a member of an object.
fn number(object: &str, name: &str) -> Option<f64> {
    let (_, rest) = object.split_once(&format!("\"{name}\":"))?;
    let end = rest.find([',', '}'])?;
    rest[..end].parse().ok()
}

/// 0.5 TECU times 4.03e17 by the square of the frequency, in metres, by decimal arithmetic to ten digits.
#[test]
fn carriers_by_name() {
    let place = ["--at", "0,10", "--time", "2000-01-01"];
    for (name, hertz, metres) in [
        ("l1", "1575420000", 0.081_186_223_8),
        ("E5B", "1207140000", 0.138_280_126_6),
        ("b1i", "1561098000", 0.082_682_712_5),
        ("B3", "1268520000", 0.125_221_935_7),
        ("E6", "1278750000", 0.123_226_398_9),
        ("g1:-7", "1598062500", 0.078_901_912_4),
        ("G2:6", "1248625000", 0.129_244_180_8),
    ] {
        let words = ["delay", CANONICAL, "--csv", "--carrier", name];
        let ran = ionex(&[&words[..], &place].concat());
        let (names, row) = ran.done().split_once('\n').expect("two lines");
        assert_eq!(names, "lat,lon,time,carrier,tecu,metres,refused,reason");
        let fields: Vec<&str> = row.trim_end().split(',').collect();
        assert_eq!(
            fields[..5],
            ["0.00", "10.00", "2000-01-01T00:00:00", hertz, "0.500"]
        );
        let found: f64 = fields[5].parse().expect("a number");
        assert!((found - metres).abs() < 1e-9, "{name}: {found} {metres}");
        assert_eq!(fields[6..], ["", ""]);
    }
    // S-band is a frequency, but outside what is served.
    let words = ["delay", CANONICAL, "--csv", "--carrier", "2492028000"];
    let ran = ionex(&[&words[..], &place].concat());
    assert_eq!(ran.status, 1);
    assert!(ran.text().ends_with(
        "\n0.00,10.00,2000-01-01T00:00:00,,,,25,a carrier outside 1.0e9 to 2.0e9 hertz: 2492028000 Hz\n"
    ));
}
