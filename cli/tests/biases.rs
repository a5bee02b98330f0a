//! `ionex biases`: both kinds by hand, a block of a real size by the second program, and refused blocks in words.

mod common;

use common::global::{joined, record};
use common::{example, ionex, ionex_given, lines, Folder};
use second::biases::gathered;

const ARCHIVE: &str = "tests/examples/accepted-version-1.inx";
const TITLE: &str = "DIFFERENTIAL CODE BIASES";

/// Fields and label of each.
type Records<'a> = &'a [(&'a str, &'a str)];

/// The canonical example, of version 1.1, with a block of these lines from line 2 on; the first of them is line 3.
fn with_block(records: Records) -> Vec<u8> {
    let mut text = lines();
    let mut block = vec![record(TITLE, "START OF AUX DATA")];
    block.extend(records.iter().map(|(body, label)| record(body, label)));
    block.push(record(TITLE, "END OF AUX DATA"));
    text.splice(1..1, block);
    joined(&text)
}

const SATELLITE: &str = "PRN / BIAS / RMS";
const STATION: &str = "STATION / BIAS / RMS";

#[test]
fn by_hand() {
    let expected = format!(
        "{ARCHIVE}: biases of 2 satellites and 2 stations
  system  satellite             bias in ns   RMS in ns
  G       G01                       -1.234       0.005
  R       R02                        0.500       0.010
  system  station               bias in ns   RMS in ns
  G       BRUS 13101M004            12.345       0.100
  R       BRUS 13101M004           -12.345       0.100
"
    );
    assert_eq!(ionex(&["biases", ARCHIVE]).done(), expected);
}

#[test]
fn json_and_csv() {
    let expected = format!(
        r#"{{"file":"{ARCHIVE}","unit":"ns","satellites":[{},{}],"stations":[{},{}]}}"#,
        r#"{"system":"G","number":1,"bias":-1.234,"rms":0.005}"#,
        r#"{"system":"R","number":2,"bias":0.500,"rms":0.010}"#,
        r#"{"system":"G","name":"BRUS 13101M004","bias":12.345,"rms":0.100}"#,
        r#"{"system":"R","name":"BRUS 13101M004","bias":-12.345,"rms":0.100}"#
    );
    let ran = ionex(&["biases", ARCHIVE, "--json"]);
    assert_eq!(ran.done(), format!("{expected}\n"));
    let expected = "\
kind,system,name,bias_ns,rms_ns
satellite,G,G01,-1.234,0.005
satellite,R,R02,0.500,0.010
station,G,BRUS 13101M004,12.345,0.100
station,R,BRUS 13101M004,-12.345,0.100
";
    assert_eq!(ionex(&["biases", "--csv", ARCHIVE]).done(), expected);
    // A name is any text.
    let text = with_block(&[("   G  a,\"b\"                    0.000     0.000", STATION)]);
    let ran = ionex_given(&text, &["biases", "-", "--csv"]);
    assert!(ran
        .done()
        .ends_with("\nstation,G,\"a,\"\"b\"\"\",0.000,0.000\n"));
    let ran = ionex_given(&text, &["biases", "-", "--json"]);
    assert!(ran.done().contains(r#""name":"a,\"b\"","#));
}

#[test]
fn files_without_biases() {
    let text = example("accepted-3d.inx");
    let ran = ionex_given(&text, &["biases", "-"]);
    assert_eq!(
        ran.done(),
        "standard input: biases of 0 satellites and 0 stations\n"
    );
    let ran = ionex_given(&text, &["biases", "--csv", "-"]);
    assert_eq!(ran.done(), "kind,system,name,bias_ns,rms_ns\n");
}

/// 32 satellites and 300 stations, beside what the second program finds in the same text.
#[test]
fn a_block_of_a_real_size() {
    let mut records: Vec<(String, &str)> = (1..=32)
        .map(|k| {
            (
                format!("   G{k:02}{:10.3}     0.011", 0.37 * f64::from(k) - 6.0),
                SATELLITE,
            )
        })
        .collect();
    records.extend((0..300).map(|k| {
        let name = format!("S{k:03} {:05}M001", 10_001 + k);
        let bias = 0.091 * f64::from(k) - 13.5;
        (format!("   G  {name:<20}{bias:10.3}     0.040"), STATION)
    }));
    let records: Vec<(&str, &str)> = records
        .iter()
        .map(|(body, label)| (body.as_str(), *label))
        .collect();
    let text = with_block(&records);
    let peer = gathered(&text).expect("accepted");
    assert_eq!((peer.satellites.len(), peer.stations.len()), (32, 300));
    let ns = |thousandths: i64| format!("{:.3}", thousandths as f64 / 1000.0);
    let mut expected = String::from("kind,system,name,bias_ns,rms_ns\n");
    for found in &peer.satellites {
        let (letter, number) = (char::from(found.system), found.number);
        let (bias, rms) = (ns(found.bias), ns(found.rms));
        expected += &format!("satellite,{letter},{letter}{number:02},{bias},{rms}\n");
    }
    for found in &peer.stations {
        let name = String::from_utf8(found.name.to_vec()).expect("ASCII");
        let (letter, name) = (char::from(found.system), name.trim_end());
        let (bias, rms) = (ns(found.bias), ns(found.rms));
        expected += &format!("station,{letter},{name},{bias},{rms}\n");
    }
    let folder = Folder::new();
    let file = folder.file("biases.inx", &text);
    assert_eq!(ionex(&["biases", &file, "--csv"]).done(), expected);
}

/// Each refused block, and what was expected there. `check` reads the maps alone, and accepts the text.
#[test]
fn refused_blocks() {
    let good = "   G07     0.100     0.200";
    let heard = "   G  BRUS 13101M004           0.100     0.200";
    let cases: &[(Records, &str, &str)] = &[
        (
            &[("   G07     0.10      0.200", SATELLITE)],
            "3:7: refused 6",
            "the bias: a number with a point and three digits more, the last of which stands in column 16, found `0.10`",
        ),
        (
            &[("   G07     0.100", SATELLITE)],
            "3:17: refused 6",
            "the RMS: a number with a point and three digits more, the last of which stands in column 26, found blanks",
        ),
        (
            &[("x  G07     0.100     0.200", SATELLITE)],
            "3:1: refused 6",
            "blanks in columns 1 to 3 of PRN / BIAS / RMS, found `x`",
        ),
        (
            &[("   G  BRUS 13101M004           0.100     0.200    2", STATION)],
            "3:51: refused 6",
            "blanks in columns 47 to 60 of STATION / BIAS / RMS, found `2`",
        ),
        (
            &[("   E07     0.100     0.200", SATELLITE)],
            "3:4: refused 7",
            "the system: `G` or a blank for GPS, `R` for GLONASS, found `E`",
        ),
        (
            &[("   G00     0.100     0.200", SATELLITE)],
            "3:5: refused 7",
            "the satellite's number: 1 to 99, found `00`",
        ),
        (
            &[("", "COMMENT"), (good, SATELLITE), ("     7     0.000     0.000", SATELLITE)],
            "5:61: refused 5",
            "satellite G07 once: line 4 has it",
        ),
        (
            &[(heard, STATION), (good, SATELLITE), ("      BRUS 13101M004           0.000     0.000", STATION)],
            "5:61: refused 5",
            "station BRUS 13101M004 of system G once: line 3 has it",
        ),
    ];
    for (records, place, words) in cases {
        let text = with_block(records);
        let ran = ionex_given(&text, &["biases", "-"]);
        assert_eq!((ran.status, ran.text()), (1, ""));
        let start = format!("standard input:{place}: ");
        assert!(ran.err.starts_with(&start), "{}", ran.err);
        let end = format!(" = expected {words}\n");
        assert!(ran.err.ends_with(&end), "{}", ran.err);
        assert_eq!(ionex_given(&text, &["check", "-"]).status, 0);
    }
    let text = with_block(&[("   G07**********     0.200", SATELLITE)]);
    let ran = ionex_given(&text, &["biases", "-"]);
    let hint = "= hint: stars are written where a number is too wide for its field\n";
    assert!(ran.err.ends_with(hint), "{}", ran.err);
    let line =
        "    3 |    G07**********     0.200                                  PRN / BIAS / RMS
      |       ^~~~~~~~~~\n";
    assert!(ran.err.contains(line), "{}", ran.err);
}

/// Biases of other systems are refused, and told by how many there are of each.
#[test]
fn other_systems() {
    let text = with_block(&[
        ("   G07     0.100     0.200", SATELLITE),
        ("   E07     0.100     0.200", SATELLITE),
        ("   C01     0.100     0.200", SATELLITE),
        ("   E08     0.100     0.200", SATELLITE),
        ("   E  BRUS 13101M004           0.100     0.200", STATION),
        ("   R01     0.100     0.200", SATELLITE),
    ]);
    let ran = ionex_given(&text, &["biases", "-"]);
    let expected = "\
standard input:4:4: refused 7: a value outside what is accepted
    4 |    E07     0.100     0.200                                  PRN / BIAS / RMS
      |    ^
      = expected the system: `G` or a blank for GPS, `R` for GLONASS, found `E`
      = hint: only biases of G (GPS) and R (GLONASS) are read; this file has 4 records of other systems: 1 of C, 3 of E
";
    ran.failed(1, expected);
    assert_eq!(ionex_given(&text, &["check", "-"]).status, 0);
}

/// A text that `check` refuses is refused in the same words.
#[test]
fn refused_as_by_check() {
    for number in 1..=10 {
        let file = format!("tests/examples/refused-{number:02}.inx");
        let told = ionex(&["check", &file]);
        ionex(&["biases", &file]).failed(1, told.text());
    }
    let ran = ionex(&["biases", "no-such-file.inx"]);
    ran.failed(2, "ionex: no-such-file.inx: no such file\n");
}
