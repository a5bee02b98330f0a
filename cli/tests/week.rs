//! `ionex week`: reports by hand and by the second program, files in any order, and files that are left out.

mod common;

use common::global;
use common::peer::{Chance, Peer};
use common::{example, ionex, ionex_given, lines, Folder};
use second::week::{Week, ROW};

const CANONICAL: &str = "tests/examples/accepted-canonical.inx";
const FREEDOMS: &str = "tests/examples/accepted-2d-freedoms.inx";
const REFUSED: &str = "tests/examples/refused-07.inx";

/// Of accepted-canonical.inx by hand: 0.1 to 0.6 and 1.1 to 1.6 TECU, RMS of the second map alone with one node without.
const ROWS: &str = "   map  epoch                kind    unit            count    without   smallest    largest  mean
     1  2000-01-01 00:00:00  TEC     0.001 TECU          6          0        100        600  2100/6
     1  2000-01-01 00:00:00  RMS     0.001 TECU          0          6          -          -  0/0
     1  2000-01-01 00:00:00  height  0.001 km            0          6          -          -  0/0
     2  2000-01-01 02:00:00  TEC     0.001 TECU          6          0       1100       1600  8100/6
     2  2000-01-01 02:00:00  RMS     0.001 TECU          5          1       2100       2500  11500/5
     2  2000-01-01 02:00:00  height  0.001 km            0          6          -          -  0/0
        all maps             TEC     0.001 TECU         12          0        100       1600  10200/12
        all maps             RMS     0.001 TECU          5          7       2100       2500  11500/5
        all maps             height  0.001 km            0         12          -          -  0/0
";

/// Over accepted-canonical.inx and accepted-2d-freedoms.inx: exponents -2 to 0, negative values, and heights.
const TOTALS: &str = "   map  epoch                kind    unit            count    without   smallest    largest  mean
        all files            TEC     0.001 TECU         19          1    -999900    9999900  9012490/19
        all files            RMS     0.001 TECU          9         11       1000       2500  17500/9
        all files            height  0.001 km            4         16         50        800  1610/4
";

#[test]
fn by_hand() {
    let report = ionex(&["week", CANONICAL, FREEDOMS]);
    let first = format!("{CANONICAL}: 2 maps of 6 nodes\n{ROWS}");
    let rest = report.done().strip_prefix(&first);
    let rest = rest.expect("the first file as by hand");
    assert!(
        rest.starts_with(&format!("{FREEDOMS}: 2 maps of 4 nodes\n")),
        "{rest}"
    );
    assert!(
        rest.contains("     2  2000-01-01 00:00:00  TEC     0.001 TECU          4          0    -999900    9999900  9002300/4\n"),
        "{rest}"
    );
    assert!(
        rest.ends_with(&format!("\nall of 2 files:\n{TOTALS}")),
        "{rest}"
    );
    let alone = ionex_given(&example("accepted-canonical.inx"), &["week", "-"]);
    assert!(alone.done().starts_with(&format!(
        "standard input: 2 maps of 6 nodes\n{ROWS}all of 1 file:\n"
    )));
}

/// Refused and missing files stand in the report or beside it, and the others in the figures.
#[test]
fn files_that_are_left_out() {
    let ran = ionex(&["week", REFUSED, CANONICAL, "no-such-file.inx", FREEDOMS]);
    assert_eq!(
        (ran.status, ran.err.as_str()),
        (2, "ionex: no-such-file.inx: no such file\n")
    );
    let told = ionex(&["check", REFUSED]);
    assert_eq!(told.status, 1);
    let start = format!("{}{CANONICAL}: 2 maps of 6 nodes\n{ROWS}", told.text());
    assert!(ran.text().starts_with(&start), "{}", ran.text());
    let end = format!("\nall of 2 files, 2 left out:\n{TOTALS}");
    assert!(ran.text().ends_with(&end), "{}", ran.text());
    assert_eq!(ionex(&["week", CANONICAL, REFUSED]).status, 1);
    let nothing = ionex(&["week", REFUSED]);
    assert_eq!(nothing.status, 1);
    let row = "        all files            TEC     0.001 TECU          0          0          -          -  0/0\n";
    assert!(nothing.text().contains(row), "{}", nothing.text());
}

#[test]
fn json() {
    let none = |without: u64, unit: &str| {
        format!(
            r#"{{"unit":"0.001 {unit}","count":0,"without":{without},"smallest":null,"largest":null,"sum":0}}"#
        )
    };
    let tecu = |figures: [i64; 5]| {
        let [count, without, smallest, largest, sum] = figures;
        format!(
            r#"{{"unit":"0.001 TECU","count":{count},"without":{without},"smallest":{smallest},"largest":{largest},"sum":{sum}}}"#
        )
    };
    let kinds = |tec: String, rms: String, height: String| {
        format!(r#""tec":{tec},"rms":{rms},"height":{height}"#)
    };
    let first = kinds(tecu([6, 0, 100, 600, 2100]), none(6, "TECU"), none(6, "km"));
    let second = kinds(
        tecu([6, 0, 1100, 1600, 8100]),
        tecu([5, 1, 2100, 2500, 11500]),
        none(6, "km"),
    );
    let all = kinds(
        tecu([12, 0, 100, 1600, 10200]),
        tecu([5, 7, 2100, 2500, 11500]),
        none(12, "km"),
    );
    let maps = format!(
        r#"[{{"map":1,"epoch":"2000-01-01T00:00:00",{first}}},{{"map":2,"epoch":"2000-01-01T02:00:00",{second}}}]"#
    );
    let ran = ionex(&["week", "--json", CANONICAL, REFUSED, "no-such-file.inx"]);
    let told = ionex(&["check", "--json", REFUSED, "no-such-file.inx"]);
    let expected = format!(
        "{{\"file\":\"{CANONICAL}\",\"status\":\"ok\",\"maps\":{maps},{all}}}\n{}{{\"files\":1,\"left_out\":2,{all}}}\n",
        told.text()
    );
    assert_eq!((ran.status, ran.text()), (2, expected.as_str()));
}

#[test]
fn csv() {
    let folder = Folder::new();
    let name = folder.file("a, \"b\".inx", &example("accepted-canonical.inx"));
    let quoted = format!("\"{}\"", name.replace('"', "\"\""));
    let expected = "\
file,map,epoch,kind,unit,count,without,smallest,largest,sum
FILE,1,2000-01-01T00:00:00,TEC,0.001 TECU,6,0,100,600,2100
FILE,1,2000-01-01T00:00:00,RMS,0.001 TECU,0,6,,,0
FILE,1,2000-01-01T00:00:00,height,0.001 km,0,6,,,0
FILE,2,2000-01-01T02:00:00,TEC,0.001 TECU,6,0,1100,1600,8100
FILE,2,2000-01-01T02:00:00,RMS,0.001 TECU,5,1,2100,2500,11500
FILE,2,2000-01-01T02:00:00,height,0.001 km,0,6,,,0
FILE,,,TEC,0.001 TECU,12,0,100,1600,10200
FILE,,,RMS,0.001 TECU,5,7,2100,2500,11500
FILE,,,height,0.001 km,0,12,,,0
,,,TEC,0.001 TECU,12,0,100,1600,10200
,,,RMS,0.001 TECU,5,7,2100,2500,11500
,,,height,0.001 km,0,12,,,0
";
    let ran = ionex(&["week", "--csv", REFUSED, &name]);
    assert_eq!(
        (ran.status, ran.text()),
        (1, expected.replace("FILE", &quoted).as_str())
    );
    assert_eq!(ran.err, ionex(&["check", REFUSED]).text());
}

/// Texts of small values, no two with the same: sums, ends and nodes without a value differ.
fn texts(folder: &Folder) -> Vec<String> {
    let mut names = vec![CANONICAL.to_string(), FREEDOMS.to_string()];
    names.push("tests/examples/accepted-3d.inx".to_string());
    names.push(REFUSED.to_string());
    for number in 0..8 {
        let mut lines = lines();
        lines[18] = format!("{:5}{:5}{:5}", -7 * number, 9999, 100 * number * number);
        names.push(folder.file(&format!("{number}.inx"), &global::joined(&lines)));
    }
    names
}

/// The rows over all files are the same in any order, and with them the exit status.
#[test]
fn any_order_of_files() {
    let folder = Folder::new();
    let mut names = texts(&folder);
    let mut chance = Chance::new(5);
    for form in [&[][..], &["--json"], &["--csv"]] {
        let mut found: Option<Vec<String>> = None;
        for _ in 0..12 {
            for place in (1..names.len()).rev() {
                names.swap(place, chance.below(place as u64 + 1) as usize);
            }
            let mut words = vec!["week"];
            words.extend(form);
            words.extend(names.iter().map(String::as_str));
            let ran = ionex(&words);
            assert_eq!(ran.status, 1);
            let count = if form == ["--json"] { 1 } else { 3 };
            let all: Vec<&str> = ran.text().lines().collect();
            let totals: Vec<String> = all[all.len() - count..]
                .iter()
                .map(|line| line.to_string())
                .collect();
            assert_eq!(found.get_or_insert_with(|| totals.clone()), &totals);
        }
    }
}

/// The hundredth is in, the others are named with 60; a refused text does not count, and is told by its own number.
#[test]
fn the_hundred_and_first() {
    let mut words = vec!["week", REFUSED];
    words.extend([CANONICAL; 99]);
    words.extend([FREEDOMS, CANONICAL, REFUSED, FREEDOMS]);
    let ran = ionex(&words);
    assert_eq!((ran.status, ran.err.as_str()), (1, ""));
    let refused: Vec<&str> = ran
        .text()
        .lines()
        .filter(|line| line.contains(": refused "))
        .collect();
    let seven = "tests/examples/refused-07.inx:3:13: refused 7: a value outside what is accepted";
    let full = |name: &str| format!("{name}: refused 60: more than 100 map sets");
    assert_eq!(refused, [seven, &full(CANONICAL), seven, &full(FREEDOMS)]);
    // 99 times 12 nodes and 10200, and once 7 of 8 and 9002290.
    let end = "\
all of 100 files, 4 left out:
   map  epoch                kind    unit            count    without   smallest    largest  mean
        all files            TEC     0.001 TECU       1195          1    -999900    9999900  10012090/1195
        all files            RMS     0.001 TECU        499        697       1000       2500  1144500/499
        all files            height  0.001 km            4       1192         50        800  1610/4
";
    assert!(ran.text().ends_with(end), "{}", ran.text());
    words.push("--json");
    let ran = ionex(&words);
    let object = format!(
        "{{\"file\":\"{FREEDOMS}\",\"status\":\"refused\",\"number\":60,\"reason\":\"more than 100 map sets\"}}"
    );
    assert_eq!(ran.text().lines().rev().nth(1), Some(object.as_str()));
}

/// A row of figures behind what they are of, as `--csv` prints it.
fn row(what: &str, kind: usize, figures: &[i64]) -> String {
    let (name, unit) = [("TEC", "TECU"), ("RMS", "TECU"), ("height", "km")][kind];
    let [count, without, smallest, largest, sum] = figures.try_into().expect("five numbers");
    let range: String = match count {
        0 => ",".to_string(),
        _ => format!("{smallest},{largest}"),
    };
    format!("{what},{name},0.001 {unit},{count},{without},{range},{sum}")
}

/// Full-size days and small files: every row by the second program.
#[test]
fn agrees_with_the_second_program() {
    let folder = Folder::new();
    let mut names = texts(&folder);
    names.retain(|name| name != REFUSED);
    names.push(folder.file("with.inx", &global::text(true)));
    names.push(folder.file("without.inx", &global::text(false)));
    let mut words = vec!["week", "--csv"];
    words.extend(names.iter().map(String::as_str));
    let ran = ionex(&words);
    let mut lines = ran.done().lines().skip(1);
    let mut week = Week::default();
    for name in &names {
        let text = std::fs::read(common::repository().join(name)).expect("a text");
        let rows = Peer::read(&text)
            .expect("accepted")
            .added_to(&mut week)
            .expect("valid");
        let rows: Vec<&[i64]> = rows.chunks(ROW).collect();
        let maps = rows.len() / 3 - 1;
        for map in 0..=maps {
            for kind in 0..3 {
                let line = lines.next().expect("a row");
                let mut fields = line.splitn(4, ',');
                let [file, number, epoch] = [0; 3].map(|_| fields.next().expect("a field"));
                let expected = if map < maps {
                    (map + 1).to_string()
                } else {
                    String::new()
                };
                assert_eq!((file, number), (name.as_str(), expected.as_str()));
                let what = format!("{file},{number},{epoch}");
                assert_eq!(line, row(&what, kind, rows[kind * (maps + 1) + map]));
            }
        }
    }
    for (kind, figures) in week.kinds.iter().enumerate() {
        let figures = figures.row().map(|number| number as i64);
        assert_eq!(lines.next(), Some(row(",,", kind, &figures).as_str()));
    }
    assert_eq!(lines.next(), None);
}
