//! `ionex diff`: by hand, and by the second program on a day of the Earth.

mod common;

use common::global::{self, joined};
use common::peer::Peer;
use common::{ionex, lines, Folder};
use second::Question;

const CANONICAL: &str = "tests/examples/accepted-canonical.inx";

/// The first map has 1 more at one node and 3 less at another, in tenths; the second none. So of the first map the mean is
/// (0.1 - 0.3) / 6 = -0.0333, the mean square (0.01 + 0.09) / 6 = 0.016667, its root 0.1291; of twelve -0.0167 and 0.0913.
#[test]
fn by_hand() {
    let folder = Folder::new();
    let mut other = lines();
    assert_eq!(other[18], "    1    2    3");
    assert_eq!(other[20], "    4    5    6");
    other[18] = "    1    3    3".to_string();
    other[20] = "    4    5    3".to_string();
    let other = folder.file("b.inx", &joined(&other));
    let ran = ionex(&["diff", CANONICAL, &other]);
    let expected = format!(
        "{other} - {CANONICAL}:
   map  epoch                 count    bias     RMS  largest  at, in TECU
     1  2000-01-01 00:00:00       6  -0.033   0.129   -0.300  0.0,20.0
     2  2000-01-01 02:00:00       6   0.000   0.000    0.000  10.0,0.0
        all maps                 12  -0.017   0.091   -0.300  0.0,20.0 2000-01-01 00:00:00
"
    );
    assert_eq!(ran.done(), expected);
    let ran = ionex(&["diff", &other, CANONICAL, "--csv"]);
    let expected = "\
map,time,kind,unit,count,bias,rms,largest,lat,lon
1,2000-01-01T00:00:00,tec,TECU,6,0.033,0.129,0.300,0.0,20.0
2,2000-01-01T02:00:00,tec,TECU,6,0.000,0.000,0.000,10.0,0.0
,,tec,TECU,12,0.017,0.091,0.300,,
";
    assert_eq!(ran.done(), expected);
    let ran = ionex(&["diff", CANONICAL, CANONICAL, "--json", "--kind", "rms"]);
    let expected = concat!(
        r#"{"map":2,"time":"2000-01-01T02:00:00","kind":"rms","unit":"TECU","count":5,"bias":0.000,"rms":0.000,"#,
        r#""largest":{"difference":0.000,"time":"2000-01-01T02:00:00","lat":10.0,"lon":0.0}}"#,
        "\n",
        r#"{"maps":1,"left_out":0,"kind":"rms","unit":"TECU","count":5,"bias":0.000,"rms":0.000,"#,
        r#""largest":{"difference":0.000,"time":"2000-01-01T02:00:00","lat":10.0,"lon":0.0}}"#,
        "\n"
    );
    assert_eq!(ran.done(), expected);
}

/// Two hours later only the second map of the one is met by the other; with another grid, no node.
#[test]
fn maps_and_nodes_that_are_not_met() {
    let folder = Folder::new();
    let text = joined(&lines());
    let text = String::from_utf8(text).expect("ASCII");
    let later = text
        .replace("     2     0     0", "     4     0     0")
        .replace("     0     0     0", "     2     0     0");
    let later = folder.file("later.inx", later.as_bytes());
    let ran = ionex(&["diff", CANONICAL, &later]);
    // Its first map, 0.1 to 0.6, less the second one, 1.1 to 1.6.
    let row = "     2  2000-01-01 02:00:00       6  -1.000   1.000   -1.000  10.0,0.0\n";
    let all = "        all maps                  6  -1.000   1.000   -1.000  10.0,0.0 2000-01-01 02:00:00\n";
    let title = format!("{later} - {CANONICAL}, 1 map left out:\n");
    assert!(ran.done().starts_with(&title), "{}", ran.text());
    assert!(
        ran.done().ends_with(&format!("{row}{all}")),
        "{}",
        ran.text()
    );
    let far = "tests/examples/accepted-2d-freedoms.inx";
    let ran = ionex(&["diff", CANONICAL, far, "--kind", "height"]);
    ran.failed(
        1,
        &format!("ionex: {CANONICAL} and {far} share no node with a value\n"),
    );
}

/// A day against the same values an hour later, on another grid: each difference is the second program's answer less a node.
#[test]
fn agrees_with_the_second_program() {
    let folder = Folder::new();
    let text = global::text(true);
    let day = folder.file("day.inx", &text);
    let coarse = "tests/examples/001-table-3.inx";
    let moved =
        String::from_utf8(std::fs::read(common::repository().join(coarse)).expect("a text"))
            .expect("ASCII")
            .replace("  1995    10    15", "  2010    12     4")
            .replace("  1995    10    16", "  2010    12     5");
    let other = folder.file("other.inx", moved.as_bytes());
    let peer = Peer::read(&text).expect("accepted");
    let ran = ionex(&["diff", &other, &day, "--csv"]);
    let rows: Vec<Vec<&str>> = ran
        .done()
        .lines()
        .map(|row| row.split(',').collect())
        .collect();
    // The nodes of the other file, by its own export.
    let nodes = ionex(&["export", &other, "--csv"]);
    let (mut count, mut sum, mut squares, mut largest) = (0, 0i64, 0i64, 0i64);
    for (node, place) in nodes.done().lines().skip(1).zip(0..) {
        let fields: Vec<&str> = node.split(',').collect();
        let thousandths = |word: &str| word.replace('.', "").parse::<i64>().expect("a number");
        let map = place / (35 * 72);
        let question = Question {
            kind: 0,
            method: 1,
            layer: 0,
            latitude: 10 * thousandths(fields[1]),
            longitude: 10 * thousandths(fields[2]),
            second: 3_500_409_600 + 21_600 * map,
        };
        if let (Ok(found), false) = (peer.ask(&question), fields[4].is_empty()) {
            let difference = thousandths(found.trim_end_matches(" TECU")) - thousandths(fields[4]);
            count += 1;
            sum += difference;
            squares += difference * difference;
            largest = largest.max(difference.abs());
        }
    }
    let all = rows.last().expect("a row");
    assert!(count > 10_000);
    assert_eq!(all[4], count.to_string());
    let near = |word: &str, expected: f64| {
        let found: f64 = word.parse().expect("a number");
        assert!(
            (1000.0 * found - expected).abs() <= 0.5001,
            "{word} {expected}"
        );
    };
    near(all[5], sum as f64 / f64::from(count));
    near(all[6], (squares as f64 / f64::from(count)).sqrt());
    assert_eq!(
        all[7].trim_start_matches('-').replace('.', "").parse(),
        Ok(largest)
    );
}
