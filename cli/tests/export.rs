//! `ionex export`: nodes and time series, by hand and by the second program.

mod common;

use common::peer::Peer;
use common::{example, ionex, ionex_given, Folder};
use second::Question;

const CANONICAL: &str = "tests/examples/accepted-canonical.inx";

#[test]
fn nodes_by_hand() {
    let expected = "\
time,lat,lon,kind,value,unit
2000-01-01T02:00:00,10.0,0.0,rms,2.100,TECU
2000-01-01T02:00:00,10.0,10.0,rms,2.200,TECU
2000-01-01T02:00:00,10.0,20.0,rms,2.300,TECU
2000-01-01T02:00:00,0.0,0.0,rms,2.400,TECU
2000-01-01T02:00:00,0.0,10.0,rms,2.500,TECU
2000-01-01T02:00:00,0.0,20.0,rms,,TECU
";
    let rms = ["export", CANONICAL, "--csv", "--kind", "rms"];
    assert_eq!(ionex(&rms).done(), expected);
    assert_eq!(
        ionex(&[&rms[..], &["--map", "2"]].concat()).done(),
        expected
    );
    let ran = ionex_given(
        &example("accepted-canonical.inx"),
        &[
            "export",
            "-",
            "--json",
            "--map",
            "1",
            "--region",
            "0,10,5,20",
        ],
    );
    let expected = concat!(
        r#"{"time":"2000-01-01T00:00:00","lat":0.0,"lon":10.0,"kind":"tec","value":0.500,"unit":"TECU"}"#,
        "\n",
        r#"{"time":"2000-01-01T00:00:00","lat":0.0,"lon":20.0,"kind":"tec","value":0.600,"unit":"TECU"}"#,
        "\n"
    );
    assert_eq!(ran.done(), expected);
    // Both TEC maps, one after the other.
    let ran = ionex(&["export", CANONICAL, "--csv"]);
    assert_eq!(ran.done().lines().count(), 1 + 12);
    assert_eq!(
        ran.text().lines().nth(7),
        Some("2000-01-01T02:00:00,10.0,0.0,tec,1.100,TECU")
    );
    let ran = ionex(&[
        "export",
        CANONICAL,
        "--json",
        "--kind",
        "rms",
        "--region",
        "0,20,0,20",
    ]);
    assert!(ran.done().contains(r#""value":null,"unit":"TECU"}"#));
}

/// Halfway between the two maps, and a quarter of an hour after the first: 0.1 + 1.0 / 8.
#[test]
fn times_by_hand() {
    let words = ["export", CANONICAL, "--csv", "--region", "10,0,10,0"];
    let ran = ionex(&[&words[..], &["--time", "2000-01-01T01:00"]].concat());
    assert_eq!(
        ran.done(),
        "time,lat,lon,kind,value,unit\n2000-01-01T01:00:00,10.0,0.0,tec,0.600,TECU\n"
    );
    let place = ["export", CANONICAL, "--csv", "--at", "10.00,0.00"];
    let expected = "\
time,lat,lon,kind,value,unit
2000-01-01T00:00:00,10.00,0.00,tec,0.100,TECU
2000-01-01T02:00:00,10.00,0.00,tec,1.100,TECU
";
    assert_eq!(ionex(&place).done(), expected);
    let ran = ionex(&[&place[..], &["--every", "900"]].concat());
    let rows: Vec<&str> = ran.done().lines().collect();
    assert_eq!(rows.len(), 1 + 9);
    assert_eq!(rows[2], "2000-01-01T00:15:00,10.00,0.00,tec,0.225,TECU");
    assert_eq!(rows[9], "2000-01-01T02:00:00,10.00,0.00,tec,1.100,TECU");
    // Every 7000 seconds the last map is not met.
    let ran = ionex(&[&place[..], &["--every", "7000"]].concat());
    assert_eq!(ran.done().lines().count(), 1 + 2);
    let rounded = [
        "export",
        CANONICAL,
        "--csv",
        "--at",
        "9.9991,0.0",
        "--round",
    ];
    assert_eq!(ionex(&rounded).done(), expected);
}

#[test]
fn refused() {
    let cases: &[(&[&str], &str)] = &[
        (&["--map", "3"], "21: there is no map 3, the last is 2"),
        (&["--layer", "1"], "21: there is no layer 1, the last is 0"),
        (&["--kind", "height"], "22: there is no height map 1"),
        (&["--kind", "rms", "--map", "1"], "22: there is no RMS map 1"),
        (
            &["--time", "2000-01-02"],
            "20: the time lies before the first or after the last map: 2000-01-02 00:00:00 is not within 2000-01-01 \
             00:00:00 to 2000-01-01 02:00:00",
        ),
        (
            &["--at", "20,0"],
            "21: the place or the layer lies outside the grid: latitude 20.00 is not within 10.0 to 0.0",
        ),
    ];
    for (more, told) in cases {
        let ran = ionex(&[&["export", CANONICAL, "--csv"], *more].concat());
        ran.failed(1, &format!("ionex: refused {told}\n"));
    }
}

/// Every value of a time and of a series, as the second program answers.
#[test]
fn agrees_with_the_second_program() {
    let text = common::global::text(true);
    let folder = Folder::new();
    let day = folder.file("day.inx", &text);
    let peer = Peer::read(&text).expect("accepted");
    let answer = |second: u64, lat: i64, lon: i64| {
        let question = Question {
            kind: 0,
            method: 2,
            layer: 0,
            latitude: lat,
            longitude: lon,
            second,
        };
        match peer.ask(&question) {
            Ok(words) => words.trim_end_matches(" TECU").to_string(),
            Err(number) => {
                assert_eq!(number, 22);
                String::new()
            }
        }
    };
    // 2010-12-04 is 3,500,409,600 s; half past six is 23,400 later.
    let first = 3_500_409_600;
    let sun = ["--method", "sun"];
    let words = ["export", &day, "--csv", "--time", "2010-12-04T06:30:00"];
    let ran = ionex(&[&words[..], &sun].concat());
    let mut rows = ran.done().lines().skip(1);
    for row in 0..71 {
        for column in 0..73 {
            let (lat, lon) = (8750 - 250 * row, -18_000 + 500 * column);
            let value = answer(first + 23_400, lat, lon);
            let [lat, lon] = [lat, lon].map(|side| format!("{:.1}", side as f64 / 100.0));
            let expected = format!("2010-12-04T06:30:00,{lat},{lon},tec,{value},TECU");
            assert_eq!(rows.next(), Some(expected.as_str()));
        }
    }
    assert_eq!(rows.next(), None);
    let words = [
        "export",
        &day,
        "--csv",
        "--at",
        "47.25,8.50",
        "--every",
        "600",
    ];
    let ran = ionex(&[&words[..], &sun].concat());
    for (step, row) in (0..).zip(ran.done().lines().skip(1)) {
        let fields: Vec<&str> = row.split(',').collect();
        assert_eq!(fields[4], answer(first + 600 * step, 4725, 850), "{row}");
    }
    assert_eq!(ran.text().lines().count(), 1 + 145);
}
