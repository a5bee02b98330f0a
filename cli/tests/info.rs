//! `ionex info`: what a file holds.

mod common;

use common::global::{rms, tec, text, COLUMNS, MAPS, NONE, ROWS};
use common::{example, ionex, ionex_given, Folder};

#[test]
fn for_people() {
    let ran = ionex(&["info", "tests/examples/accepted-2d-freedoms.inx"]);
    let expected = "\
tests/examples/accepted-2d-freedoms.inx
  version           1.1, code MIX
  program            p
  run by             a
  date               d
  description       a description
  mapping function  NONE
  elevation cutoff  0.0 degrees
  observables
  stations          80
  system            G, 80 stations, 24 satellites
  system            S, 1 station, 2 satellites
  base radius       6371.0 km
  dimension         2
  heights           450.0 km, 1 layer
  latitudes         -10.0 to 0.0 by 10.0 degrees, 2 rows
  longitudes        0.0 to 10.0 by 10.0 degrees, 2 columns
  TEC               2 maps, -999.900 to 9999.900 TECU; 1 of 8 nodes without a value (12.5 %)
  RMS               1 map, 1.000 to 2.000 TECU; 0 of 4 nodes without a value (0.0 %)
  height            1 map, 0.050 to 0.800 km; 0 of 4 nodes without a value (0.0 %)
  epochs            2, at varying intervals, UT
                  1 1999-12-31 23:59:59  TEC, height
                  2 2000-01-01 00:00:00  TEC, RMS
";
    assert_eq!(ran.done(), expected);
}

/// The figures of a day, worked out from the values that were written.
#[test]
fn figures_of_a_day() {
    let folder = Folder::new();
    let day = folder.file("day.inx", &text(true));
    let ran = ionex(&["info", &day]);
    for (kind, value) in [("TEC", tec as fn(usize, usize, usize) -> i32), ("RMS", rms)] {
        let nodes = (0..MAPS * ROWS * COLUMNS).map(|node| {
            value(
                node / (ROWS * COLUMNS),
                node / COLUMNS % ROWS,
                node % COLUMNS,
            )
        });
        let present: Vec<i32> = nodes.clone().filter(|&value| value != NONE).collect();
        let (least, most) = (
            present.iter().min().expect("a value"),
            present.iter().max().expect("a value"),
        );
        let (all, without) = (nodes.count(), 129_575 - present.len());
        assert_eq!((all, without), (129_575, 25 * 11 * 14));
        let line = format!(
            "  {kind}               25 maps, {}.{}00 to {}.{}00 TECU; 3850 of 129575 nodes without a value (3.0 %)",
            least / 10,
            least % 10,
            most / 10,
            most % 10
        );
        assert!(
            ran.done().lines().any(|found| found == line),
            "{line}\n{}",
            ran.text()
        );
    }
    assert!(ran.text().contains("\n  height            no map\n"));
    assert!(ran
        .text()
        .contains("\n  epochs            25, every 3600 s, UT\n"));
    assert!(ran
        .text()
        .ends_with("\n                 25 2010-12-05 00:00:00  TEC, RMS\n"));
}

#[test]
fn for_machines() {
    let ran = ionex_given(&example("accepted-canonical.inx"), &["info", "-", "--json"]);
    let expected = concat!(
        r#"{"file":"standard input","version":1.1,"code":"GNS","program":"program","run_by":"agency","#,
        r#""date":"1-jan-00 00:00","descriptions":[],"mapping_function":"COSZ","elevation_cutoff":20.0,"observables":"carrier phase","#,
        r#""stations":null,"satellites":null,"systems":[],"base_radius":6371.0,"dimension":2,"#,
        r#""heights":{"first":400.0,"last":400.0,"step":0.0,"nodes":1},"#,
        r#""latitudes":{"first":10.0,"last":0.0,"step":-10.0,"nodes":2},"#,
        r#""longitudes":{"first":0.0,"last":20.0,"step":10.0,"nodes":3},"interval":7200,"#,
        r#""epochs":[{"time":"2000-01-01T00:00:00","maps":["tec"]},{"time":"2000-01-01T02:00:00","maps":["tec","rms"]}],"#,
        r#""tec":{"maps":2,"nodes":12,"without_value":0,"smallest":0.100,"largest":1.600,"unit":"TECU"},"#,
        r#""rms":{"maps":1,"nodes":6,"without_value":1,"smallest":2.100,"largest":2.500,"unit":"TECU"},"#,
        r#""height":{"maps":0,"nodes":0,"without_value":0,"smallest":null,"largest":null,"unit":"km"}}"#,
        "\n"
    );
    assert_eq!(ran.done(), expected);
}

/// None, one of them, and twenty: each as it stands, without the blanks at its end, blank ones too.
#[test]
fn descriptions() {
    let shown = |file: &str| {
        let ran = ionex(&["info", &format!("tests/examples/{file}.inx")]);
        let lines = ran.done().lines().map(str::to_string);
        let shown: Vec<String> = lines
            .filter(|line| line.starts_with("  description"))
            .collect();
        shown
    };
    assert_eq!(shown("accepted-canonical"), [""; 0]);
    assert_eq!(
        shown("accepted-2d-freedoms"),
        ["  description       a description"]
    );
    assert_eq!(
        shown("001-table-3"),
        [
            "  description       global ionosphere maps for day 288, 1995",
            "  description       modeled by spherical harmonics ...",
        ]
    );
    let twenty = shown("accepted-descriptions");
    assert_eq!(twenty.len(), 20);
    assert_eq!(
        twenty[..3],
        [
            "  description       the model of these maps",
            "  description",
            "  description         two blanks first",
        ]
    );
    assert_eq!(twenty[5], format!("  description       {}", "~".repeat(60)));
    assert_eq!(
        twenty[8],
        format!("  description       {}x", " ".repeat(59))
    );
    assert_eq!(
        twenty[18..],
        ["  description       nineteen", "  description"]
    );
    let ran = ionex(&["info", "tests/examples/accepted-descriptions.inx", "--json"]);
    let start = r#""descriptions":["the model of these maps","","  two blanks first","the same line","the same line","~"#;
    let end = r#""15","16","17","18","nineteen",""],"mapping_function""#;
    assert!(ran.done().contains(start), "{}", ran.text());
    assert!(ran.text().contains(end), "{}", ran.text());
}

#[test]
fn refused_or_unread() {
    let ran = ionex(&["info", "tests/examples/refused-09.inx"]);
    assert_eq!((ran.status, ran.text()), (1, ""));
    assert!(ran
        .err
        .starts_with("tests/examples/refused-09.inx:27:0: refused 9: "));
    ionex(&["info", "tests"]).failed(2, "ionex: tests: is a folder, not a file\n");
    ionex(&["info", "none.inx"]).failed(2, "ionex: none.inx: no such file\n");
}

#[test]
fn a_file_of_version_1_0() {
    let file = "tests/examples/accepted-version-1.inx";
    let ran = ionex(&["info", file]);
    assert!(ran.done().contains("\n  version           1.0, code GPS\n"));
    let ran = ionex(&["info", file, "--json"]);
    assert!(ran.done().contains(r#""version":1.0,"code":"GPS","#));
}
