//! Reading: 01's rules and the readings of its open points.

mod common;
use common::*;
use second::{needs, read, Axis, Reading, Refusal};

fn place(number: u8, line: usize, column: usize) -> String {
    format!("refused {number} line {line} column {column}")
}

/// The base text with one line replaced gives the number at that line.
fn refuses(line: usize, new: &str, number: u8, column: usize) {
    assert_eq!(outcome_of(&with(line, new)), place(number, line, column));
}

fn passes(line: usize, new: &str) {
    assert_eq!(outcome_of(&with(line, new)), "accepted", "{new}");
}

#[test]
fn the_base_text() {
    let (header, texts, own) = accepted(&base(), [14, 13, 3, 13, 4, 3]);
    assert_eq!(header.version, 11);
    assert_eq!(header.file_type, b'I');
    assert_eq!(header.code, 4);
    // 36524 days from 1900-01-01 to 2000-01-01: 100 * 365 + 24.
    assert_eq!(header.first_epoch, 36_524 * 86_400);
    assert_eq!(header.last_epoch, 36_524 * 86_400 + 7200);
    assert_eq!(header.interval, 7200);
    assert_eq!(header.maps, 2);
    assert_eq!(header.cutoff, 200);
    assert_eq!(header.radius, 63_710);
    assert_eq!(header.dimension, 2);
    let axis = |first, last, step| Axis { first, last, step };
    assert_eq!(header.heights, axis(4000, 4000, 0));
    assert_eq!(header.latitudes, axis(100, 0, -100));
    assert_eq!(header.longitudes, axis(0, 200, 100));
    assert!(!header.stations.stands && !header.satellites.stands);
    assert!(header.systems.iter().all(|s| !s.stands));
    assert_eq!(&texts.program, b"program             ");
    assert_eq!(&texts.agency, b"agency              ");
    assert_eq!(&texts.date, b"1-jan-00 00:00      ");
    assert_eq!(&texts.mapping, b"COSZ");
    assert_eq!(&texts.observables[..14], b"carrier phase ");
    let u = UNTOUCHED;
    assert_eq!(own.tec, [1, 2, 3, 4, 5, 6, 11, 12, 13, 14, 15, 16, u, u]);
    assert_eq!(
        own.rms,
        [9999, 9999, 9999, 9999, 9999, 9999, 21, 22, 23, 24, 25, 9999, u]
    );
    // "A kind with no map needs no value area; its area ... unchanged."
    assert_eq!(own.height, [u; 3]);
    assert_eq!(
        own.exponents,
        [-1, -1, -1, -1, -1, -1, -1, -1, -1, -1, -1, -1, u]
    );
    let first = 36_524 * 86_400;
    assert_eq!(own.epochs, [first, first + 7200, 77, 77]);
    assert_eq!(own.marks, [0, 1, 77]);
}

#[test]
fn too_short_areas_in_order() {
    let enough = [12, 12, 0, 12, 2, 2];
    assert_eq!(accepted(&base(), enough).0.maps, 2);
    for area in [0, 1, 3, 4, 5] {
        let mut lengths = enough;
        lengths[area] -= 1;
        let mut own = untouched(lengths);
        let refusal = Refusal::Area {
            area: area as u8 + 1,
            need: enough[area] as u64,
        };
        let answer = read(&join(&base()), &mut own.lent());
        assert_eq!(answer, Reading::Refused(refusal));
        assert_eq!(own, untouched(lengths));
    }
    // All too short: the first is told. A wrong text comes first.
    let mut own = untouched([0; 6]);
    let answer = read(&join(&base()), &mut own.lent());
    let refusal = Refusal::Area { area: 1, need: 12 };
    assert_eq!(answer, Reading::Refused(refusal));
    let answer = read(&join(&without(36)), &mut own.lent());
    let refusal = Refusal::Place {
        number: 10,
        line: 36,
        column: 0,
    };
    assert_eq!(answer, Reading::Refused(refusal));
}

#[test]
fn needs_of_a_text() {
    assert_eq!(needs(&join(&base())), Ok([12, 12, 0, 12, 2, 2]));
    let mut without_rms = base();
    without_rms.drain(29..35);
    assert_eq!(needs(&join(&without_rms)), Ok([12, 0, 0, 12, 2, 2]));
    // Refused as a reading is, whatever is lent.
    for text in [join(&without(36)), join(&with(5, "x")), Vec::new()] {
        let Reading::Refused(refusal) = read(&text, &mut untouched([0; 6]).lent()) else {
            panic!("accepted");
        };
        assert_eq!(needs(&text), Err(refusal));
    }
}

#[test]
fn kinds_with_no_map() {
    // No RMS and no height map: neither area is needed or touched.
    let mut lines = base();
    lines.drain(29..35);
    let (_, _, own) = accepted(&lines, [12, 0, 2, 12, 2, 2]);
    assert_eq!(own.height, [UNTOUCHED; 2]);
    assert_eq!(own.exponents, [-1; 12]);
    assert_eq!(own.marks, [0, 0]);
    // A height map only.
    let mut lines = with(30, &rec("     2", "START OF HEIGHT MAP"));
    lines[34] = rec("     2", "END OF HEIGHT MAP");
    lines.insert(29, rec("    -3", "EXPONENT"));
    let (_, _, own) = accepted(&lines, [12, 1, 12, 12, 2, 2]);
    assert_eq!(own.rms, [UNTOUCHED]);
    assert_eq!(own.height[..6], [9999; 6]);
    assert_eq!(own.height[6..], [21, 22, 23, 24, 25, 9999]);
    assert_eq!(
        own.exponents,
        [-1, -1, -1, -1, -1, -1, -1, -1, -1, -1, -3, -3]
    );
    assert_eq!(own.marks, [0, 2]);
}

#[test]
fn line_ends() {
    let lf = join(&base());
    let crlf: Vec<u8> = base().join("\r\n").into_bytes();
    assert_eq!(outcome(&crlf), "accepted");
    assert_eq!(outcome(&lf[..lf.len() - 1]), "accepted");
    let mut cr = lf[..lf.len() - 1].to_vec();
    cr.push(b'\r');
    // In a last line without LF a CR is not dropped: END OF FILE ends in column 71.
    assert_eq!(outcome(&cr), place(2, 36, 72));
    let mut lines = base();
    lines[4].push_str("\r\r");
    assert_eq!(outcome_of(&lines), place(2, 5, 69));
    let mut lines = base();
    lines[4].insert(0, '\r');
    assert_eq!(outcome_of(&lines), place(2, 5, 1));
    // 80 bytes and then CR LF pass; 81 do not.
    passes(5, &format!("{:<80}\r", base()[4]));
    refuses(5, &format!("{:<81}", base()[4]), 1, 81);
    refuses(5, &format!("{:<81}\r", base()[4]), 1, 81);
}

#[test]
fn line_lengths_and_bytes_everywhere() {
    for line in [1, 5, 16, 18, 19, 20, 36, 37] {
        let long = " ".repeat(81);
        assert_eq!(outcome_of(&before(line, &long)), place(1, line, 81));
        assert_eq!(outcome_of(&before(line, " ")), "accepted");
        assert_eq!(outcome_of(&before(line, "")), "accepted");
        assert_eq!(outcome_of(&before(line, &" ".repeat(80))), "accepted");
        assert_eq!(outcome_of(&before(line, "  \t")), place(2, line, 3));
        assert_eq!(outcome_of(&before(line, "\0")), place(2, line, 1));
        assert_eq!(outcome_of(&before(line, "\x7f")), place(2, line, 1));
        assert_eq!(outcome_of(&before(line, "\u{e9}")), place(2, line, 1));
        let both = format!("\t{long}");
        assert_eq!(outcome_of(&before(line, &both)), place(1, line, 81));
    }
}

#[test]
fn ends_of_text() {
    assert_eq!(outcome(b""), place(10, 1, 0));
    assert_eq!(outcome(b"\n"), place(10, 2, 0));
    assert_eq!(outcome(b"\n  "), place(10, 3, 0));
    assert_eq!(outcome(b"\n  \r\n\n"), place(10, 4, 0));
    let text = join(&base());
    let mut from = 0;
    for (line, length) in base().iter().map(|l| l.len() + 1).enumerate() {
        if line > 0 {
            assert_eq!(outcome(&text[..from]), place(10, line + 1, 0));
        }
        from += length;
    }
}

#[test]
fn the_first_record() {
    for other in [
        rec("", "COMMENT"),
        rec("    -1", "EXPONENT"),
        rec("", "END OF FILE"),
        rec("", "NO LABEL"),
        "short".to_string(),
    ] {
        assert_eq!(outcome_of(&before(1, &other)), place(3, 1, 61));
    }
    assert_eq!(outcome_of(&before(1, "  ")), "accepted");
    let version = |body: &str| rec(body, "IONEX VERSION / TYPE");
    // 02, Ask 7: 1.0 allows two codes more.
    for code in ["GNS", "GPS", "GLO", "TOP"] {
        let body = format!("     1.0            I                   {code}");
        passes(1, &version(&body));
    }
    for other in [
        "     0.9", "     1.2", "    -1.1", "    -1.0", "    10.0", "      .1",
    ] {
        let body = format!("{other}            J                   XXX");
        refuses(1, &version(&body), 3, 1);
    }
    for (version_and_type, column) in [("     1.0            J", 21), ("     1.0            I", 41)]
    {
        let body = format!("{version_and_type}                   GPX");
        refuses(1, &version(&body), 3, column);
    }
    refuses(
        1,
        &version("     1.1            I                   GLO"),
        3,
        41,
    );
    refuses(
        1,
        &version("     1.1            J                   XXX"),
        3,
        21,
    );
    refuses(
        1,
        &version("     1.1            I                   GPS"),
        3,
        41,
    );
    refuses(
        1,
        &version("     1.1            I                    GN"),
        3,
        41,
    );
    refuses(
        1,
        &version("     1.0.           J                   XXX"),
        6,
        9,
    );
    refuses(
        1,
        &version("      11           xJ                   XXX"),
        6,
        1,
    );
    refuses(
        1,
        &version("     1.1           xJ                   XXX"),
        6,
        20,
    );
    refuses(
        1,
        &version("1.1                 I                   GNS"),
        6,
        1,
    );
    passes(
        1,
        &version("000001.1            Ixxxxxxxxxxxxxxxxxx~GNSSyyyyyyyyyyyyyyyy"),
    );
    assert_eq!(outcome_of(&before(2, &base()[0])), place(5, 2, 61));
    assert_eq!(outcome_of(&before(2, &version("xx"))), place(5, 2, 61));
    assert_eq!(outcome_of(&before(17, &version("xx"))), place(5, 17, 61));
}

#[test]
fn labels_in_the_header() {
    assert_eq!(outcome_of(&before(3, "short")), place(4, 3, 61));
    assert_eq!(outcome_of(&before(3, &rec("", "comment"))), place(4, 3, 61));
    for wrong in [
        "END OF FILE",
        "START OF TEC MAP",
        "END OF RMS MAP",
        "EPOCH OF CURRENT MAP",
        "LAT/LON1/LON2/DLON/H",
        "END OF AUX DATA",
        "PGM / RUN BY / DATE",
    ] {
        assert_eq!(outcome_of(&before(3, &rec("", wrong))), place(5, 3, 61));
    }
    // A repeated record that is ill-formed too: 5.
    for line in 2..=14 {
        let again = rec("    ?", base()[line - 1][60..].trim());
        assert_eq!(outcome_of(&before(15, &again)), place(5, 15, 61));
        assert_eq!(outcome_of(&before(17, &again)), place(5, 17, 61));
        assert_eq!(outcome_of(&without(line)), place(9, 14, 0));
    }
    for free in ["DESCRIPTION", "COMMENT"] {
        // Any number of the second, and up to 20 of the first.
        let mut lines = before(9, &rec("any ~ text", free));
        lines.insert(4, rec("", free));
        assert_eq!(outcome_of(&lines), "accepted");
    }
    for late in [
        "DESCRIPTION",
        "START OF AUX DATA",
        "END OF AUX DATA",
        "END OF HEADER",
    ] {
        assert_eq!(outcome_of(&before(17, &rec("", late))), place(5, 17, 61));
    }
    // Any order after the version record.
    let mut lines = base();
    lines[1..14].reverse();
    assert_eq!(outcome_of(&lines), "accepted");
}

/// How many descriptions a text has, and those that are not blank, in order.
fn descriptions(lines: &[String]) -> (i64, Vec<(usize, String)>) {
    let (header, texts, _) = accepted(lines, [12; 6]);
    let all = texts.descriptions.iter().enumerate();
    let written = all.filter(|(_, line)| line.iter().any(|&b| b != b' '));
    let as_text = |line: &[u8; 60]| String::from_utf8(line.to_vec()).unwrap();
    let found = written.map(|(k, line)| (k, as_text(line))).collect();
    (header.descriptions, found)
}

/// 02, Ask 1: "up to 20 of them, 60 columns each, in file order, blank-padded"; R: "blank DESCRIPTION lines count and are
/// kept".
#[test]
fn descriptions_are_kept() {
    assert_eq!(descriptions(&base()), (0, vec![]));
    let long = "~".repeat(60);
    let mut lines = base();
    lines.insert(14, rec("  last", "DESCRIPTION"));
    lines.insert(9, rec("a", "COMMENT"));
    lines.insert(9, rec("", "DESCRIPTION"));
    lines.insert(5, rec(&long, "DESCRIPTION"));
    lines.insert(1, rec("first", "DESCRIPTION"));
    let padded = |text: &str| format!("{text:<60}");
    let expected = vec![(0, padded("first")), (1, long), (3, padded("  last"))];
    assert_eq!(descriptions(&lines), (4, expected));
    // Lines of an aux block are none.
    lines.insert(3, rec("", "END OF AUX DATA"));
    lines.insert(3, rec("inside", "DESCRIPTION"));
    lines.insert(3, rec("", "START OF AUX DATA"));
    assert_eq!(descriptions(&lines).0, 4);
}

/// "a twenty-first DESCRIPTION is 5", a blank one too, whatever stands between.
#[test]
fn a_twenty_first_description() {
    for body in ["", "text"] {
        let mut lines = base();
        for _ in 0..20 {
            lines.insert(2, rec(body, "DESCRIPTION"));
        }
        assert_eq!(descriptions(&lines).0, 20);
        lines.insert(30, rec("", "DESCRIPTION"));
        assert_eq!(outcome_of(&lines), place(5, 31, 61));
        lines.insert(1, rec(body, "DESCRIPTION"));
        assert_eq!(outcome_of(&lines), place(5, 23, 61));
    }
}

#[test]
fn aux_blocks() {
    let mut lines = base();
    let block = [
        rec("A", "START OF AUX DATA"),
        rec("  9999", "EXPONENT"),
        rec("B", "START OF AUX DATA"),
        "anything at all".to_string(),
        String::new(),
        rec("", "END OF HEADER"),
        rec("another name", "END OF AUX DATA"),
    ];
    for (k, line) in block.iter().enumerate() {
        lines.insert(4 + k, line.clone());
    }
    assert_eq!(outcome_of(&lines), "accepted");
    let mut bad = lines.clone();
    bad[7] = "\t".to_string();
    assert_eq!(outcome_of(&bad), place(2, 8, 1));
    lines.remove(10);
    assert_eq!(outcome_of(&lines), place(10, 43, 0));
}

#[test]
fn header_fields() {
    let epoch = |body: &str| rec(body, "EPOCH OF FIRST MAP");
    refuses(3, &epoch("  2000     1     1     0     0"), 6, 31);
    refuses(3, &epoch("  2000     1     1     0     0     0 x"), 6, 38);
    refuses(3, &epoch("  1899    13     1     0     0     0"), 7, 1);
    refuses(3, &epoch("  2000    13    32    24     0     0"), 7, 7);
    refuses(3, &epoch("  2001     2    29    24    60    60"), 7, 13);
    refuses(3, &epoch("  2000     2    29    24    60    60"), 7, 19);
    refuses(3, &epoch("  2000     2    29    23    60    60"), 7, 25);
    refuses(3, &epoch("  2000     2    29    23    59    60"), 7, 31);
    refuses(5, &rec("    -1", "INTERVAL"), 7, 1);
    refuses(5, &rec(" 21601", "INTERVAL"), 7, 1);
    refuses(5, &rec(" 21601 x", "INTERVAL"), 6, 8);
    refuses(5, &rec("", "INTERVAL"), 6, 1);
    refuses(6, &rec("     0", "# OF MAPS IN FILE"), 7, 1);
    refuses(6, &rec("   301", "# OF MAPS IN FILE"), 7, 1);
    refuses(7, &rec(" xCOSZ", "MAPPING FUNCTION"), 6, 2);
    refuses(7, &rec("  COSZx", "MAPPING FUNCTION"), 6, 7);
    passes(7, &rec("      ", "MAPPING FUNCTION"));
    refuses(8, &rec("    90.1", "ELEVATION CUTOFF"), 7, 1);
    refuses(8, &rec("    -0.1", "ELEVATION CUTOFF"), 7, 1);
    refuses(8, &rec("     20", "ELEVATION CUTOFF"), 6, 1);
    passes(8, &rec("    90.0", "ELEVATION CUTOFF"));
    passes(8, &rec("-00000.0", "ELEVATION CUTOFF"));
    refuses(10, &rec("   999.9", "BASE RADIUS"), 7, 1);
    refuses(10, &rec("100000.0", "BASE RADIUS"), 7, 1);
    passes(10, &rec("  1000.0", "BASE RADIUS"));
    passes(10, &rec(" 99999.9", "BASE RADIUS"));
    refuses(11, &rec("     1", "MAP DIMENSION"), 7, 1);
    refuses(11, &rec("     4", "MAP DIMENSION"), 7, 1);
    refuses(
        14,
        &rec("     0.0  20.0 -10.0", "LON1 / LON2 / DLON"),
        7,
        15,
    );
    refuses(
        14,
        &rec("     0.0  20.0  15.1", "LON1 / LON2 / DLON"),
        7,
        15,
    );
    refuses(14, &rec("     0.0  20.0   3.0", "LON1 / LON2 / DLON"), 7, 0);
    refuses(
        13,
        &rec("    10.0   0.0   0.0", "LAT1 / LAT2 / DLAT"),
        7,
        15,
    );
    refuses(13, &rec("    10.0  90.5   0.0", "LAT1 / LAT2 / DLAT"), 7, 9);
    refuses(13, &rec("    10.0   0.0  10.0", "LAT1 / LAT2 / DLAT"), 7, 0);
    refuses(13, &rec("x   10.0   0.0  10.0", "LAT1 / LAT2 / DLAT"), 6, 1);
    refuses(12, &rec("   400.0 400.0   1.0", "HGT1 / HGT2 / DHGT"), 7, 0);
    refuses(12, &rec("   400.0  -0.1   1.0", "HGT1 / HGT2 / DHGT"), 7, 9);
    refuses(15, &rec("          x", "END OF HEADER"), 6, 11);
    assert_eq!(
        outcome_of(&before(3, &rec("     1", "EXPONENT"))),
        place(7, 3, 1)
    );
    assert_eq!(
        outcome_of(&before(3, &rec("    -4", "EXPONENT"))),
        place(7, 3, 1)
    );
}

#[test]
fn starred_records() {
    let sys = |body: &str| rec(body, "SYS / #STA / #SAT");
    let mut lines = base();
    lines.insert(3, rec("     0", "# OF STATIONS"));
    lines.insert(3, rec("999999", "# OF SATELLITES"));
    for (k, letter) in "SIJCERG".chars().enumerate() {
        lines.insert(3, sys(&format!("     {letter}{k:>6}999999")));
    }
    let (header, ..) = accepted(&lines, [5000; 6]);
    assert!(header.stations.stands && header.stations.count == 0);
    assert!(header.satellites.stands && header.satellites.count == 999_999);
    for (k, system) in header.systems.iter().enumerate() {
        assert!(system.stands);
        assert_eq!(system.stations, 6 - k as i64);
        assert_eq!(system.satellites, 999_999);
    }
    let one = |body: &str| outcome_of(&before(3, &sys(body)));
    assert_eq!(one("     X     1     1"), place(7, 3, 6));
    assert_eq!(one("     X     1     x"), place(6, 3, 13));
    assert_eq!(one("     g    -1     1"), place(7, 3, 6));
    assert_eq!(one("     G    -1    -1"), place(7, 3, 7));
    assert_eq!(one("     G     1    -1"), place(7, 3, 13));
    assert_eq!(one("    xG     1    -1"), place(6, 3, 5));
    assert_eq!(one("     G     1     1x"), place(6, 3, 19));
    let two = |body: &str| {
        let mut lines = before(3, &sys("     G     1     1"));
        lines.insert(5, sys(body));
        outcome_of(&lines)
    };
    assert_eq!(two("     R     1     1"), "accepted");
    assert_eq!(two("     G     1     1"), place(5, 6, 61));
    assert_eq!(two("x    G     ?"), place(5, 6, 61));
    let again = |label: &str| {
        let mut lines = before(3, &rec("     1", label));
        lines.insert(3, rec("     1", label));
        outcome_of(&lines)
    };
    assert_eq!(again("# OF STATIONS"), place(5, 4, 61));
    assert_eq!(again("# OF SATELLITES"), place(5, 4, 61));
    let negative = before(3, &rec("    -1", "# OF STATIONS"));
    assert_eq!(outcome_of(&negative), place(7, 3, 1));
}

#[test]
fn end_of_header() {
    // Dimension against DHGT: 8 before 7 for the sizes, after 9.
    let mut lines = with(11, &rec("     3", "MAP DIMENSION"));
    assert_eq!(outcome_of(&lines), place(8, 15, 0));
    lines[13] = rec("     0.0 360.0   0.1", "LON1 / LON2 / DLON");
    assert_eq!(outcome_of(&lines), place(8, 15, 0));
    lines.remove(4);
    assert_eq!(outcome_of(&lines), place(9, 14, 0));
    let lon = |body: &str| outcome_of(&with(14, &rec(body, "LON1 / LON2 / DLON")));
    // 3601, 722 and 721 columns; the last goes on to the first block.
    assert_eq!(lon("     0.0 360.0   0.1"), place(7, 15, 0));
    assert_eq!(lon("     0.0  72.1   0.1"), place(7, 15, 0));
    assert_eq!(lon("     0.0  72.0   0.1"), place(8, 18, 15));
    let lat = |body: &str| outcome_of(&with(13, &rec(body, "LAT1 / LAT2 / DLAT")));
    assert_eq!(lat("     0.0  36.1   0.1"), place(7, 15, 0));
    assert_eq!(lat("     0.0  36.0   0.1"), place(8, 18, 3));
    let mut three = with(11, &rec("     3", "MAP DIMENSION"));
    three[11] = rec("     0.0  63.0   1.0", "HGT1 / HGT2 / DHGT");
    assert_eq!(outcome_of(&three), place(8, 18, 27));
    three[11] = rec("     0.0  64.0   1.0", "HGT1 / HGT2 / DHGT");
    assert_eq!(outcome_of(&three), place(7, 15, 0));
    // n·L·R·C: 100 · 64 · 104 · 3 is 1,996,800; 105 rows make 2,016,000.
    three[11] = rec("     0.0  63.0   1.0", "HGT1 / HGT2 / DHGT");
    three[5] = rec("   100", "# OF MAPS IN FILE");
    three[12] = rec("    10.3   0.0  -0.1", "LAT1 / LAT2 / DLAT");
    assert_eq!(outcome_of(&three), place(8, 18, 3));
    three[12] = rec("    10.4   0.0  -0.1", "LAT1 / LAT2 / DLAT");
    assert_eq!(outcome_of(&three), place(7, 15, 0));
    // 100 · 1 · 50 · 400 is 2,000,000; 53 · 1 · 53 · 712 is 2,000,008.
    let mut two = with(6, &rec("   100", "# OF MAPS IN FILE"));
    two[12] = rec("     4.9   0.0  -0.1", "LAT1 / LAT2 / DLAT");
    two[13] = rec("     0.0  39.9   0.1", "LON1 / LON2 / DLON");
    assert_eq!(outcome_of(&two), place(8, 18, 3));
    two[5] = rec("    53", "# OF MAPS IN FILE");
    two[12] = rec("     5.2   0.0  -0.1", "LAT1 / LAT2 / DLAT");
    two[13] = rec("     0.0  71.1   0.1", "LON1 / LON2 / DLON");
    assert_eq!(outcome_of(&two), place(7, 15, 0));
}

#[test]
fn map_numbers() {
    refuses(16, &rec("     2", "START OF TEC MAP"), 8, 1);
    refuses(16, &rec("     0", "START OF TEC MAP"), 8, 1);
    refuses(16, &rec("     1x", "START OF TEC MAP"), 6, 7);
    passes(16, &rec("000001", "START OF TEC MAP"));
    refuses(16, &rec("     1", "START OF RMS MAP"), 8, 1);
    refuses(23, &rec("     1", "START OF TEC MAP"), 8, 1);
    refuses(22, &rec("     2", "END OF TEC MAP"), 8, 1);
    refuses(22, &rec("     1", "END OF RMS MAP"), 5, 61);
    refuses(22, &rec("      ", "END OF TEC MAP"), 6, 1);
    refuses(30, &rec("     3", "START OF RMS MAP"), 8, 1);
    refuses(30, &rec("     0", "START OF RMS MAP"), 8, 1);
    refuses(30, &rec("    -1", "START OF RMS MAP"), 8, 1);
    refuses(30, &rec("     3", "START OF TEC MAP"), 8, 1);
    // A second time, and falling.
    let mut lines = base();
    let rms: Vec<String> = lines[29..35].to_vec();
    for (k, line) in rms.iter().enumerate() {
        lines.insert(35 + k, line.clone());
    }
    assert_eq!(outcome_of(&lines), place(8, 36, 1));
    lines[35] = rec("     1", "START OF RMS MAP");
    assert_eq!(outcome_of(&lines), place(8, 36, 1));
    lines[29] = rec("     1", "START OF RMS MAP");
    lines[34] = rec("     1", "END OF RMS MAP");
    lines[35] = rec("     2", "START OF RMS MAP");
    assert_eq!(outcome_of(&lines), "accepted");
}

#[test]
fn map_places() {
    assert_eq!(outcome_of(&before(17, &base()[15])), place(5, 17, 61));
    assert_eq!(
        outcome_of(&before(17, &rec("x", "END OF FILE"))),
        place(5, 17, 61)
    );
    assert_eq!(outcome_of(&before(16, &base()[21])), place(5, 16, 61));
    assert_eq!(outcome_of(&before(16, &base()[16])), place(5, 16, 61));
    assert_eq!(outcome_of(&before(17, &base()[16])), place(5, 18, 61));
    assert_eq!(outcome_of(&before(20, &base()[16])), place(5, 20, 61));
    // END of another kind than the open map's.
    for (start, end) in [
        ("RMS", "TEC"),
        ("RMS", "HEIGHT"),
        ("HEIGHT", "TEC"),
        ("HEIGHT", "RMS"),
    ] {
        let mut lines = with(30, &rec("     2", &format!("START OF {start} MAP")));
        lines[34] = rec("     2", &format!("END OF {end} MAP"));
        assert_eq!(outcome_of(&lines), place(5, 35, 61));
        lines[34] = rec("     2", &format!("END OF {start} MAP"));
        assert_eq!(outcome_of(&lines), "accepted");
    }
    // A block outside a map, before the epoch, one too many; ill-formed or not.
    let block = rec("?", "LAT/LON1/LON2/DLON/H");
    for line in [16, 17, 22] {
        assert_eq!(outcome_of(&before(line, &block)), place(5, line, 61));
    }
    // A value line too many is judged by its label.
    assert_eq!(outcome_of(&before(20, "    1    2    3")), place(4, 20, 61));
    // END of a map with neither epoch nor block, and with a block missing.
    assert_eq!(outcome_of(&before(17, &base()[21])), place(9, 17, 0));
    let wrong = rec("     7", "END OF TEC MAP");
    assert_eq!(outcome_of(&before(20, &wrong)), place(9, 20, 0));
    let wrong = rec("     ?", "END OF TEC MAP");
    assert_eq!(outcome_of(&before(20, &wrong)), place(6, 20, 1));
    // END OF FILE: 5, then 6, then 9.
    assert_eq!(outcome_of(&before(23, &base()[35])), place(9, 23, 0));
    let wrong = rec("  x", "END OF FILE");
    assert_eq!(outcome_of(&before(23, &wrong)), place(6, 23, 3));
    // After END OF FILE.
    assert_eq!(outcome_of(&before(37, "  ")), "accepted");
    assert_eq!(outcome_of(&before(37, &base()[35])), place(5, 37, 61));
    let comment = rec("", "COMMENT");
    assert_eq!(outcome_of(&before(37, &comment)), place(5, 37, 61));
    assert_eq!(outcome_of(&before(37, "x")), place(4, 37, 61));
}

#[test]
fn epochs() {
    let epoch = |body: &str| rec(body, "EPOCH OF CURRENT MAP");
    refuses(17, &epoch("  2000     1     1     0     0     1"), 8, 1);
    refuses(24, &epoch("  2000     1     1     2     0     1"), 8, 1);
    refuses(24, &epoch("  2000     1     1     0     0     0"), 8, 1);
    refuses(17, &epoch("  2000     1    32     0     0    60"), 7, 13);
    refuses(17, &epoch("  2000     1     ?     0     0    60"), 6, 13);
    // "a gap of 21,600 s" passes, 21,601 is refused.
    let gap = |last: &str, interval: &str| {
        let mut lines = with(4, &rec(last, "EPOCH OF LAST MAP"));
        lines[4] = rec(interval, "INTERVAL");
        lines[23] = epoch(last);
        outcome_of(&lines)
    };
    assert_eq!(
        gap("  2000     1     1     6     0     0", " 21600"),
        "accepted"
    );
    assert_eq!(
        gap("  2000     1     1     6     0     0", "     0"),
        "accepted"
    );
    let late = "  2000     1     1     6     0     1";
    assert_eq!(gap(late, "     0"), place(8, 24, 1));
    assert_eq!(gap(late, " 21600"), place(8, 24, 1));
    let once = "  2000     1     1     0     0     1";
    assert_eq!(gap(once, "     0"), "accepted");
    assert_eq!(gap(once, "     2"), place(8, 24, 1));
    let same = "  2000     1     1     0     0     0";
    assert_eq!(gap(same, "     0"), place(8, 24, 1));
    // RMS maps may repeat their TEC map's epoch.
    let right = epoch("  2000     1     1     2     0     0");
    assert_eq!(outcome_of(&before(31, &right)), "accepted");
    let wrong = epoch("  2000     1     1     0     0     0");
    assert_eq!(outcome_of(&before(31, &wrong)), place(8, 31, 1));
    let mut twice = before(31, &right);
    twice.insert(31, right.clone());
    assert_eq!(outcome_of(&twice), place(5, 32, 61));
    assert_eq!(outcome_of(&before(33, &right)), place(5, 33, 61));
}

#[test]
fn block_openings() {
    let block = |body: &str| rec(body, "LAT/LON1/LON2/DLON/H");
    refuses(18, &block("     0.0   0.0  20.0  10.0 400.0"), 8, 3);
    refuses(18, &block("    10.0   1.0  21.0  11.0 400.0"), 8, 9);
    refuses(18, &block("    10.0   0.0  21.0  11.0 400.0"), 8, 15);
    refuses(18, &block("    10.0   0.0  20.0  11.0 400.0"), 8, 21);
    refuses(18, &block("    99.9   0.0  20.0  11.0 400,0"), 6, 27);
    refuses(18, &block("  x 99.9   0.0  20.0  11.0 400,0"), 6, 3);
    refuses(18, &block("    10.0   0.0  20.0  10.0 400.0x"), 6, 33);
    // "in dimension 2 H may be any number of that layout"
    passes(18, &block("    10.0   0.0  20.0  10.0-999.9"));
    passes(18, &block("  0010.0  -0.00020.00010.09999.9"));
}

#[test]
fn value_lines() {
    refuses(19, "    1    2", 6, 11);
    refuses(19, "    1   2     3", 6, 6);
    refuses(19, "    1    2    3    4", 6, 20);
    refuses(19, "    1    2    x    4", 6, 11);
    refuses(19, &rec("", "COMMENT"), 6, 1);
    refuses(19, &rec("    1    2    3", "COMMENT"), 6, 61);
    passes(19, "    1    2    3");
    passes(19, "   -00000099999");
    let (_, _, own) = accepted(&with(19, "-99990000099999"), [12; 6]);
    assert_eq!(own.tec[..3], [-9999, 0, 99_999]);
}

#[test]
fn sixteen_to_a_line() {
    // 17 columns: one line of 16 and one of 1.
    let mut lines = base();
    lines[13] = rec("     0.0 160.0  10.0", "LON1 / LON2 / DLON");
    let full: String = (1..=16).map(|v| format!("{v:>5}")).collect();
    for line in [19, 21, 26, 28, 32, 34] {
        lines[line - 1] = format!("{full}\n\n   17");
        lines[line - 2] = lines[line - 2].replace(" 20.0", "160.0");
    }
    let (_, _, own) = accepted(&lines, [100; 6]);
    for block in own.tec[..68].chunks(17) {
        assert_eq!(block, (1..=17).collect::<Vec<i32>>());
    }
    lines[18] = lines[18].replace("   17", "   17   18");
    assert_eq!(outcome_of(&lines), place(6, 21, 9));
}

/// 02, Ask 4: `.5` and `-.5` mean what `0.5` and `-0.5` mean, wherever an Fn.1 field stands.
#[test]
fn no_digit_before_the_point() {
    let mut lines = base();
    lines[7] = rec("      .5", "ELEVATION CUTOFF");
    lines[11] = rec("      .5    .5    .0", "HGT1 / HGT2 / DHGT");
    lines[12] = rec("      .5   -.5   -.5", "LAT1 / LAT2 / DLAT");
    lines[13] = rec("     -.5    .5    .5", "LON1 / LON2 / DLON");
    let opening = |latitude: &str, height: &str| {
        let body = format!("  {latitude}   -.5    .5  00.5{height}");
        rec(&body, "LAT/LON1/LON2/DLON/H")
    };
    for (rows, height) in [
        ([18, 20], "    .0"),
        ([25, 27], " -00.5"),
        ([31, 33], "   -.5"),
    ] {
        lines[rows[0] - 1] = opening("    .5", height);
        lines[rows[1] - 1] = opening("    .0", height);
    }
    // Here are three rows: 0.5, 0.0 and -0.5.
    let row = opening("   -.5", "   0.5");
    for end in [35, 29, 22] {
        lines.insert(end - 1, "    7    8    9".to_string());
        lines.insert(end - 1, row.clone());
    }
    let plain = |text: &[String]| -> Vec<String> {
        let zero = |line: &String| line.replace(" -.", "-0.").replace(" .", "0.");
        text.iter().map(zero).collect()
    };
    assert_eq!(accepted(&lines, [18; 6]), accepted(&plain(&lines), [18; 6]));
    let (header, _, _) = accepted(&lines, [18; 6]);
    assert_eq!((header.cutoff, header.heights.first), (5, 5));
    let axis = |first, last, step| Axis { first, last, step };
    assert_eq!(header.latitudes, axis(5, -5, -5));
    assert_eq!(header.longitudes, axis(-5, 5, 5));
}

/// "The digit after it stays required."
#[test]
fn no_digit_after_the_point() {
    let version = |field: &str| {
        let body = format!("{field}            IONOSPHERE MAPS     GNS");
        rec(&body, "IONEX VERSION / TYPE")
    };
    for field in ["       .", "      -.", "      . ", "     1. "] {
        refuses(1, &version(field), 6, 1);
        refuses(8, &rec(field, "ELEVATION CUTOFF"), 6, 1);
        refuses(10, &rec(field, "BASE RADIUS"), 6, 1);
    }
    // A version of 0.1 and of -0.1: a number, but not 1.1.
    refuses(1, &version("      .1"), 3, 1);
    refuses(1, &version("     -.1"), 3, 1);
    for field in [
        "     .", "    -.", "    . ", "   -. ", "  - .5", "   5. ", "     5",
    ] {
        let axis = format!("    10.0{field} -10.0");
        refuses(13, &rec(&axis, "LAT1 / LAT2 / DLAT"), 6, 9);
        let opening = format!("    10.0   0.0  20.0  10.0{field}");
        refuses(18, &rec(&opening, "LAT/LON1/LON2/DLON/H"), 6, 27);
    }
    // A whole number has no point at all.
    for field in ["    .5", "    5.", "    .0"] {
        refuses(5, &rec(field, "INTERVAL"), 6, 1);
    }
}

#[test]
fn the_exponent_stays_in_force() {
    let exponent = |k: i32| rec(&format!("{k:>6}"), "EXPONENT");
    // In the header, the last counts; it holds on into the RMS map.
    let mut lines = before(3, &exponent(-3));
    lines.insert(9, exponent(0));
    let (_, _, own) = accepted(&lines, [12; 6]);
    assert_eq!(own.exponents, [0, 0, 0, 0, -1, -1, 0, 0, -1, -1, -1, -1]);
    // Between blocks: in force for every later block, map and kind.
    let (_, _, own) = accepted(&before(20, &exponent(-2)), [12; 6]);
    assert_eq!(
        own.exponents,
        [-1, -2, -2, -2, -1, -1, -2, -2, -1, -1, -1, -1]
    );
    // Anywhere outside a block, also before and between maps and before END OF FILE.
    for line in [16, 17, 18, 20, 22, 23, 30, 31, 33, 35, 36] {
        assert_eq!(outcome_of(&before(line, &exponent(0))), "accepted");
        let comment = rec("   -1", "COMMENT");
        assert_eq!(outcome_of(&before(line, &comment)), "accepted");
        assert_eq!(outcome_of(&before(line, &exponent(1))), place(7, line, 1));
        assert_eq!(outcome_of(&before(line, &exponent(-4))), place(7, line, 1));
        let ill = rec("  -1 ", "EXPONENT");
        assert_eq!(outcome_of(&before(line, &ill)), place(6, line, 1));
    }
    assert_eq!(outcome_of(&before(19, &exponent(0))), place(6, 19, 1));
}
