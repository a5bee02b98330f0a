//! `ionex check`: the line of an accepted file, and every refusal at its place and in words.

mod common;

use common::global::{self, joined, record};
use common::{example, ionex, ionex_given, lines, Folder};

#[test]
fn accepted_files() {
    let folder = Folder::new();
    let day = folder.file("day.inx", &global::text(true));
    let files = [
        "tests/examples/001-table-3.inx",
        "tests/examples/001-table-4.inx",
        "tests/examples/accepted-canonical.inx",
        "tests/examples/accepted-4000-values.inx",
        "tests/examples/accepted-version-1.inx",
        &day,
    ];
    let ran = ionex(&[&["check"], &files[..]].concat());
    let said = [
        "5 TEC, 5 RMS and 5 height maps, 35 × 72, 1995-10-15 00:00:00 to 1995-10-16 00:00:00",
        "5 TEC and 5 RMS maps, 13 layers of 35 × 72, 1995-10-15 00:00:00 to 1995-10-16 00:00:00",
        "2 TEC and 1 RMS maps, 2 × 3, 2000-01-01 00:00:00 to 2000-01-01 02:00:00",
        "1 TEC map, 40 × 100, 2000-01-01 00:00:00 to 2000-01-01 00:00:00",
        "2 TEC and 1 RMS maps, 2 × 3, 2000-01-01 00:00:00 to 2000-01-01 02:00:00",
        "25 TEC and 25 RMS maps, 71 × 73, 2010-12-04 00:00:00 to 2010-12-05 00:00:00",
    ];
    let expected: String = files
        .iter()
        .zip(said)
        .map(|(file, said)| format!("{file}: ok, {said}\n"))
        .collect();
    assert_eq!(ran.done(), expected);
}

#[test]
fn accepted_json() {
    let ran = ionex(&["check", "--json", "tests/examples/accepted-canonical.inx"]);
    let expected = r#"{"file":"tests/examples/accepted-canonical.inx","status":"ok","tec_maps":2,"rms_maps":1,"height_maps":0,"layers":1,"rows":2,"columns":3,"first":"2000-01-01T00:00:00","last":"2000-01-01T02:00:00"}"#;
    assert_eq!(ran.done(), format!("{expected}\n"));
}

/// The refused examples, each written out by hand.
#[test]
fn refused_examples() {
    let expected = include_str!("refused.txt");
    let files: Vec<String> = (1..=10)
        .map(|number| format!("tests/examples/refused-{number:02}.inx"))
        .collect();
    let mut words = vec!["check"];
    words.extend(files.iter().map(String::as_str));
    let ran = ionex(&words);
    assert_eq!((ran.status, ran.err.as_str()), (1, ""));
    assert_eq!(ran.text(), expected);
}

/// The program of the scope paper has areas for 4,000 values, and refuses this with 11; here it has what it needs.
#[test]
fn an_area_is_never_too_short() {
    let ran = ionex(&["check", "tests/examples/refused-11.inx"]);
    let said = "ok, 1 TEC map, 6 × 721, 2000-01-01 00:00:00 to 2000-01-01 00:00:00";
    assert_eq!(
        ran.done(),
        format!("tests/examples/refused-11.inx: {said}\n")
    );
}

#[test]
fn refused_json() {
    let ran = ionex(&["check", "--json", "tests/examples/refused-03.inx"]);
    let expected = r#"{"file":"tests/examples/refused-03.inx","status":"refused","number":3,"line":1,"column":41,"reason":"no version record first, or a version, type or code that is not accepted","expected":"the code: one of BEN ENV ERS GEO GNS IRI MIX NNS TOP, found `GPS`","hints":["GPS and GLO are codes of version 1.0; in version 1.1 GNS stands for both"]}"#;
    assert_eq!(
        (ran.status, ran.text()),
        (1, format!("{expected}\n").as_str())
    );
}

/// The highest status of several files, and none of them is left out.
#[test]
fn several_files() {
    let (good, bad) = (
        "tests/examples/accepted-3d.inx",
        "tests/examples/refused-07.inx",
    );
    let ran = ionex(&["check", bad, "no-such-file", good]);
    ran.failed(2, "ionex: no-such-file: no such file\n");
    assert!(ran
        .text()
        .starts_with("tests/examples/refused-07.inx:3:13: refused 7: "));
    assert!(ran
        .text()
        .contains("\ntests/examples/accepted-3d.inx: ok, "));
    assert_eq!(ionex(&["check", good, bad]).status, 1);
    let ran = ionex(&["check", "--json", "no-such-file", good]);
    assert_eq!((ran.status, ran.err.as_str()), (2, ""));
    assert!(ran.text().starts_with(
        r#"{"file":"no-such-file","status":"unread","error":"no-such-file: no such file"}"#
    ));
    assert_eq!(ran.text().lines().count(), 2);
}

#[test]
fn standard_input() {
    let ran = ionex_given(&example("accepted-canonical.inx"), &["check", "-"]);
    let said = "ok, 2 TEC and 1 RMS maps, 2 × 3, 2000-01-01 00:00:00 to 2000-01-01 02:00:00";
    assert_eq!(ran.done(), format!("standard input: {said}\n"));
    let ran = ionex_given(b"", &["check", "-"]);
    assert!(ran.text().starts_with("standard input:1:0: refused 10: "));
    assert_eq!(ran.status, 1);
}

/// What is told of a text that is no file of its own: the place, what was expected, and the hint.
fn told(text: &[u8]) -> (String, String, String) {
    let ran = ionex_given(text, &["check", "-"]);
    assert_eq!((ran.status, ran.err.as_str()), (1, ""), "{}", ran.text());
    let part = |start: &str| {
        let found = ran
            .text()
            .lines()
            .find_map(|line| line.trim_start().strip_prefix(start));
        found.unwrap_or("").to_string()
    };
    let place = part("standard input:");
    let end = place.find(": refused ").expect("a refusal");
    let number = place[end + 10..]
        .split(':')
        .next()
        .expect("a number")
        .to_string();
    (
        format!("{number} {}", &place[..end]),
        part("= expected "),
        part("= hint: "),
    )
}

fn damaged(damage: impl FnOnce(&mut Vec<String>)) -> Vec<u8> {
    let mut lines = lines();
    damage(&mut lines);
    joined(&lines)
}

#[test]
fn hints_for_what_people_meet() {
    let good = example("accepted-canonical.inx");
    let archive = example("accepted-version-1.inx");
    let version = |from: &str, to: &str| damaged(|lines| lines[0] = lines[0].replacen(from, to, 1));
    let cases: Vec<(Vec<u8>, &str, &str)> = vec![
        (
            version("GNS", "GLO"),
            "3 1:41",
            "GPS and GLO are codes of version 1.0; in version 1.1 GNS stands for both",
        ),
        (
            damaged(|lines| lines.insert(4, record("   G07     0.100     0.200", "PRN / BIAS / RMS"))),
            "4 5:61",
            "PRN / BIAS / RMS belongs between START OF AUX DATA and END OF AUX DATA, in the header",
        ),
        (
            archive[..archive.len() - 72].to_vec(),
            "10 44:0",
            "some centres leave END OF FILE out; if nothing else is missing, add it: `printf '%60sEND OF FILE\\n' '' >>FILE`",
        ),
        (
            [b"\x1f\x8b\x08\x00\x12\x34".as_slice(), &good].concat(),
            "1 1:81",
            "this is a gzip file: unpack it with `gunzip` first",
        ),
        (
            b"\x1f\x9d\x90ab\n".to_vec(),
            "2 1:1",
            "this is a file of `compress` (.Z): unpack it with `uncompress` or `gzip -d` first",
        ),
        (
            b"\x28\xb5\x2f\xfd\x04\x00\r\x01\x02\r\x03\n".to_vec(),
            "2 1:2",
            "this is a Zstandard file (.zst): unpack it with `unzstd` first",
        ),
        (
            b"\x7fELF\x02\x01\x01\x00 a\r b\r c".to_vec(),
            "2 1:1",
            "this is a binary file, no text",
        ),
        (
            b"     1.1\rMAPS\rGNS\xe4".to_vec(),
            "2 1:9",
            "a line ends in LF or CR LF, and here is a CR too many: delete it",
        ),
        (
            [b"\xef\xbb\xbf".as_slice(), &good].concat(),
            "1 1:81",
            "the file begins with a byte-order mark: remove its first three bytes, as by `tail -c +4`",
        ),
        (
            b"<!DOCTYPE html>\n<html><body>404</body></html>\n".to_vec(),
            "3 1:61",
            "this is an HTML page, not a file of maps: a server sends one for an error or a login",
        ),
        (
            [good.clone(), good.clone()].concat(),
            "5 37:61",
            "two files one after the other: the first is lines 1 to 36, as by `head -n 36`",
        ),
        (
            [&good[..good.len() - 72], &good].concat(),
            "5 36:61",
            "two files one after the other, and the first breaks off on line 35",
        ),
        (
            String::from_utf8(good.clone()).expect("ASCII").replace('\n', "\r").into_bytes(),
            "1 1:81",
            "lines end in CR alone here: turn them into LF, as by `tr '\\r' '\\n'`",
        ),
        (
            b"     1.1\rMAPS\rGNS".to_vec(),
            "2 1:9",
            "lines end in CR alone here: turn them into LF, as by `tr '\\r' '\\n'`",
        ),
        (
            damaged(|lines| lines[1] = "one\rtwo\rthree".to_string()),
            "2 2:4",
            "lines end in CR alone here: turn them into LF, as by `tr '\\r' '\\n'`",
        ),
        (
            [&good[..], b"\x1a\n"].concat(),
            "2 37:1",
            "old systems put byte 26 at the end of a file: `ionex mend` removes it",
        ),
        (
            damaged(|lines| lines[3] = lines[3].replace("     2     0     0", "    24     0     0")),
            "7 4:19",
            "24:00:00 is 00:00:00 of the next day: `ionex mend` writes it so",
        ),
        (
            damaged(|lines| {
                let rms: Vec<String> = lines.drain(29..35).collect();
                lines.splice(15..15, rms);
            }),
            "8 16:1",
            "it stands before its TEC map: if all maps are there, `ionex mend` puts them in order",
        ),
        (
            damaged(|lines| lines[3] = lines[3].replace("     2     0     0", "    25     0     0")),
            "7 4:19",
            "",
        ),
        (
            damaged(|lines| lines[4].push_str("\r\r")),
            "2 5:69",
            "a line ends in LF or CR LF, and here is a CR too many: delete it",
        ),
        (
            damaged(|lines| lines.insert(2, record("Universität Bern", "COMMENT"))),
            "2 3:10",
            "the letter `ä` of UTF-8 stands in a remark (COMMENT): write it in ASCII, the maps do not change",
        ),
        (
            damaged(|lines| lines[18] = "    1    2\t   3".to_string()),
            "2 19:11",
            "write blanks in the place of the tab, as by `expand`",
        ),
        (
            damaged(|lines| lines[18] = "    1    2*****".to_string()),
            "6 19:11",
            "stars are written where a number is too wide for its field",
        ),
        (
            damaged(|lines| lines[4].push_str(&" ".repeat(30))),
            "1 5:81",
            "only blanks stand behind column 80: remove them, as by `sed 's/ *$//'`",
        ),
        (good[..good.len() - 147].to_vec(),
            "10 35:0", "the file was cut off, on its way or while it was written: fetch it again"),
    ];
    let cut = "the text ends in mid-line: the file was cut off, so fetch it again";
    let in_mid_line = [
        (good[..good.len() - 200].to_vec(), "4 33:61", cut),
        (good[..good.len() - 150].to_vec(), "6 34:11", cut),
    ];
    for (text, place, hint) in cases.into_iter().chain(in_mid_line) {
        let (found, _, said) = told(&text);
        assert_eq!((found.as_str(), said.as_str()), (place, hint));
    }
}

/// A Latin-1 letter, which is one byte and no UTF-8.
#[test]
fn a_letter_of_latin_1() {
    let mut text = damaged(|lines| lines.insert(2, record("Universit@t Bern", "COMMENT")));
    let place = text
        .iter()
        .position(|&byte| byte == b'@')
        .expect("the letter");
    text[place] = 0xe4;
    let (found, expected, hint) = told(&text);
    assert_eq!(found, "2 3:10");
    assert_eq!(
        expected,
        "a printable ASCII byte, 32 to 126, found 228 (no ASCII)"
    );
    assert_eq!(
        hint,
        "byte 228, a letter of Latin-1 perhaps, stands in a remark (COMMENT): write it in ASCII, the maps do not change"
    );
}

/// Which header record, block or map is missing, and what disagrees with what.
#[test]
fn what_was_expected() {
    let set = |line: usize, text: &str| {
        let text = text.to_string();
        damaged(move |lines| lines[line - 1] = text)
    };
    let without = |range: std::ops::RangeInclusive<usize>| {
        damaged(move |lines| drop(lines.drain(range.start() - 1..=range.end() - 1)))
    };
    let epoch = |text: &str| record(text, "EPOCH OF CURRENT MAP");
    let version = |version: &str, code: &str| {
        let body = format!("     {version}            IONOSPHERE MAPS     {code}");
        set(1, &record(&body, "IONEX VERSION / TYPE"))
    };
    let cases: Vec<(Vec<u8>, &str, &str)> = vec![
        // 9: missing
        (without(10..=11), "9 13:0", "before it BASE RADIUS, MAP DIMENSION"),
        (without(20..=21), "9 20:0", "before it the block of latitude 0.0, in TEC map 1 (line 16)"),
        (
            without(17..=21),
            "9 17:0",
            "before it EPOCH OF CURRENT MAP and 2 blocks from latitude 10.0 on, in TEC map 1 (line 16)",
        ),
        (without(23..=35), "9 23:0", "before it TEC map 2: # OF MAPS IN FILE is 2 (line 6)"),
        // 10: cut short
        (without(36..=36), "10 36:0", "END OF FILE: all 2 TEC maps have ended"),
        (without(29..=36), "10 29:0", "END OF TEC MAP for TEC map 2 (line 23)"),
        (without(28..=36), "10 28:0", "3 more values of latitude 0.0 (line 27), in TEC map 2 (line 23)"),
        (without(27..=36), "10 27:0", "the block of latitude 0.0, in TEC map 2 (line 23)"),
        (without(23..=36), "10 23:0", "TEC map 2: # OF MAPS IN FILE is 2 (line 6)"),
        (without(15..=36), "10 15:0", "END OF HEADER, maps and END OF FILE"),
        (
            damaged(|lines| lines.insert(2, record("NAME", "START OF AUX DATA"))),
            "10 38:0",
            "END OF AUX DATA for the block of line 3",
        ),
        (b" \n\n".to_vec(), "10 3:0", "a text, found blank lines only"),
        // 8: disagreements
        (
            set(11, &record("     3", "MAP DIMENSION")),
            "8 15:0",
            "MAP DIMENSION 2 where DHGT is 0.0, else 3; found 3 (line 11) and 0.0 (line 12)",
        ),
        (
            set(16, &record("     2", "START OF TEC MAP")),
            "8 16:1",
            "number 1: TEC maps carry 1 to 2 in order, found `2`",
        ),
        (
            set(30, &record("     3", "START OF TEC MAP")),
            "8 30:1",
            "no more TEC map: # OF MAPS IN FILE is 2 (line 6), found `3`",
        ),
        (
            set(30, &record("     3", "START OF RMS MAP")),
            "8 30:1",
            "the number of a TEC map that has ended, 1 to 2, rising, found `3`",
        ),
        (
            set(22, &record("     2", "END OF TEC MAP")),
            "8 22:1",
            "number 1, as TEC map 1 (line 16) has it, found `2`",
        ),
        (
            set(17, &epoch("  2000     1     1     1     0     0")),
            "8 17:1",
            "EPOCH OF FIRST MAP, 2000-01-01 00:00:00 (line 3), found 2000-01-01 01:00:00",
        ),
        (
            set(24, &epoch("  2000     1     1     3     0     0")),
            "8 24:1",
            "2000-01-01 02:00:00, INTERVAL 7200 s after map 1, found 2000-01-01 03:00:00",
        ),
        (
            set(4, &record("  2000     1     1     4     0     0", "EPOCH OF LAST MAP")),
            "8 24:1",
            "EPOCH OF LAST MAP, 2000-01-01 04:00:00 (line 4), found 2000-01-01 02:00:00",
        ),
        (
            damaged(|lines| lines.insert(30, epoch("  2000     1     1     0     0     0"))),
            "8 31:1",
            "the epoch of TEC map 2, 2000-01-01 02:00:00, found 2000-01-01 00:00:00",
        ),
        (
            set(18, &record("    10.0   0.0  30.0  10.0 400.0", "LAT/LON1/LON2/DLON/H")),
            "8 18:15",
            "LON2 20.0 as in LON1 / LON2 / DLON (line 14), found `30.0`",
        ),
        // 7: values that are not accepted
        (set(6, &record("   301", "# OF MAPS IN FILE")), "7 6:1", "the number of TEC maps: 1 to 300, found `301`"),
        (set(5, &record(" 21601", "INTERVAL")), "7 5:1", "the seconds between two maps: 0 to 21600, found `21601`"),
        (
            set(13, &record("    10.0   5.0 -10.0", "LAT1 / LAT2 / DLAT")),
            "7 13:0",
            "LAT1 and LAT2 both multiples of DLAT, and DLAT leading from LAT1 to LAT2",
        ),
        (
            set(13, &record("    40.0   0.0  -0.1", "LAT1 / LAT2 / DLAT")),
            "7 15:0",
            "at most 361 rows, found 401 by LAT1 / LAT2 / DLAT (line 13)",
        ),
        (
            damaged(|lines| {
                lines[5] = record("   300", "# OF MAPS IN FILE");
                lines[12] = record("    90.0 -90.0  -0.5", "LAT1 / LAT2 / DLAT");
                lines[13] = record("     0.0 360.0   0.5", "LON1 / LON2 / DLON");
            }),
            "7 15:0",
            "at most 2000000 values, found 78084300: 300 maps of 1 x 361 x 721",
        ),
        // 6: ill-formed fields
        (
            set(5, &record("  7200  x", "INTERVAL")),
            "6 5:9",
            "blanks in columns 7 to 60 of INTERVAL, found `x`",
        ),
        (
            set(8, &record("    20,0", "ELEVATION CUTOFF")),
            "6 8:1",
            "the smallest elevation: a number with a point and one digit more, which stands in column 8, found `20,0`",
        ),
        (
            set(5, &record("", "INTERVAL")),
            "6 5:1",
            "the seconds between two maps: a whole number whose last digit stands in column 6, found blanks",
        ),
        (
            set(19, "    1    2    3    4"),
            "6 19:20",
            "blanks: the 3 values of latitude 10.0 (line 18) end before column 20",
        ),
        (
            without(19..=19),
            "6 19:1",
            "3 more values of latitude 10.0 (line 18), which has 3, 16 to a line, found LAT/LON1/LON2/DLON/H",
        ),
        // 5: out of place, or once too often
        (
            damaged(|lines| lines.insert(5, record("  7200", "INTERVAL"))),
            "5 6:61",
            "INTERVAL once: it stands on line 5",
        ),
        (
            damaged(|lines| {
                lines.splice(2..2, vec![record("", "DESCRIPTION"); 20]);
                lines.insert(24, record("one more", "DESCRIPTION"));
            }),
            "5 25:61",
            "at most 20 DESCRIPTION lines: line 22 is the last",
        ),
        (without(15..=15), "5 15:61", "END OF HEADER before START OF TEC MAP"),
        (without(22..=22), "5 22:61", "END OF TEC MAP before it, for TEC map 1 (line 16)"),
        (
            set(22, &record("     1", "END OF RMS MAP")),
            "5 22:61",
            "END OF TEC MAP, for TEC map 1 (line 16)",
        ),
        (without(17..=17), "5 17:61", "EPOCH OF CURRENT MAP before the first block of TEC map 1 (line 16)"),
        (without(16..=16), "5 16:61", "START OF TEC MAP, or of another map, before EPOCH OF CURRENT MAP"),
        (
            damaged(|lines| lines.insert(15, record("  7200", "INTERVAL"))),
            "5 16:61",
            "no INTERVAL behind END OF HEADER (line 15)",
        ),
        (
            damaged(|lines| lines.push(record("late", "COMMENT"))),
            "5 37:61",
            "blank lines only behind END OF FILE (line 36)",
        ),
        // 4 and 3: labels
        (
            damaged(|lines| lines.insert(19, "    1    2    3".to_string())),
            "4 20:61",
            "a label from column 61 on: all 3 values of latitude 10.0 (line 18) have come",
        ),
        (without(1..=1), "3 1:61", "`IONEX VERSION / TYPE` from column 61 on, in the first record"),
        (version("1.2", "GNS"), "3 1:1", "the version: 1.0 or 1.1, found `1.2`"),
        (version("1.0", "GAL"), "3 1:41", "the code: one of BEN ENV ERS GEO GNS IRI MIX NNS TOP GPS GLO, found `GAL`"),
        (version("1.1", "GAL"), "3 1:41", "the code: one of BEN ENV ERS GEO GNS IRI MIX NNS TOP, found `GAL`"),
    ];
    for (text, place, words) in cases {
        let (found, expected, _) = told(&text);
        assert_eq!((found.as_str(), expected.as_str()), (place, words));
    }
}

/// The twenty-first, written out by hand.
#[test]
fn too_many_descriptions() {
    let file = "tests/examples/refused-05-description.inx";
    let ran = ionex(&["check", file]);
    let blanks = " ".repeat(60);
    let expected = format!(
        "{file}:39:61: refused 5: a record where it may not stand, or once too often\n\
         \u{20}  39 | {blanks}DESCRIPTION\n\
         \u{20}     | {blanks}^~~~~~~~~~~\n\
         \u{20}     = expected at most 20 DESCRIPTION lines: line 38 is the last\n\
         \u{20}     = hint: there may be any number of COMMENT lines, which are skipped: make COMMENT of those that are too \
         many\n"
    );
    assert_eq!((ran.status, ran.text()), (1, expected.as_str()));
    let ran = ionex(&["check", "tests/examples/accepted-descriptions.inx"]);
    assert!(ran.done().contains(": ok, 2 TEC and 1 RMS maps, 2 × 3, "));
}

/// Labels with a slip, in small letters, or in another column.
#[test]
fn labels_that_are_meant() {
    let cases = [
        (
            "interval",
            "a label is written as `INTERVAL`, from column 61 on",
        ),
        ("INTREVAL", "`INTERVAL` may be meant"),
        (
            " INTERVAL",
            "a label is written as `INTERVAL`, from column 61 on",
        ),
        (
            "  interval",
            "a label is written as `INTERVAL`, from column 61 on",
        ),
    ];
    for (label, hint) in cases {
        let text = damaged(|lines| lines[4] = record("  7200", label));
        let (place, _, said) = told(&text);
        assert_eq!((place.as_str(), said.as_str()), ("4 5:61", hint));
    }
    let text = damaged(|lines| lines[4] = format!("  7200{}INTERVAL", " ".repeat(50)));
    let (_, _, said) = told(&text);
    assert_eq!(
        said,
        "`INTERVAL` stands from column 57 on, and belongs into column 61"
    );
}

/// A label of twenty letters that is moved to the right makes its line too long.
#[test]
fn labels_that_are_moved_out_of_their_line() {
    for (line, label) in [(0, "IONEX VERSION / TYPE"), (16, "EPOCH OF CURRENT MAP")] {
        let text = damaged(|lines| lines[line] = lines[line].replace(label, &format!(" {label}")));
        let (place, expected, said) = told(&text);
        assert_eq!(place, format!("1 {}:81", line + 1));
        assert_eq!(expected, "at most 80 columns, found 81");
        let hint = format!("`{label}` stands from column 62 on, and belongs into column 61");
        assert_eq!(said, hint);
    }
}

/// Thirteen TEC maps, and RMS maps up to the fifth: what is missing is more than END OF FILE, and no repair is told.
#[test]
fn a_kind_that_breaks_off() {
    let whole = String::from_utf8(global::text(true)).expect("ASCII");
    let cut_behind = |end: &str| {
        let place = whole.find(end).expect("an END record") + end.len();
        told(&whole.as_bytes()[..=place])
    };
    let (place, expected, hint) = cut_behind(&record("     5", "END OF RMS MAP"));
    assert!(place.starts_with("10 "), "{place}");
    assert_eq!(expected, "END OF FILE: all 25 TEC maps have ended");
    assert_eq!(
        hint,
        "RMS maps end at 5 of 25: the file was probably cut off, so fetch it again"
    );
    // With no RMS map at all, or with the last of them, only END OF FILE may be missing.
    let only = "some centres leave END OF FILE out; if nothing else is missing, add it: `printf '%60sEND OF FILE\\n' '' >>FILE`";
    for end in ["    25", "    25"]
        .iter()
        .zip(["END OF TEC MAP", "END OF RMS MAP"])
    {
        let (place, _, hint) = cut_behind(&record(end.0, end.1));
        assert!(place.starts_with("10 "), "{place}");
        assert_eq!(hint, only);
    }
}

/// A mark lies under all that is wrong: the label of an END record, the fields of a rule over several, a whole epoch.
#[test]
fn marks() {
    let epoch = record(
        "  2000     1     1     1     0     0",
        "EPOCH OF CURRENT MAP",
    );
    let axis = record("    10.0   5.0 -10.0", "LAT1 / LAT2 / DLAT");
    let cases = [
        (damaged(|lines| lines[16] = epoch), 0, 36),
        (damaged(|lines| lines[12] = axis), 2, 18),
        (damaged(|lines| drop(lines.remove(9))), 60, 13),
        (
            damaged(|lines| lines[0] = lines[0].replace("GNS", "GPS")),
            40,
            3,
        ),
    ];
    for (text, blanks, width) in cases {
        let ran = ionex_given(&text, &["check", "-"]);
        let mark = format!("      | {}^{}", " ".repeat(blanks), "~".repeat(width - 1));
        assert_eq!(
            ran.text().lines().nth(2),
            Some(mark.as_str()),
            "{}",
            ran.text()
        );
    }
}
