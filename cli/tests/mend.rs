//! `ionex mend`: every repair by its words and its line, and what it does not do.

mod common;

use common::global::{self, joined, record};
use common::peer::Peer;
use common::{example, ionex, ionex_given, lines, Folder};
use std::fs;

const OK: &str = "ok, 2 TEC and 1 RMS maps, 2 × 3, 2000-01-01 00:00:00 to 2000-01-01 02:00:00";

/// What is told of a text, with FILE and OUT for the two names; and what is written, where something is.
fn mended(text: &[u8]) -> (i32, String, Option<Vec<u8>>) {
    let folder = Folder::new();
    let (file, out) = (folder.file("in.inx", text), folder.path("out.inx"));
    let ran = ionex(&["mend", &file, "-o", &out]);
    let all = format!("{}{}", ran.text(), ran.err);
    let told = all.replace(&file, "FILE").replace(&out, "OUT");
    (ran.status, told, fs::read(&out).ok())
}

/// The whole of what is told, and the text whose canonical form comes out.
fn becomes(text: &[u8], repairs: &[&str], meant: &[u8]) {
    let (status, told, written) = mended(text);
    let lines: String = repairs
        .iter()
        .map(|repair| format!("FILE:{repair}\n"))
        .collect();
    assert_eq!((status, told), (0, format!("{lines}OUT: {OK}\n")));
    let canonical = |text: &[u8]| Peer::read(text).expect("accepted").canonical();
    let written = written.expect("written");
    assert_eq!(canonical(&written), canonical(meant));
}

#[test]
fn end_of_file() {
    let good = example("accepted-canonical.inx");
    let without = &good[..good.len() - 72];
    becomes(without, &["36: mended: END OF FILE added"], &good);
    // Without the last line's end, too.
    becomes(
        &without[..without.len() - 1],
        &["36: mended: END OF FILE added"],
        &good,
    );
    // The same bytes, and one record more.
    let (_, _, written) = mended(without);
    assert_eq!(written.expect("written"), good);
}

/// RMS maps that break off are no missing END OF FILE: nothing is written.
#[test]
fn a_cut_file_stays_refused() {
    let whole = String::from_utf8(global::text(true)).expect("ASCII");
    let end = record("     5", "END OF RMS MAP");
    let place = whole.find(&end).expect("an END record") + end.len();
    let (status, told, written) = mended(&whole.as_bytes()[..=place]);
    assert_eq!((status, written), (1, None));
    let line = whole[..=place].lines().count() + 1;
    assert!(
        told.starts_with(&format!("FILE:{line}:0: refused 10: ")),
        "{told}"
    );
    assert!(told.contains("= hint: RMS maps end at 5 of 25: "), "{told}");
    assert!(
        told.ends_with("OUT: not written: refused after 0 repairs\n"),
        "{told}"
    );
}

#[test]
fn byte_26() {
    let good = example("accepted-canonical.inx");
    for (tail, line) in [(&b"\x1a"[..], 37), (b"\x1a\x1a\n", 37), (b" \r\n\x1a", 38)] {
        let text = [&good[..], tail].concat();
        let repair = format!("{line}: mended: byte 26 removed at the end");
        becomes(&text, &[&repair], &good);
    }
    // It stands in the place of END OF FILE.
    let text = [&good[..good.len() - 72], b"\x1a"].concat();
    let repairs = [
        "36: mended: byte 26 removed at the end",
        "36: mended: END OF FILE added",
    ];
    becomes(&text, &repairs, &good);
}

#[test]
fn hour_24() {
    let midnight = |hour: &str| {
        let mut lines = lines();
        let first = record("  1999    12    31    22     0     0", "EPOCH OF FIRST MAP");
        let last = |label: &str| record(hour, label);
        lines[2] = first.clone();
        lines[16] = first.replace("FIRST MAP", "CURRENT MAP");
        lines[3] = last("EPOCH OF LAST MAP");
        lines[23] = last("EPOCH OF CURRENT MAP");
        joined(&lines)
    };
    let (status, told, written) = mended(&midnight("  1999    12    31    24     0     0"));
    assert_eq!(
        (status, told.as_str()),
        (
            0,
            "FILE:4: mended: hour 24 made hour 0 of 2000-01-01\n\
             FILE:24: mended: hour 24 made hour 0 of 2000-01-01\n\
             OUT: ok, 2 TEC and 1 RMS maps, 2 × 3, 1999-12-31 22:00:00 to 2000-01-01 00:00:00\n"
        )
    );
    assert_eq!(
        written.expect("written"),
        midnight("  2000     1     1     0     0     0")
    );
    // 24:00:01 is no time, and 31 November no day.
    for hour in [
        "  1999    12    31    24     0     1",
        "  1999    11    31    24     0     0",
    ] {
        let (status, told, written) = mended(&midnight(hour));
        assert_eq!((status, written), (1, None), "{told}");
        assert!(
            told.ends_with("OUT: not written: refused after 0 repairs\n"),
            "{told}"
        );
    }
}

#[test]
fn descriptions() {
    let text = String::from_utf8(example("refused-05-description.inx")).expect("ASCII");
    let (status, told, written) = mended(text.as_bytes());
    assert_eq!(status, 0, "{told}");
    let repair = "FILE:39: mended: DESCRIPTION made COMMENT: it is number 21 of at most 20\n";
    assert_eq!(told, format!("{repair}OUT: {OK}\n"));
    let mut lines: Vec<String> = text.lines().map(str::to_string).collect();
    assert_eq!(lines[38].trim_end(), record("", "DESCRIPTION"));
    lines[38] = record("", "COMMENT");
    let written = String::from_utf8(written.expect("written")).expect("ASCII");
    let written: Vec<&str> = written.lines().map(str::trim_end).collect();
    assert_eq!(
        written,
        lines.iter().map(|line| line.trim_end()).collect::<Vec<_>>()
    );
}

/// RMS map 2 stands before both TEC maps: lines 30 to 35 before line 16.
#[test]
fn rms_maps_first() {
    let good = lines();
    let mut turned = good.clone();
    let rms: Vec<String> = turned.drain(29..35).collect();
    turned.splice(15..15, rms);
    becomes(
        &joined(&turned),
        &["16: mended: RMS maps put behind the TEC maps"],
        &joined(&good),
    );
    // An exponent that was in force stays so for each map: both say it themselves,
    let mut own = turned.clone();
    own.insert(21, record("    -2", "EXPONENT"));
    own.insert(15, record("     0", "EXPONENT"));
    let mut meant = good.clone();
    meant.insert(29, record("     0", "EXPONENT"));
    meant.insert(15, record("    -2", "EXPONENT"));
    let first = "17: mended: RMS maps put behind the TEC maps";
    becomes(&joined(&own), &[first], &joined(&meant));
    // or only the RMS map does, and what it said goes for the TEC maps too.
    let mut shared = turned.clone();
    shared.insert(15, record("     0", "EXPONENT"));
    let mut meant = good.clone();
    meant.insert(15, record("     0", "EXPONENT"));
    let second = "23: mended: EXPONENT 0 written before TEC map 1";
    becomes(&joined(&shared), &[first, second], &joined(&meant));
}

#[test]
fn line_ends() {
    let good = example("accepted-canonical.inx");
    let with = |end: &str| {
        let text = String::from_utf8(good.clone()).expect("ASCII");
        text.replace('\n', end).into_bytes()
    };
    becomes(
        &with("\r"),
        &["1: mended: CR made LF at the end of 36 lines"],
        &good,
    );
    // CR LF stays what it is.
    let text = with("\r\n");
    let (_, told, written) = mended(&text[..text.len() - 73]);
    assert_eq!(
        told,
        format!("FILE:36: mended: END OF FILE added\nOUT: {OK}\n")
    );
    assert_eq!(written.expect("written"), text);
}

/// What is accepted is written as it is, remarks too; what cannot be mended is told with what was tried.
#[test]
fn nothing_else_is_changed() {
    let text = example("accepted-2d-freedoms.inx");
    let (status, told, written) = mended(&text);
    assert_eq!((status, written), (0, Some(text)), "{told}");
    assert!(
        told.starts_with("FILE: accepted as it is\nOUT: ok, "),
        "{told}"
    );
    let text = [example("refused-07.inx"), b"\x1a".to_vec()].concat();
    let (status, told, written) = mended(&text);
    assert_eq!((status, written), (1, None));
    let (first, rest) = told.split_once('\n').expect("lines");
    assert!(
        first.ends_with(": mended: byte 26 removed at the end"),
        "{told}"
    );
    assert!(rest.starts_with("FILE:3:13: refused 7: "), "{told}");
    assert!(
        rest.ends_with("\nOUT: not written: refused after 1 repair\n"),
        "{told}"
    );
}

/// Through a pipe: the text alone on standard output, the repairs on standard error.
#[test]
fn standard_streams() {
    let good = example("accepted-canonical.inx");
    let ran = ionex_given(&good[..good.len() - 72], &["mend", "-", "-o", "-"]);
    assert_eq!((ran.status, ran.out), (0, good));
    assert_eq!(
        ran.err,
        format!("standard input:36: mended: END OF FILE added\nstandard output: {OK}\n")
    );
}
