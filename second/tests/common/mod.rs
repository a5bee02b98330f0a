//! A small text to change, and what the second program makes of it.
#![allow(dead_code)]

use second::{read, Axis, Buffers, Header, Reading, Texts};

/// A record: columns 1 to 60, then the label.
pub fn rec(body: &str, label: &str) -> String {
    format!("{body:<60}{label}")
}

/// A text of 36 lines: two TEC maps of 2 rows and 3 columns, and RMS map 2.
pub fn base() -> Vec<String> {
    let block_10 = rec("    10.0   0.0  20.0  10.0 400.0", "LAT/LON1/LON2/DLON/H");
    let block_0 = rec("     0.0   0.0  20.0  10.0 400.0", "LAT/LON1/LON2/DLON/H");
    vec![
        /* 1 */
        rec(
            "     1.1            IONOSPHERE MAPS     GNS",
            "IONEX VERSION / TYPE",
        ),
        /* 2 */
        rec(
            "program             agency              1-jan-00 00:00",
            "PGM / RUN BY / DATE",
        ),
        /* 3 */
        rec("  2000     1     1     0     0     0", "EPOCH OF FIRST MAP"),
        /* 4 */
        rec("  2000     1     1     2     0     0", "EPOCH OF LAST MAP"),
        /* 5 */
        rec("  7200", "INTERVAL"),
        /* 6 */
        rec("     2", "# OF MAPS IN FILE"),
        /* 7 */
        rec("  COSZ", "MAPPING FUNCTION"),
        /* 8 */
        rec("    20.0", "ELEVATION CUTOFF"),
        /* 9 */
        rec("carrier phase", "OBSERVABLES USED"),
        /* 10 */
        rec("  6371.0", "BASE RADIUS"),
        /* 11 */
        rec("     2", "MAP DIMENSION"),
        /* 12 */
        rec("   400.0 400.0   0.0", "HGT1 / HGT2 / DHGT"),
        /* 13 */
        rec("    10.0   0.0 -10.0", "LAT1 / LAT2 / DLAT"),
        /* 14 */
        rec("     0.0  20.0  10.0", "LON1 / LON2 / DLON"),
        /* 15 */
        rec("", "END OF HEADER"),
        /* 16 */
        rec("     1", "START OF TEC MAP"),
        /* 17 */
        rec(
            "  2000     1     1     0     0     0",
            "EPOCH OF CURRENT MAP",
        ),
        /* 18 */
        block_10.clone(),
        /* 19 */
        "    1    2    3".to_string(),
        /* 20 */
        block_0.clone(),
        /* 21 */
        "    4    5    6".to_string(),
        /* 22 */
        rec("     1", "END OF TEC MAP"),
        /* 23 */
        rec("     2", "START OF TEC MAP"),
        /* 24 */
        rec(
            "  2000     1     1     2     0     0",
            "EPOCH OF CURRENT MAP",
        ),
        /* 25 */
        block_10.clone(),
        /* 26 */
        "   11   12   13".to_string(),
        /* 27 */
        block_0.clone(),
        /* 28 */
        "   14   15   16".to_string(),
        /* 29 */
        rec("     2", "END OF TEC MAP"),
        /* 30 */
        rec("     2", "START OF RMS MAP"),
        /* 31 */
        block_10,
        /* 32 */
        "   21   22   23".to_string(),
        /* 33 */
        block_0,
        /* 34 */
        "   24   25 9999".to_string(),
        /* 35 */
        rec("     2", "END OF RMS MAP"),
        /* 36 */
        rec("", "END OF FILE"),
    ]
}

/// The base text with line `line` (from 1) replaced.
pub fn with(line: usize, new: &str) -> Vec<String> {
    let mut lines = base();
    lines[line - 1] = new.to_string();
    lines
}

/// The base text without a line.
pub fn without(line: usize) -> Vec<String> {
    let mut lines = base();
    lines.remove(line - 1);
    lines
}

/// The base text with a line put before line `line`.
pub fn before(line: usize, new: &str) -> Vec<String> {
    let mut lines = base();
    lines.insert(line - 1, new.to_string());
    lines
}

pub fn join(lines: &[String]) -> Vec<u8> {
    let mut text = lines.join("\n").into_bytes();
    text.push(b'\n');
    text
}

pub const UNTOUCHED: i32 = 77_777;

/// Areas filled with a pattern.
pub fn untouched(lengths: [usize; 6]) -> Buffers {
    Buffers {
        tec: vec![UNTOUCHED; lengths[0]],
        rms: vec![UNTOUCHED; lengths[1]],
        height: vec![UNTOUCHED; lengths[2]],
        exponents: vec![UNTOUCHED; lengths[3]],
        epochs: vec![77; lengths[4]],
        marks: vec![77; lengths[5]],
    }
}

/// `accepted`, or the refusal as the program prints it. A refusal must leave the
/// areas as they were.
pub fn outcome(text: &[u8]) -> String {
    let lengths = [5000; 6];
    let mut own = untouched(lengths);
    match read(text, &mut own.lent()) {
        Reading::Accepted { .. } => "accepted".to_string(),
        Reading::Refused(refusal) => {
            assert_eq!(own, untouched(lengths));
            refusal.to_string()
        }
    }
}

pub fn outcome_of(lines: &[String]) -> String {
    outcome(&join(lines))
}

pub type Set = (Header, Texts, Buffers);

/// Reads an accepted text into areas of the given lengths.
pub fn accepted(lines: &[String], lengths: [usize; 6]) -> Set {
    let mut own = untouched(lengths);
    match read(&join(lines), &mut own.lent()) {
        Reading::Accepted { header, texts } => (header, texts, own),
        Reading::Refused(refusal) => panic!("{refusal}"),
    }
}

/// The base text's first epoch, 2000-01-01 00:00:00.
pub const FIRST: u64 = 36_524 * 86_400;

/// The base set: rows 10.0 and 0.0, columns 0.0, 10.0 and 20.0, two maps 7200 s
/// apart, RMS map 2 only, no height maps.
pub fn set() -> Set {
    accepted(&base(), [12, 12, 0, 12, 2, 2])
}

/// The base set on a grid of other columns: the values of a row go up by 10 from 100 at its first column, and by so many
/// from map to map.
pub fn around(longitudes: Axis, by_map: i32) -> Set {
    let (mut header, texts, _) = set();
    header.longitudes = longitudes;
    let columns = header.longitudes.count() as usize;
    let mut own = untouched([4 * columns, 0, 0, 12, 2, 2]);
    for (at, value) in own.tec.iter_mut().enumerate() {
        *value = 100 + 10 * (at % columns) as i32 + by_map * (at / (2 * columns)) as i32;
    }
    own.exponents.fill(-3);
    own.epochs = vec![FIRST, FIRST + 7200];
    own.marks.fill(0);
    (header, texts, own)
}
