//! A file as centres make them: 25 hourly maps of the whole Earth, 71 by 73, and their RMS maps.

use std::f64::consts::PI;

/// A record as it stands in a file.
pub fn record(body: &str, label: &str) -> String {
    format!("{body:<60}{label}").trim_end().to_string()
}

pub fn joined(lines: &[String]) -> Vec<u8> {
    (lines.join("\n") + "\n").into_bytes()
}

pub const MAPS: usize = 25;
pub const ROWS: usize = 71;
pub const COLUMNS: usize = 73;
pub const NONE: i32 = 9999;

/// Two crests beside the equator where it is afternoon, in tenths of a TECU; no value in a corner of the south.
pub fn tec(map: usize, row: usize, column: usize) -> i32 {
    let (latitude, longitude) = (87.5 - 2.5 * row as f64, -180.0 + 5.0 * column as f64);
    if latitude < -60.0 && (20..34).contains(&column) {
        return NONE;
    }
    let hour = longitude / 15.0 + map as f64;
    let day = ((hour - 14.0) / 24.0 * 2.0 * PI).cos().max(0.0).powf(1.5);
    let crest = |middle: f64| (-((latitude - middle) / 18.0).powi(2)).exp();
    let content =
        3.0 + 55.0 * day * (crest(15.0) + crest(-15.0)) + 8.0 * (-(latitude / 40.0).powi(2)).exp();
    (10.0 * content).round() as i32
}

pub fn rms(map: usize, row: usize, column: usize) -> i32 {
    match tec(map, row, column) {
        NONE => NONE,
        content => content / 8 + 5,
    }
}

/// The canonical text, with RMS maps or without.
pub fn text(with_rms: bool) -> Vec<u8> {
    let mut lines: Vec<String> = HEADER
        .iter()
        .map(|(body, label)| record(body, label))
        .collect();
    for map in 0..MAPS {
        let epoch = format!("  2010    12{:6}{:6}     0     0", 4 + map / 24, map % 24);
        put_map(&mut lines, "TEC", map, Some(epoch), tec);
    }
    for map in (0..MAPS).filter(|_| with_rms) {
        put_map(&mut lines, "RMS", map, None, rms);
    }
    lines.push(record("", "END OF FILE"));
    joined(&lines)
}

type Values = fn(usize, usize, usize) -> i32;

fn put_map(lines: &mut Vec<String>, kind: &str, map: usize, epoch: Option<String>, value: Values) {
    let number = format!("{:6}", map + 1);
    lines.push(record(&number, &format!("START OF {kind} MAP")));
    lines.extend(epoch.map(|epoch| record(&epoch, "EPOCH OF CURRENT MAP")));
    for row in 0..ROWS {
        let opening = format!("  {:6.1}-180.0 180.0   5.0 450.0", 87.5 - 2.5 * row as f64);
        lines.push(record(&opening, "LAT/LON1/LON2/DLON/H"));
        let fields: Vec<String> = (0..COLUMNS)
            .map(|column| format!("{:5}", value(map, row, column)))
            .collect();
        lines.extend(fields.chunks(16).map(|part| part.concat()));
    }
    lines.push(record(&number, &format!("END OF {kind} MAP")));
}

const HEADER: [(&str, &str); 16] = [
    (
        "     1.1            IONOSPHERE MAPS     GNS",
        "IONEX VERSION / TYPE",
    ),
    (
        "maker               centre              5-dec-10 12:00",
        "PGM / RUN BY / DATE",
    ),
    (
        "two crests that follow the Sun; the values are made up",
        "DESCRIPTION",
    ),
    ("  2010    12     4     0     0     0", "EPOCH OF FIRST MAP"),
    ("  2010    12     5     0     0     0", "EPOCH OF LAST MAP"),
    ("  3600", "INTERVAL"),
    ("    25", "# OF MAPS IN FILE"),
    ("  COSZ", "MAPPING FUNCTION"),
    ("    10.0", "ELEVATION CUTOFF"),
    ("carrier phase", "OBSERVABLES USED"),
    ("  6371.0", "BASE RADIUS"),
    ("     2", "MAP DIMENSION"),
    ("   450.0 450.0   0.0", "HGT1 / HGT2 / DHGT"),
    ("    87.5 -87.5  -2.5", "LAT1 / LAT2 / DLAT"),
    ("  -180.0 180.0   5.0", "LON1 / LON2 / DLON"),
    ("", "END OF HEADER"),
];
