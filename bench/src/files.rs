//! Global files as the analysis centres make them: 25 maps of 71 rows and 73 columns; the same in other forms; and
//! large texts.

use compare::set::MapSet;
use second::{Axis, Buffers, Header, Texts};
use std::fmt::Write;

/// The maps and the grid of a file: rows southward and layers upward, from the first by the step.
struct Shape {
    maps: usize,
    rows: usize,
    columns: usize,
    layers: usize,
    latitude: [f64; 2],
    height: [f64; 2],
}

const GLOBAL: Shape = Shape {
    maps: 25,
    rows: 71,
    columns: 73,
    layers: 1,
    latitude: [87.5, -2.5],
    height: [450.0, 0.0],
};

/// As many values as a file may have, each a block of its own.
const ONE_COLUMN: Shape = Shape {
    maps: 250,
    rows: 200,
    columns: 1,
    layers: 40,
    latitude: [50.0, -0.5],
    height: [100.0, 10.0],
};

const VALUES: usize = GLOBAL.maps * GLOBAL.rows * GLOBAL.columns;

/// Elements of the six areas that a global file needs at most.
pub const NEEDS: [usize; 6] = [
    VALUES,
    VALUES,
    VALUES,
    3 * GLOBAL.maps * GLOBAL.rows,
    GLOBAL.maps,
    GLOBAL.maps,
];

/// The text of a file with TEC maps and, if asked for, RMS maps.
pub fn global(with_rms: bool) -> String {
    of_day(1, with_rms)
}

/// The file of a day of January 2024.
pub fn of_day(day: usize, with_rms: bool) -> String {
    let kinds: &[&str] = if with_rms { &["TEC", "RMS"] } else { &["TEC"] };
    file(&GLOBAL, day, kinds)
}

/// 300 maps, as many as a file may have.
pub fn many_maps() -> String {
    let shape = Shape {
        maps: 300,
        ..GLOBAL
    };
    file(&shape, 1, &["TEC"])
}

/// One map of two rows, each of a full line of values and a short one.
pub fn small() -> String {
    let shape = Shape {
        maps: 1,
        rows: 2,
        columns: 18,
        ..GLOBAL
    };
    file(&shape, 1, &["TEC"])
}

/// Five maps of five layers.
pub fn three_dimensional() -> String {
    let shape = Shape {
        maps: 5,
        layers: 5,
        height: [200.0, 50.0],
        ..GLOBAL
    };
    file(&shape, 1, &["TEC"])
}

pub fn one_column() -> String {
    file(&ONE_COLUMN, 1, &["TEC"])
}

fn file(shape: &Shape, day: usize, kinds: &[&str]) -> String {
    let mut text = header(shape, day);
    for kind in kinds {
        let value = if *kind == "TEC" { tec } else { rms };
        for map in 0..shape.maps {
            add_map(&mut text, shape, kind, day, map, value);
        }
    }
    record(&mut text, "", "END OF FILE");
    text
}

/// The file of TEC maps with CR LF.
pub fn with_cr() -> String {
    global(false).replace('\n', "\r\n")
}

/// The file of TEC maps in version 1.0, with 20 DESCRIPTION records.
pub fn version_1_0() -> String {
    let text = global(false).replacen("     1.1", "     1.0", 1);
    let mut more = String::new();
    for number in 2..=20 {
        let body = format!("Line {number} of what the centre says about its model");
        record(&mut more, &body, "DESCRIPTION");
    }
    in_header(&text, &more)
}

/// The file of TEC maps with an EXPONENT record before every block.
pub fn with_exponents() -> String {
    let mut text = String::new();
    for line in global(false).lines() {
        if line.ends_with(BLOCK) {
            record(&mut text, "    -1", "EXPONENT");
        }
        text += line;
        text.push('\n');
    }
    text
}

/// The file of TEC maps with so many COMMENT records in its header.
pub fn with_comments(count: usize) -> String {
    let mut line = String::new();
    record(&mut line, "What the centre says besides", "COMMENT");
    in_header(&global(false), &line.repeat(count))
}

/// The file of TEC maps with so many lines of this many blanks in its header.
pub fn with_blanks(blanks: usize, count: usize) -> String {
    let line = " ".repeat(blanks) + "\n";
    in_header(&global(false), &line.repeat(count))
}

/// The text with lines more at the end of its header.
pub fn in_header(text: &str, lines: &str) -> String {
    let end = end_of_header();
    text.replacen(&end, &format!("{lines}{end}"), 1)
}

pub fn end_of_header() -> String {
    format!("{:60}END OF HEADER\n", "")
}

/// The file of TEC maps with a block of code biases: 32 satellites and so many stations.
pub fn with_biases(stations: usize) -> String {
    let mut block = String::new();
    record(&mut block, TITLE, "START OF AUX DATA");
    for number in 1..=32 {
        let body = format!("   G{number:02}{:10.3}     0.011", bias(number));
        record(&mut block, &body, "PRN / BIAS / RMS");
    }
    block.extend((0..stations).map(station));
    record(&mut block, TITLE, "END OF AUX DATA");
    in_header(&global(false), &block)
}

/// The record of a station of its own name.
pub fn station(number: usize) -> String {
    let name = format!("S{number:06} {:05}M001", 10_001 + number % 89_999);
    let body = format!("   G  {name:<20}{:10.3}     0.040", bias(number));
    let mut line = String::new();
    record(&mut line, &body, "STATION / BIAS / RMS");
    line
}

pub const BLOCK: &str = "LAT/LON1/LON2/DLON/H";
pub const TITLE: &str = "DIFFERENTIAL CODE BIASES";

/// Nanoseconds, from -15 to 15.
fn bias(number: usize) -> f64 {
    f64::from(29 * noise(0, 0, number) - 15_000) / 1000.0
}

/// A set of so many maps, an hour from one to the next, round the Earth; its rows are few, so that 300 maps are near at hand too.
pub fn with_maps(maps: usize) -> MapSet {
    let axis = |first, last, step| Axis { first, last, step };
    let (rows, columns) = (15, 73);
    let header = Header {
        version: 11,
        file_type: b'I',
        code: 4,
        first_epoch: MONDAY,
        last_epoch: MONDAY + 3600 * (maps as u64 - 1),
        interval: 3600,
        maps: maps as i64,
        cutoff: 100,
        radius: 63_710,
        dimension: 2,
        heights: axis(4500, 4500, 0),
        latitudes: axis(875, -875, -125),
        longitudes: axis(-1800, 1800, 50),
        ..Header::default()
    };
    let nodes = (0..maps).flat_map(|map| {
        (0..rows).flat_map(move |row| (0..columns).map(move |column| tec(map % 25, row, column)))
    });
    MapSet {
        areas: Buffers {
            tec: nodes.collect(),
            rms: Vec::new(),
            height: Vec::new(),
            exponents: vec![-1; 3 * maps * rows],
            epochs: (0..maps as u64).map(|map| MONDAY + 3600 * map).collect(),
            marks: vec![0; maps],
        },
        texts: Texts::default(),
        header,
    }
}

/// 2024-01-01 00:00:00.
const MONDAY: u64 = 3_913_056_000;

pub fn record(text: &mut String, body: &str, label: &str) {
    writeln!(text, "{body:<60}{label}").expect("a string takes all");
}

/// The epoch of a map: one an hour from the day's midnight.
fn epoch(day: usize, map: usize) -> String {
    let (day, hour) = (day + map / 24, map % 24);
    format!("  2024     1{day:>6}{hour:>6}     0     0")
}

fn header(shape: &Shape, day: usize) -> String {
    let mut text = String::new();
    let ends = [0, shape.maps - 1].map(|map| epoch(day, map));
    let maps = format!("{:>6}", shape.maps);
    let dimension = if shape.layers > 1 { "     3" } else { "     2" };
    let axis = |[first, step]: [f64; 2], count: usize| {
        let last = first + step * (count - 1) as f64;
        format!("  {first:>6.1}{last:>6.1}{step:>6.1}")
    };
    let heights = axis(shape.height, shape.layers);
    let latitudes = axis(shape.latitude, shape.rows);
    let longitudes = axis([-180.0, 5.0], shape.columns);
    let records = [
        (
            "     1.1            IONOSPHERE MAPS     GNSS",
            "IONEX VERSION / TYPE",
        ),
        (
            "gimp v2.4           centre              01-jan-24 05:12",
            "PGM / RUN BY / DATE",
        ),
        ("Global ionosphere maps, every hour", "DESCRIPTION"),
        (&ends[0], "EPOCH OF FIRST MAP"),
        (&ends[1], "EPOCH OF LAST MAP"),
        ("  3600", "INTERVAL"),
        (&maps, "# OF MAPS IN FILE"),
        ("  COSZ", "MAPPING FUNCTION"),
        ("    10.0", "ELEVATION CUTOFF"),
        ("One-way carrier phase leveled to code", "OBSERVABLES USED"),
        ("   254", "# OF STATIONS"),
        ("    55", "# OF SATELLITES"),
        ("  6371.0", "BASE RADIUS"),
        (dimension, "MAP DIMENSION"),
        (&heights, "HGT1 / HGT2 / DHGT"),
        (&latitudes, "LAT1 / LAT2 / DLAT"),
        (&longitudes, "LON1 / LON2 / DLON"),
        ("    -1", "EXPONENT"),
        ("", "END OF HEADER"),
    ];
    for (body, label) in records {
        record(&mut text, body, label);
    }
    text
}

fn add_map(
    text: &mut String,
    shape: &Shape,
    kind: &str,
    day: usize,
    map: usize,
    value: fn(usize, usize, usize) -> i32,
) {
    let number = format!("{:>6}", map + 1);
    record(text, &number, &format!("START OF {kind} MAP"));
    record(text, &epoch(day, map), "EPOCH OF CURRENT MAP");
    let east = 5.0 * (shape.columns - 1) as f64 - 180.0;
    let at = |[first, step]: [f64; 2], k: usize| first + step * k as f64;
    for block in 0..shape.layers * shape.rows {
        let (layer, row) = (block / shape.rows, block % shape.rows);
        let (latitude, height) = (at(shape.latitude, row), at(shape.height, layer));
        let opening = format!("  {latitude:>6.1}-180.0{east:>6.1}   5.0{height:>6.1}");
        record(text, &opening, BLOCK);
        for from in (0..shape.columns).step_by(16) {
            for column in from..shape.columns.min(from + 16) {
                write!(text, "{:>5}", value(map, row, column)).expect("a string takes all");
            }
            text.push('\n');
        }
    }
    record(text, &number, &format!("END OF {kind} MAP"));
}

/// Tenths of a TECU: two crests beside the equator that follow the sun, with some noise; 3 to about 900.
fn tec(map: usize, row: usize, column: usize) -> i32 {
    let latitude = 87.5 - 2.5 * row as f64;
    let sun = 180.0 - 15.0 * map as f64;
    let longitude = -180.0 + 5.0 * (column % 72) as f64;
    let day = ((longitude - sun - 20.0).to_radians().cos() + 1.0) / 2.0;
    let crest = |at: f64| (-((latitude - at) / 18.0).powi(2)).exp();
    let value = 12.0 + 700.0 * day.powi(2) * (crest(14.0) + crest(-14.0)) + 90.0 * day;
    value as i32 + noise(map, row, column) % 40 - 9
}

/// Tenths of a TECU, 3 to 60; none near the poles at times.
fn rms(map: usize, row: usize, column: usize) -> i32 {
    let noise = noise(map, row, column);
    if row < 2 && noise % 7 == 0 {
        9999
    } else {
        3 + noise % 58
    }
}

/// From 0 to 1023, the same in every run.
fn noise(map: usize, row: usize, column: usize) -> i32 {
    let mut word = (map * 1_000_003 + row * 10_007 + column % 72) as u64;
    word = word.wrapping_mul(0x9e37_79b9_7f4a_7c15);
    word = (word ^ (word >> 29)).wrapping_mul(0xbf58_476d_1ce4_e5b9);
    (word >> 54) as i32
}
