//! Random valid map sets, and texts that have them as their meaning with every
//! freedom 01 allows. Columns are laid out here by hand, not by the tables of
//! the second program.

use crate::rng::Rng;
use crate::set::MapSet;
use second::calendar;
use second::{Axis, Buffers, Count, Header, System, Texts};

// ---- map sets ----

/// A valid map set whose areas have exactly the lengths needed.
pub fn map_set(rng: &mut Rng) -> MapSet {
    let (columns, sizes) = columns_and_sizes(rng);
    with_columns(rng, columns, sizes)
}

/// A valid map set of so many maps of one node each.
pub fn one_node(rng: &mut Rng, maps: i64) -> MapSet {
    let column = longitudes(rng, 1);
    with_columns(rng, column, [maps, 1, 1, 1])
}

/// A valid map set with values behind the 65,536th, or with maps behind the 256th.
pub fn large(rng: &mut Rng) -> MapSet {
    let sizes = rng.pick(&[
        [1, 1, 100, 700],
        [2, 1, 91, 721],
        [1, 3, 40, 600],
        [1, 64, 40, 30],
        [5, 1, 73, 181],
        [257, 1, 1, 1],
        [280, 1, 2, 3],
        [300, 2, 1, 2],
    ]);
    let columns = longitudes(rng, sizes[3]);
    with_columns(rng, columns, sizes)
}

fn with_columns(rng: &mut Rng, columns: Axis, sizes: [i64; 4]) -> MapSet {
    let mut header = header(rng, columns, sizes);
    let longest = longest_gap(rng, &header);
    header.interval = interval(rng, longest);
    let gaps = gaps(rng, &header, longest);
    let last_start = calendar::END - 1 - gaps.iter().sum::<u64>();
    let start = match rng.below(6) {
        0 => 0,
        1 => last_start,
        2 => 3_155_760_000,
        3 => rng.range(0, (last_start / 86_400) as i64) as u64 * 86_400,
        _ => rng.range(0, last_start as i64) as u64,
    };
    with_epochs(rng, header, start, &gaps)
}

/// A valid map set of so many maps on another's grid that begins where that ends; of one map where the calendar does.
pub fn later(rng: &mut Rng, set: &MapSet, maps: i64) -> MapSet {
    let (version, code) = version_and_code(rng);
    let mut header = Header {
        version,
        code,
        maps,
        cutoff: edged(rng, 0, 900),
        stations: Count::default(),
        satellites: Count::default(),
        systems: [System::default(); 7],
        ..set.header
    };
    starred(rng, &mut header);
    header.descriptions = descriptions(rng);
    let longest = longest_gap(rng, &header);
    header.interval = match rng.below(4) {
        0 | 1 => set.header.interval,
        _ => interval(rng, longest),
    };
    let start = set.header.last_epoch;
    let mut gaps = gaps(rng, &header, longest);
    if start + gaps.iter().sum::<u64>() >= calendar::END {
        header.maps = 1;
        gaps.clear();
    }
    with_epochs(rng, header, start, &gaps)
}

/// How many maps, layers, rows and columns: small mostly, a limit at times.
fn sizes(rng: &mut Rng) -> [i64; 4] {
    if rng.once_in(400) {
        return match rng.below(5) {
            0 => [1, 1, 1, 721],
            1 => [1, 1, 361, 1],
            2 => [1, 64, 1, 2],
            3 => [300, 1, 1, 1],
            _ => [2, 2, 3, 720],
        };
    }
    if rng.once_in(12) {
        return [rng.range(8, 26), 1, rng.range(1, 2), rng.range(1, 3)];
    }
    let maps = rng.pick(&[1, 1, 2, 2, 2, 3, 3, 4, 7]);
    let layers = rng.pick(&[1, 1, 1, 1, 2, 2, 3, 4]);
    let rows = rng.pick(&[1, 1, 2, 2, 3, 4]);
    let columns = rng.pick(&[
        1, 2, 3, 3, 4, 5, 7, 15, 16, 17, 18, 24, 25, 30, 31, 32, 33, 36, 48, 49,
    ]);
    if maps * layers * rows * columns > 160 {
        [maps.min(2), layers.min(2), rows.min(2), columns.min(33)]
    } else {
        [maps, layers, rows, columns]
    }
}

/// Columns that go round the Earth, with a strip from the last to the first or with LON1 a second time at LON1 + 360.0,
/// in tenths; these may turn with the Sun.
const ROUND: [Axis; 6] = [
    columns(0, 3575, 25),
    columns(0, 3550, 50),
    columns(-1800, 1750, 50),
    columns(0, 3550, 50),
    columns(0, 3600, 50),
    columns(-1800, 1800, 50),
];

/// Those with steps of more than 5.0.
const COARSE: [Axis; 6] = [
    columns(0, 3540, 60),
    columns(0, 3600, 60),
    columns(0, 3450, 150),
    columns(-1800, 1650, 150),
    columns(0, 3600, 150),
    columns(-1800, 1800, 150),
];

/// Columns that nearly go round.
const NEARLY: [Axis; 6] = [
    columns(0, 3550, 25),
    columns(0, 3500, 50),
    columns(50, 3550, 50),
    columns(0, 3575, 55),
    columns(0, 3300, 150),
    columns(-1650, 1650, 150),
];

const fn columns(first: i64, last: i64, step: i64) -> Axis {
    Axis { first, last, step }
}

/// The columns and all sizes.
fn columns_and_sizes(rng: &mut Rng) -> (Axis, [i64; 4]) {
    if rng.once_in(4) {
        let axis = match rng.below(5) {
            0 => rng.pick(&COARSE),
            1 => rng.pick(&NEARLY),
            _ => rng.pick(&ROUND),
        };
        let some = [
            [1, 1, 2],
            [2, 1, 1],
            [2, 1, 2],
            [3, 1, 1],
            [2, 2, 1],
            [4, 1, 1],
        ];
        let [maps, layers, rows] = rng.pick(&some);
        return (axis, [maps, layers, rows, axis.count()]);
    }
    let sizes = sizes(rng);
    (longitudes(rng, sizes[3]), sizes)
}

fn header(rng: &mut Rng, longitudes: Axis, sizes: [i64; 4]) -> Header {
    let [maps, layers, rows, _] = sizes;
    let (version, code) = version_and_code(rng);
    let mut header = Header {
        version,
        file_type: b'I',
        code,
        maps,
        cutoff: edged(rng, 0, 900),
        radius: edged(rng, 10_000, 999_999),
        ..Header::default()
    };
    if layers == 1 {
        header.dimension = 2;
        let height = edged(rng, 0, 99_999);
        header.heights = Axis {
            first: height,
            last: height,
            step: 0,
        };
    } else {
        header.dimension = 3;
        header.heights = heights(rng, layers);
    }
    header.latitudes = latitudes(rng, rows);
    header.longitudes = longitudes;
    starred(rng, &mut header);
    header.descriptions = descriptions(rng);
    header
}

/// How many DESCRIPTION lines: none, one, or up to 20.
fn descriptions(rng: &mut Rng) -> i64 {
    match rng.below(8) {
        0..=2 => 0,
        3 | 4 => 1,
        5 => rng.range(19, 20),
        _ => rng.range(2, 20),
    }
}

/// A version in tenths and one of its codes.
fn version_and_code(rng: &mut Rng) -> (i64, i64) {
    let (version, codes) = rng.pick(&[(11, 9), (11, 9), (10, 11)]);
    (version, rng.range(0, codes - 1))
}

/// Records that may stand or not.
fn starred(rng: &mut Rng, header: &mut Header) {
    if rng.once_in(2) {
        header.stations = a_count(rng);
    }
    if rng.once_in(2) {
        header.satellites = a_count(rng);
    }
    let rate = rng.pick(&[1, 2, 4, 1000]);
    for system in &mut header.systems {
        if rng.once_in(rate) {
            *system = System {
                stands: true,
                stations: edged(rng, 0, 999_999),
                satellites: edged(rng, 0, 999_999),
            };
        }
    }
}

/// From `low` to `high`, the ends often.
pub fn edged(rng: &mut Rng, low: i64, high: i64) -> i64 {
    match rng.below(8) {
        0 => low,
        1 => high,
        2 => (low + 1).min(high),
        _ => rng.range(low, high),
    }
}

fn a_count(rng: &mut Rng) -> Count {
    Count {
        stands: true,
        count: edged(rng, 0, 999_999),
    }
}

fn heights(rng: &mut Rng, layers: i64) -> Axis {
    let step = match rng.below(4) {
        0 => 1,
        1 => 99_999 / (layers - 1),
        2 => 500,
        _ => rng.range(1, 99_999 / (layers - 1)),
    };
    let span = step * (layers - 1);
    let first = edged(rng, 0, 99_999 - span);
    Axis {
        first,
        last: first + span,
        step,
    }
}

/// A step in tenths that leaves room for `count` lines within `room`.
fn step(rng: &mut Rng, count: i64, room: i64) -> i64 {
    let most = if count == 1 {
        150
    } else {
        (room / (count - 1)).min(150)
    };
    let wish = match rng.below(3) {
        0 => rng.pick(&[1, 5, 10, 25, 50, 100, 150]),
        1 => most,
        _ => rng.range(1, most),
    };
    wish.min(most)
}

/// Lines that are multiples of `step` between `low` and `high`.
fn multiples(rng: &mut Rng, count: i64, step: i64, low: i64, high: i64) -> Option<(i64, i64)> {
    let from = -((-low) / step);
    let to = high / step - (count - 1);
    if from > to {
        return None;
    }
    let at = edged(rng, from, to);
    Some((at * step, (at + count - 1) * step))
}

fn latitudes(rng: &mut Rng, rows: i64) -> Axis {
    let mut step = step(rng, rows, 1800);
    let (south, north) = loop {
        if let Some(ends) = multiples(rng, rows, step, -900, 900) {
            break ends;
        }
        step -= 1;
    };
    if rng.once_in(3) {
        Axis {
            first: south,
            last: north,
            step,
        }
    } else {
        Axis {
            first: north,
            last: south,
            step: -step,
        }
    }
}

fn longitudes(rng: &mut Rng, columns: i64) -> Axis {
    let mut step = match rng.below(4) {
        0 => whole_turn(columns - 1),
        1 => whole_turn(columns),
        _ => None,
    }
    .unwrap_or_else(|| step(rng, columns, 3600));
    let (first, last) = loop {
        if let Some(ends) = multiples(rng, columns, step, -1800, 3600) {
            break ends;
        }
        step -= 1;
    };
    Axis { first, last, step }
}

/// The step of which so many are a whole turn, where there is one.
fn whole_turn(steps: i64) -> Option<i64> {
    (steps >= 24 && 3600 % steps == 0).then(|| 3600 / steps)
}

fn texts(rng: &mut Rng, header: &Header) -> Texts {
    let mut texts = Texts::default();
    fill(rng, &mut texts.program);
    fill(rng, &mut texts.agency);
    fill(rng, &mut texts.date);
    fill(rng, &mut texts.mapping);
    fill(rng, &mut texts.observables);
    for line in &mut texts.descriptions[..header.descriptions as usize] {
        fill(rng, line);
        if rng.once_in(2) {
            let end = rng.below(line.len());
            line[end..].fill(b' ');
        }
    }
    texts
}

/// Blanks, words or any printable bytes.
fn fill(rng: &mut Rng, text: &mut [u8]) {
    match rng.below(4) {
        0 => text.fill(b' '),
        1 => {
            for byte in text.iter_mut() {
                *byte = rng.printable();
            }
        }
        2 => {
            let words = b"ionpgm v1.0 double-difference carrier phase 29-jan-96 17:29";
            for (byte, word) in text.iter_mut().zip(words) {
                *byte = *word;
            }
        }
        _ => {
            for byte in text.iter_mut() {
                *byte = rng.pick(b"    ~!09-.aZ");
            }
        }
    }
}

fn areas(rng: &mut Rng, header: &Header) -> Buffers {
    let grid = second::maps::Grid::of(header);
    let mut areas = Buffers {
        marks: marks(rng, grid.maps),
        ..Buffers::default()
    };
    let style = rng.below(4);
    let common = rng.range(-3, 0) as i32;
    let full = rng.once_in(2);
    for kind in 0..3u8 {
        let some = kind == 0 || areas.marks.iter().any(|m| m & kind != 0);
        for map in 0..grid.maps {
            let present = kind == 0 || areas.marks[map] & kind != 0;
            for _ in 0..grid.blocks() {
                areas.exponents.push(match (present, style) {
                    (false, _) | (true, 0) => -1,
                    (true, 1) => common,
                    (true, 2) if !rng.once_in(3) => areas.exponents.last().copied().unwrap_or(-1),
                    _ => rng.range(-3, 0) as i32,
                });
            }
            if some {
                let values = match kind {
                    0 => &mut areas.tec,
                    1 => &mut areas.rms,
                    _ => &mut areas.height,
                };
                for _ in 0..grid.values() {
                    values.push(if present { value(rng, full) } else { 9999 });
                }
            }
        }
    }
    areas
}

fn marks(rng: &mut Rng, maps: usize) -> Vec<u8> {
    let style = rng.below(9);
    (0..maps)
        .map(|map| match style {
            0 => 0,
            1 => 1,
            2 => 2,
            3 => 3,
            4 => rng.below(2) as u8,
            // Only in the last map, or in the first.
            5 if map + 1 < maps => 0,
            6 if map > 0 => 0,
            5 | 6 => rng.range(1, 3) as u8,
            _ => rng.below(4) as u8,
        })
        .collect()
}

/// A value; in a full set it is no 9999.
fn value(rng: &mut Rng, full: bool) -> i32 {
    match rng.below(12) {
        0 => rng.pick(&[-9999, -9998, 99_999, 99_998, 9998, 10_000, 0, 1, -1]),
        1 if !full => 9999,
        1 => 9998,
        2 => rng.range(-9999, 99_999) as i32,
        3 => rng.range(-20, 20) as i32,
        _ => rng.range(0, 1500) as i32,
    }
}

/// Columns that go round get gaps at which maps turn with the Sun, or just not.
fn longest_gap(rng: &mut Rng, header: &Header) -> i64 {
    match header.longitudes.goes_round() {
        true => rng.pick(&[7200, 7200, 7200, 7201, 21_600]),
        false => 21_600,
    }
}

fn interval(rng: &mut Rng, longest: i64) -> i64 {
    match rng.below(4) {
        0 | 1 => 0,
        2 => rng.pick(&[1, 900, 3600, 7200, longest]),
        _ => rng.range(1, longest),
    }
}

/// From each map to the next, by INTERVAL or free.
fn gaps(rng: &mut Rng, header: &Header, longest: i64) -> Vec<u64> {
    (1..header.maps)
        .map(|_| match header.interval {
            0 => edged(rng, 1, longest) as u64,
            gap => gap as u64,
        })
        .collect()
}

/// The map set of a header, with epochs from `start` on.
fn with_epochs(rng: &mut Rng, mut header: Header, start: u64, gaps: &[u64]) -> MapSet {
    let texts = texts(rng, &header);
    let mut areas = areas(rng, &header);
    let mut epoch = start;
    areas.epochs.push(epoch);
    for gap in gaps {
        epoch += gap;
        areas.epochs.push(epoch);
    }
    header.first_epoch = start;
    header.last_epoch = epoch;
    MapSet {
        header,
        texts,
        areas,
    }
}

// ---- texts ----

/// How a text uses its freedoms.
struct Pen<'a> {
    rng: &'a mut Rng,
    text: Vec<u8>,
    /// Once in how many lines a blank line comes before; 0 never.
    blanks: usize,
    /// Once in how many numbers leading zeros or `-0` stand; 0 never.
    zeros: usize,
    /// Once in how many places a COMMENT or EXPONENT stands; 0 never.
    extras: usize,
    /// 0 LF, 1 CR LF, 2 both.
    ends: usize,
    /// 0 lines stop early, 1 lines have 80 bytes, 2 anything between.
    tails: usize,
    /// The exponent in force.
    exponent: i32,
}

/// A text that has the map set as its meaning.
pub fn text(rng: &mut Rng, set: &MapSet) -> Vec<u8> {
    let blanks = rng.pick(&[0, 0, 3, 10]);
    let zeros = rng.pick(&[0, 1, 3, 8]);
    let extras = rng.pick(&[0, 2, 6]);
    let ends = rng.pick(&[0, 0, 0, 1, 1, 2]);
    let tails = rng.below(3);
    let mut pen = Pen {
        rng,
        text: Vec::new(),
        blanks,
        zeros,
        extras,
        ends,
        tails,
        exponent: -1,
    };
    pen.header(set);
    pen.maps(set);
    pen.finish();
    pen.text
}

impl Pen<'_> {
    fn chance(&mut self, rate: usize) -> bool {
        rate != 0 && self.rng.once_in(rate)
    }

    // -- lines --

    fn end(&mut self) {
        let cr = match self.ends {
            0 => false,
            1 => true,
            _ => self.rng.once_in(2),
        };
        if cr {
            self.text.push(b'\r');
        }
        self.text.push(b'\n');
    }

    fn blank_line(&mut self) {
        let width = self.rng.pick(&[0, 0, 1, 5, 60, 61, 79, 80]);
        self.text.resize(self.text.len() + width, b' ');
        self.end();
    }

    /// One line with its end, after blank lines at times.
    fn line(&mut self, mut bytes: Vec<u8>) {
        while self.chance(self.blanks) {
            self.blank_line();
        }
        while bytes.last() == Some(&b' ') {
            bytes.pop();
        }
        let room = 80 - bytes.len();
        let tail = match self.tails {
            0 => 0,
            1 => room,
            _ => self.rng.below(room + 1),
        };
        bytes.resize(bytes.len() + tail, b' ');
        self.text.extend(bytes);
        self.end();
    }

    fn record(&mut self, body: &str, label: &str) {
        self.line(record(body.as_bytes(), label));
    }

    // -- numbers --

    fn number(&mut self, value: i64, width: usize, decimal: bool) -> String {
        let size = value.unsigned_abs();
        let mut digits = if decimal && size < 10 && self.rng.once_in(2) {
            format!(".{size}")
        } else if decimal {
            format!("{}.{}", size / 10, size % 10)
        } else {
            size.to_string()
        };
        let mut minus = value < 0;
        if self.chance(self.zeros) {
            let taken = digits.len() + usize::from(minus);
            let zeros = self.rng.below(width - taken + 1);
            digits = "0".repeat(zeros) + &digits;
            if size == 0 && digits.len() < width && self.rng.once_in(2) {
                minus = true;
            }
        }
        let text = if minus { format!("-{digits}") } else { digits };
        format!("{text:>width$}")
    }

    fn int(&mut self, value: i64, width: usize) -> String {
        self.number(value, width, false)
    }

    fn dec(&mut self, value: i64, width: usize) -> String {
        self.number(value, width, true)
    }

    fn epoch(&mut self, epoch: u64) -> String {
        let date = calendar::date(epoch).expect("an epoch");
        date.iter().map(|&part| self.int(part, 6)).collect()
    }

    fn axis(&mut self, axis: &Axis) -> String {
        format!(
            "  {}{}{}",
            self.dec(axis.first, 6),
            self.dec(axis.last, 6),
            self.dec(axis.step, 6)
        )
    }

    // -- header --

    fn header(&mut self, set: &MapSet) {
        let header = &set.header;
        self.version(header);
        let mut items = self.needed_records(set);
        self.starred_records(header, &mut items);
        self.free_records(&mut items);
        if !self.rng.once_in(4) {
            self.rng.shuffle(&mut items);
        }
        self.descriptions(set, &mut items);
        let far = self.rng.once_in(150);
        for (k, item) in items.into_iter().enumerate() {
            if far && k == 1 {
                self.many_lines();
            }
            if let Item::Exponent(exponent) = &item {
                self.exponent = *exponent;
            }
            for line in self.lines_of(item) {
                self.line(line);
            }
        }
        self.record("", "END OF HEADER");
    }

    /// So many blank lines that those behind them are around line 65,536.
    fn many_lines(&mut self) {
        for _ in 0..self.rng.range(65_500, 65_540) {
            self.end();
        }
    }

    fn version(&mut self, header: &Header) {
        let code = second::header::CODES[header.code as usize];
        let version = self.dec(header.version, 8);
        let mut body = vec![b' '; 60];
        body[..8].copy_from_slice(version.as_bytes());
        match self.rng.below(3) {
            0 => body[20..35].copy_from_slice(b"IONOSPHERE MAPS"),
            1 => {}
            _ => {
                for byte in &mut body[20..60] {
                    *byte = self.rng.printable();
                }
            }
        }
        body[20] = b'I';
        body[40..43].copy_from_slice(code);
        self.line(record(&body, "IONEX VERSION / TYPE"));
    }

    fn needed_records(&mut self, set: &MapSet) -> Vec<Item> {
        let header = &set.header;
        let texts = &set.texts;
        let one = |body: String, label: &str| Item::Line(record(body.as_bytes(), label));
        let program = [texts.program, texts.agency, texts.date].concat();
        let mapping = [b"  ".as_slice(), &texts.mapping].concat();
        vec![
            Item::Line(record(&program, "PGM / RUN BY / DATE")),
            one(self.epoch(header.first_epoch), "EPOCH OF FIRST MAP"),
            one(self.epoch(header.last_epoch), "EPOCH OF LAST MAP"),
            one(self.int(header.interval, 6), "INTERVAL"),
            one(self.int(header.maps, 6), "# OF MAPS IN FILE"),
            Item::Line(record(&mapping, "MAPPING FUNCTION")),
            one(self.dec(header.cutoff, 8), "ELEVATION CUTOFF"),
            Item::Line(record(&texts.observables, "OBSERVABLES USED")),
            one(self.dec(header.radius, 8), "BASE RADIUS"),
            one(self.int(header.dimension, 6), "MAP DIMENSION"),
            one(self.axis(&header.heights), "HGT1 / HGT2 / DHGT"),
            one(self.axis(&header.latitudes), "LAT1 / LAT2 / DLAT"),
            one(self.axis(&header.longitudes), "LON1 / LON2 / DLON"),
        ]
    }

    fn starred_records(&mut self, header: &Header, items: &mut Vec<Item>) {
        let mut add =
            |body: String, label: &str| items.push(Item::Line(record(body.as_bytes(), label)));
        if header.stations.stands {
            add(self.int(header.stations.count, 6), "# OF STATIONS");
        }
        if header.satellites.stands {
            add(self.int(header.satellites.count, 6), "# OF SATELLITES");
        }
        for (letter, system) in "GRECJIS".chars().zip(&header.systems) {
            if system.stands {
                let stations = self.int(system.stations, 6);
                let satellites = self.int(system.satellites, 6);
                add(
                    format!("     {letter}{stations}{satellites}"),
                    "SYS / #STA / #SAT",
                );
            }
        }
    }

    /// Anywhere among the records, in their order.
    fn descriptions(&mut self, set: &MapSet, items: &mut Vec<Item>) {
        let mut places: Vec<usize> = (0..set.header.descriptions)
            .map(|_| self.rng.below(items.len() + 1))
            .collect();
        places.sort_unstable();
        let lines = set.texts.descriptions.iter().zip(places);
        for (k, (body, place)) in lines.enumerate() {
            items.insert(place + k, Item::Line(record(body, "DESCRIPTION")));
        }
    }

    fn free_records(&mut self, items: &mut Vec<Item>) {
        if self.extras == 0 {
            return;
        }
        for _ in 0..self.rng.below(3) {
            items.push(Item::Text("COMMENT"));
        }
        for _ in 0..self.rng.below(3) {
            items.push(Item::Exponent(self.rng.range(-3, 0) as i32));
        }
        for _ in 0..self.rng.pick(&[0, 0, 1, 2, 3]) {
            items.push(Item::Aux);
        }
    }

    fn lines_of(&mut self, item: Item) -> Vec<Vec<u8>> {
        match item {
            Item::Line(line) => vec![line],
            Item::Text(label) => vec![self.text_record(label)],
            Item::Exponent(exponent) => {
                let body = self.int(i64::from(exponent), 6);
                vec![record(body.as_bytes(), "EXPONENT")]
            }
            Item::Aux => {
                let mut lines = vec![self.text_record("START OF AUX DATA")];
                for _ in 0..self.rng.below(5) {
                    lines.push(self.aux_line());
                }
                lines.push(self.text_record("END OF AUX DATA"));
                lines
            }
        }
    }

    fn text_record(&mut self, label: &str) -> Vec<u8> {
        let mut body = vec![b' '; 60];
        fill(self.rng, &mut body);
        record(&body, label)
    }

    /// Any printable line that does not close the block.
    fn aux_line(&mut self) -> Vec<u8> {
        match self.rng.below(5) {
            0 => self.text_record("START OF AUX DATA"),
            1 => record(b"     0", "EXPONENT"),
            2 => {
                let label = self.rng.pick(&[
                    "END OF HEADER",
                    "END OF FILE",
                    "DESCRIPTION",
                    "END OF AUX DATA.",
                    " END OF AUX DATA",
                    "end of aux data",
                    "PRN / BIAS / RMS",
                ]);
                self.text_record(label)
            }
            3 => Vec::new(),
            _ => {
                let mut line = vec![b' '; self.rng.below(81)];
                for byte in &mut line {
                    *byte = self.rng.printable();
                }
                line
            }
        }
    }

    // -- maps --

    fn maps(&mut self, set: &MapSet) {
        for (kind, map) in self.order(set) {
            self.extra();
            self.map(set, kind, map);
        }
        self.extra();
        self.record("", "END OF FILE");
    }

    /// TEC maps in order; RMS and height maps anywhere after their TEC map, in
    /// rising order within their kind.
    fn order(&mut self, set: &MapSet) -> Vec<(usize, usize)> {
        let maps = set.grid().maps;
        let marked = |bit: u8| -> Vec<usize> {
            (0..maps)
                .filter(|&map| set.areas.marks[map] & bit != 0)
                .collect()
        };
        let queues = [(0..maps).collect(), marked(1), marked(2)];
        let late = self.rng.once_in(3);
        let mut next = [0; 3];
        let mut order = Vec::new();
        while (0..3).any(|kind| next[kind] < queues[kind].len()) {
            let may = |kind: usize| match queues[kind].get(next[kind]) {
                None => false,
                Some(&map) => kind == 0 || map < next[0],
            };
            let kind = if late && may(0) { 0 } else { self.rng.below(3) };
            if may(kind) {
                order.push((kind, queues[kind][next[kind]]));
                next[kind] += 1;
            }
        }
        order
    }

    /// COMMENT and EXPONENT records, where they may stand.
    fn extra(&mut self) {
        while self.chance(self.extras) {
            if self.rng.once_in(2) {
                let line = self.text_record("COMMENT");
                self.line(line);
            } else {
                let exponent = self.rng.range(-3, 0) as i32;
                self.set_exponent(exponent);
            }
        }
    }

    fn set_exponent(&mut self, exponent: i32) {
        self.exponent = exponent;
        let body = self.int(i64::from(exponent), 6);
        self.record(&body, "EXPONENT");
    }

    fn map(&mut self, set: &MapSet, kind: usize, map: usize) {
        let name = ["TEC", "RMS", "HEIGHT"][kind];
        let number = self.int(map as i64 + 1, 6);
        self.record(&number, &format!("START OF {name} MAP"));
        self.extra();
        if kind == 0 || self.rng.once_in(3) {
            let epoch = self.epoch(set.areas.epochs[map]);
            self.record(&epoch, "EPOCH OF CURRENT MAP");
        }
        for block in 0..set.grid().blocks() {
            self.extra();
            self.block(set, kind, map, block);
        }
        self.extra();
        let number = self.int(map as i64 + 1, 6);
        self.record(&number, &format!("END OF {name} MAP"));
    }

    fn block(&mut self, set: &MapSet, kind: usize, map: usize, block: usize) {
        let grid = set.grid();
        let header = &set.header;
        let at = map * grid.blocks() + block;
        let wanted = set.areas.exponents[kind * grid.maps * grid.blocks() + at];
        if wanted != self.exponent {
            self.set_exponent(wanted);
            if self.chance(self.extras) {
                let line = self.text_record("COMMENT");
                self.line(line);
            }
        }
        let layer = (block / grid.rows) as i64;
        let row = (block % grid.rows) as i64;
        let height = if header.dimension == 2 && self.rng.once_in(3) {
            edged(self.rng, -9999, 99_999)
        } else {
            header.heights.first + layer * header.heights.step
        };
        let body = format!(
            "  {}{}{}{}{}",
            self.dec(header.latitudes.first + row * header.latitudes.step, 6),
            self.dec(header.longitudes.first, 6),
            self.dec(header.longitudes.last, 6),
            self.dec(header.longitudes.step, 6),
            self.dec(height, 6)
        );
        self.record(&body, "LAT/LON1/LON2/DLON/H");
        let values = [&set.areas.tec, &set.areas.rms, &set.areas.height][kind];
        let start = at * grid.columns;
        for line in values[start..start + grid.columns].chunks(16) {
            let text: String = line
                .iter()
                .map(|&value| self.int(i64::from(value), 5))
                .collect();
            self.line(text.into_bytes());
        }
    }

    /// Blank lines after END OF FILE, or a last line without its LF.
    fn finish(&mut self) {
        while self.chance(self.blanks) {
            self.blank_line();
        }
        if self.rng.once_in(3) {
            self.text.pop();
            if self.text.last() == Some(&b'\r') {
                self.text.pop();
            }
        }
    }
}

/// What stands in the header after the version record.
enum Item {
    Line(Vec<u8>),
    Text(&'static str),
    Exponent(i32),
    Aux,
}

/// Columns 1 to 60, then the label.
pub fn record(body: &[u8], label: &str) -> Vec<u8> {
    let mut line = body.to_vec();
    line.resize(60, b' ');
    line.extend(label.bytes());
    line
}
