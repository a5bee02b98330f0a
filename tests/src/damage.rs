//! Seeded damage of texts, map sets and questions.

use crate::gen::record;
use crate::rng::Rng;
use crate::set::MapSet;
use second::labels::{self, Label, Part};
use second::{Axis, Question};
use std::ops::{Deref, DerefMut};

// ---- texts ----

/// A number field of a record: where it begins, from 0, and its part.
type Field = (usize, Part);

/// The number of a map, or of maps.
const WHOLE: Field = (0, Part::I(6));

fn fields(label: Label) -> Vec<Field> {
    labels::number_fields(label).collect()
}

fn any_label(rng: &mut Rng) -> &'static str {
    let all: Vec<Label> = labels::all().collect();
    labels::label_text(rng.pick(&all))
}

/// A line without its end, and whether a CR stands before the LF.
#[derive(Clone)]
struct Line {
    bytes: Vec<u8>,
    cr: bool,
}

impl Deref for Line {
    type Target = Vec<u8>;

    fn deref(&self) -> &Vec<u8> {
        &self.bytes
    }
}

impl DerefMut for Line {
    fn deref_mut(&mut self) -> &mut Vec<u8> {
        &mut self.bytes
    }
}

/// The lines of a text, to be changed and joined again.
struct Page {
    lines: Vec<Line>,
    last_lf: bool,
}

impl Page {
    fn of(text: &[u8]) -> Page {
        let line = |bytes: &[u8]| match bytes.strip_suffix(b"\r\n") {
            Some(front) => Line {
                bytes: front.to_vec(),
                cr: true,
            },
            None => Line {
                bytes: bytes.strip_suffix(b"\n").unwrap_or(bytes).to_vec(),
                cr: false,
            },
        };
        Page {
            lines: text.split_inclusive(|&b| b == b'\n').map(line).collect(),
            last_lf: text.last() == Some(&b'\n'),
        }
    }

    fn text(&self) -> Vec<u8> {
        let mut text = Vec::new();
        for (k, line) in self.lines.iter().enumerate() {
            text.extend(&line.bytes);
            if k + 1 < self.lines.len() || self.last_lf {
                text.extend(if line.cr { &b"\r\n"[..] } else { b"\n" });
            }
        }
        text
    }

    /// A line more, which ends as the one before it.
    fn insert(&mut self, at: usize, bytes: Vec<u8>) {
        let cr = at
            .checked_sub(1)
            .is_some_and(|before| self.lines[before].cr);
        self.lines.insert(at, Line { bytes, cr });
    }

    fn label(&self, line: usize) -> Option<Label> {
        let name = self.lines[line].get(60..)?.trim_ascii_end();
        labels::all().find(|&label| labels::label_text(label).as_bytes() == name)
    }

    /// The lines that carry one of the labels.
    fn with_labels(&self, wanted: impl Fn(&str) -> bool) -> Vec<usize> {
        let wanted = |label| wanted(labels::label_text(label));
        (0..self.lines.len())
            .filter(|&line| self.label(line).is_some_and(wanted))
            .collect()
    }

    /// The non-blank lines inside blocks, by their neighbourhood.
    fn value_lines(&self) -> Vec<usize> {
        let mut inside = false;
        let mut found = Vec::new();
        for line in 0..self.lines.len() {
            match self.label(line) {
                Some(label) => inside = label == Label::Block,
                None if inside && self.lines[line].iter().any(|&b| b != b' ') => found.push(line),
                None => {}
            }
        }
        found
    }

    /// Puts bytes at a place of a line, which grows with blanks if need be.
    fn put(&mut self, line: usize, at: usize, bytes: &[u8]) {
        let line = &mut self.lines[line];
        if line.len() < at + bytes.len() {
            line.resize(at + bytes.len(), b' ');
        }
        line[at..at + bytes.len()].copy_from_slice(bytes);
    }

    fn number(&self, line: usize, (at, part): Field) -> Option<i64> {
        let bytes = self.lines[line].get(at..at + labels::width(part))?;
        match part {
            Part::F(_) => second::fields::tenths(bytes),
            _ => second::fields::integer(bytes),
        }
    }

    fn put_number(&mut self, line: usize, (at, part): Field, value: i64) {
        let width = labels::width(part);
        let text = match part {
            Part::F(_) => second::fields::tenths_text(value, width),
            _ => second::fields::integer_text(value, width),
        };
        if text.len() == width {
            self.put(line, at, text.as_bytes());
        }
    }

    /// Puts a word at the right of a field, or at the left of it.
    fn put_word(&mut self, line: usize, (at, part): Field, word: &str, left: bool) {
        let width = labels::width(part);
        let text = match left {
            true => format!("{word:<width$}"),
            false => format!("{word:>width$}"),
        };
        self.put(line, at, text.as_bytes());
    }
}

/// Damages a text once or a few times.
pub fn text(rng: &mut Rng, text: &[u8]) -> Vec<u8> {
    let times = rng.pick(&[1, 1, 1, 1, 1, 2, 2, 3]);
    let mut damaged = text.to_vec();
    for _ in 0..times {
        damaged = once(rng, &damaged);
    }
    damaged
}

fn once(rng: &mut Rng, text: &[u8]) -> Vec<u8> {
    if rng.once_in(6) {
        return bytes(rng, text);
    }
    let mut page = Page::of(text);
    if !page.lines.is_empty() {
        lines(rng, &mut page);
    }
    page.text()
}

/// Single bytes changed, inserted or removed, or the text cut.
fn bytes(rng: &mut Rng, text: &[u8]) -> Vec<u8> {
    let mut damaged = text.to_vec();
    if damaged.is_empty() {
        return damaged;
    }
    let at = rng.below(damaged.len());
    match rng.below(8) {
        0 => damaged[at] = rng.printable(),
        1 => damaged[at] = rng.word() as u8,
        2 => damaged[at] = rng.unprintable(),
        3 => damaged.insert(at, rng.printable()),
        4 => damaged.insert(at, rng.pick(b"\r\n\n -0.x")),
        5 => drop(damaged.remove(at)),
        6 => damaged.truncate(at),
        _ => damaged[at] = rng.pick(b" 0-.+9"),
    }
    damaged
}

fn lines(rng: &mut Rng, page: &mut Page) {
    match rng.below(37) {
        0 => drop_line(rng, page),
        1 => double_line(rng, page),
        2 => swap_lines(rng, page),
        3 => move_line(rng, page),
        4 => cut_lines(rng, page),
        5 | 6 => ill_formed_field(rng, page),
        7 | 8 => changed_field(rng, page),
        9 => long_line(rng, page),
        10 => bad_byte(rng, page),
        11 => broken_label(rng, page),
        12 => other_label(rng, page),
        13 => filled_blank(rng, page),
        14 => bad_value(rng, page),
        15 => value_line_count(rng, page),
        16 => epoch(rng, page),
        17 => map_number(rng, page),
        18 => block_number(rng, page),
        19 => drop_block(rng, page),
        20 => drop_map(rng, page),
        21 => grid(rng, page),
        22 => exponent(rng, page),
        23 => after_the_end(rng, page),
        24 => insert_record(rng, page),
        25 => version(rng, page),
        26 => drop_header_record(rng, page),
        27 => repeat_header_record(rng, page),
        28 => carriage_return(rng, page),
        29 => move_end(rng, page),
        30 => late_epoch(rng, page),
        31 => limits(rng, page),
        32 => one_map_more(rng, page),
        33 => two_fields(rng, page),
        34 => descriptions(rng, page),
        _ => boundary(rng, page),
    }
}

fn drop_line(rng: &mut Rng, page: &mut Page) {
    let at = rng.below(page.lines.len());
    page.lines.remove(at);
}

fn double_line(rng: &mut Rng, page: &mut Page) {
    let at = rng.below(page.lines.len());
    let line = page.lines[at].clone();
    page.lines.insert(at, line);
}

fn swap_lines(rng: &mut Rng, page: &mut Page) {
    let a = rng.below(page.lines.len());
    let b = if rng.once_in(2) {
        (a + 1) % page.lines.len()
    } else {
        rng.below(page.lines.len())
    };
    page.lines.swap(a, b);
}

fn move_line(rng: &mut Rng, page: &mut Page) {
    let at = rng.below(page.lines.len());
    let line = page.lines.remove(at);
    let to = rng.below(page.lines.len() + 1);
    page.lines.insert(to, line);
}

fn cut_lines(rng: &mut Rng, page: &mut Page) {
    let at = rng.below(page.lines.len());
    page.lines.truncate(at);
    page.last_lf = at > 0 && rng.once_in(2);
}

/// A line with number fields, and one of these.
fn some_field(rng: &mut Rng, page: &Page) -> Option<(usize, Field)> {
    let lines = page.with_labels(|_| true);
    let fields: Vec<(usize, Field)> = lines
        .iter()
        .filter_map(|&line| Some((line, page.label(line)?)))
        .flat_map(|(line, label)| labels::number_fields(label).map(move |field| (line, field)))
        .collect();
    if fields.is_empty() {
        None
    } else {
        Some(rng.pick(&fields))
    }
}

/// Most of these are no number; some are one in a field with a point, or in one without.
const ILL: [&str; 28] = [
    "", "-", "+5", "5 ", ".5", "-.5", "5.", "1e2", "1 2", "--1", "- 1", "0x1", "1,0", "5.00", "5",
    "5.0", " .0", "NaN", "1.-", "-0 ", "+0.0", ".", "-.", ". ", "-. ", "- .5", "+.5", "-.0",
];

fn ill_formed_field(rng: &mut Rng, page: &mut Page) {
    let Some((line, field)) = some_field(rng, page) else {
        return;
    };
    let left = rng.once_in(5);
    page.put_word(line, field, rng.pick(&ILL), left);
}

fn changed_field(rng: &mut Rng, page: &mut Page) {
    let Some((line, field)) = some_field(rng, page) else {
        return;
    };
    let old = page.number(line, field).unwrap_or(0);
    let value = match rng.below(6) {
        0 => old + rng.pick(&[-1, 1]),
        1 => -old,
        2 => rng.range(-99_999, 999_999),
        3 => 0,
        4 => rng.pick(&[
            -1, 1, 2, 3, 4, -2, -3, -4, 12, 13, 23, 24, 28, 29, 30, 31, 32, 59, 60, 150, 151, 300,
            301, 900, 901, 1800, 1801, 1899, 1900, 2199, 2200, 3600, 3601, 9999, 10_000, 21_600,
            21_601, 99_999, 999_999,
        ]),
        _ => old * 10,
    };
    page.put_number(line, field, value);
}

fn long_line(rng: &mut Rng, page: &mut Page) {
    let at = rng.below(page.lines.len());
    let length = rng.pick(&[80, 81, 81, 82, 100, 300]);
    let filler = if rng.once_in(4) { b'x' } else { b' ' };
    if rng.once_in(3) {
        page.insert(at, vec![filler; length]);
    } else if page.lines[at].len() < length {
        page.lines[at].resize(length, filler);
    }
}

fn bad_byte(rng: &mut Rng, page: &mut Page) {
    let line = rng.below(page.lines.len());
    let at = rng.below(page.lines[line].len().clamp(1, 80));
    let byte = rng.unprintable();
    if rng.once_in(3) && at < page.lines[line].len() {
        page.lines[line].insert(at, byte);
    } else {
        page.put(line, at, &[byte]);
    }
}

fn broken_label(rng: &mut Rng, page: &mut Page) {
    let lines = page.with_labels(|_| true);
    if lines.is_empty() {
        return;
    }
    let line = rng.pick(&lines);
    match rng.below(5) {
        0 => page.lines[line][60..].make_ascii_lowercase(),
        1 => page.lines[line].insert(60, b' '),
        2 => page.lines[line].truncate(60 + rng.below(8)),
        3 => drop(page.lines[line].remove(60)),
        _ => {
            let at = 60 + rng.below(20);
            let byte = rng.printable();
            page.put(line, at, &[byte]);
        }
    }
}

fn set_label(page: &mut Page, line: usize, label: &str) {
    page.lines[line].truncate(60);
    page.put(line, 60, label.as_bytes());
}

/// Another known label, often one that begins with the same word.
fn other_label(rng: &mut Rng, page: &mut Page) {
    let lines = page.with_labels(|_| true);
    if lines.is_empty() {
        return;
    }
    let line = rng.pick(&lines);
    let word = |label: &'static str| label.split(' ').next();
    let old = page.label(line).map_or("", labels::label_text);
    let alike: Vec<&str> = labels::all()
        .map(labels::label_text)
        .filter(|&text| word(text) == word(old))
        .collect();
    let new = if rng.once_in(2) {
        rng.pick(&alike)
    } else {
        any_label(rng)
    };
    set_label(page, line, new);
}

/// A non-blank byte in columns 1 to 60 of a record.
fn filled_blank(rng: &mut Rng, page: &mut Page) {
    let lines = page.with_labels(|_| true);
    if lines.is_empty() {
        return;
    }
    let line = rng.pick(&lines);
    let at = rng.below(60);
    let byte = rng.pick(b"x0-.~");
    page.put(line, at, &[byte]);
}

fn bad_value(rng: &mut Rng, page: &mut Page) {
    let lines = page.value_lines();
    if lines.is_empty() {
        return;
    }
    let line = rng.pick(&lines);
    let used = page.lines[line].len().div_ceil(5).clamp(1, 16);
    let at = 5 * rng.below((used + 1).min(16));
    let text = rng.pick(&ILL);
    page.put(line, at, format!("{text:>5}").as_bytes());
}

/// A value line too many, too few, or cut into two.
fn value_line_count(rng: &mut Rng, page: &mut Page) {
    let lines = page.value_lines();
    if lines.is_empty() {
        return;
    }
    let at = rng.pick(&lines);
    match rng.below(4) {
        0 => drop(page.lines.remove(at)),
        1 => {
            let line = page.lines[at].clone();
            page.lines.insert(at, line);
        }
        2 => page.insert(at, record(b"a word", "COMMENT")),
        _ => {
            let half = page.lines[at].len() / 10 * 5;
            let rest = page.lines[at].split_off(half);
            page.insert(at + 1, rest);
        }
    }
}

fn epoch(rng: &mut Rng, page: &mut Page) {
    let deep = !rng.once_in(4);
    let lines = page.with_labels(|l| l.starts_with("EPOCH") && (!deep || l.ends_with("ENT MAP")));
    if lines.is_empty() {
        return;
    }
    let line = rng.pick(&lines);
    let field = rng.pick(&fields(Label::CurrentEpoch));
    let old = page.number(line, field).unwrap_or(0);
    let value = match rng.below(4) {
        0 => old + 1,
        1 => old - 1,
        2 => rng.pick(&[-1, 0, 12, 13, 23, 24, 29, 30, 31, 32, 59, 60, 1899, 2200]),
        _ => rng.range(0, 62),
    };
    page.put_number(line, field, value);
}

fn map_number(rng: &mut Rng, page: &mut Page) {
    let lines = page.with_labels(|l| l.starts_with("START OF") || l.ends_with("C MAP"));
    if lines.is_empty() {
        return;
    }
    let line = rng.pick(&lines);
    let old = page.number(line, WHOLE).unwrap_or(0);
    let value = rng.pick(&[old + 1, old - 1, 0, -old, old + 100]);
    page.put_number(line, WHOLE, value);
}

fn block_number(rng: &mut Rng, page: &mut Page) {
    let lines = page.with_labels(|l| l.starts_with("LAT/"));
    if lines.is_empty() {
        return;
    }
    let line = rng.pick(&lines);
    let field = rng.pick(&fields(Label::Block));
    let old = page.number(line, field).unwrap_or(0);
    let value = rng.pick(&[old + 1, old - 1, old + 50, -old, 0]);
    page.put_number(line, field, value);
}

/// A block with its values, dropped or doubled.
fn drop_block(rng: &mut Rng, page: &mut Page) {
    let lines = page.with_labels(|l| l.starts_with("LAT/"));
    if lines.is_empty() {
        return;
    }
    let start = rng.pick(&lines);
    let end = (start + 1..page.lines.len())
        .find(|&line| page.label(line).is_some())
        .unwrap_or(page.lines.len());
    if rng.once_in(4) {
        let copy = page.lines[start..end].to_vec();
        page.lines.splice(start..start, copy);
    } else {
        page.lines.drain(start..end);
    }
}

/// A whole map dropped, doubled, or moved.
fn drop_map(rng: &mut Rng, page: &mut Page) {
    let starts = page.with_labels(|l| l.starts_with("START OF") && l.ends_with(" MAP"));
    if starts.is_empty() {
        return;
    }
    let start = rng.pick(&starts);
    let end = (start..page.lines.len())
        .find(|&line| {
            let label = page.label(line);
            matches!(
                label,
                Some(Label::EndTec | Label::EndRms | Label::EndHeight)
            )
        })
        .map_or(page.lines.len(), |line| line + 1);
    match rng.below(4) {
        0 => {
            let copy = page.lines[start..end].to_vec();
            page.lines.splice(start..start, copy);
        }
        1 => {
            let map: Vec<Line> = page.lines.drain(start..end).collect();
            let places = page.with_labels(|l| l.starts_with("START OF") || l == "END OF FILE");
            if !places.is_empty() {
                let to = rng.pick(&places);
                page.lines.splice(to..to, map);
            }
        }
        _ => drop(page.lines.drain(start..end)),
    }
}

/// The records that make the grid, changed so that rules over several fields,
/// the sizes or the dimension break.
fn grid(rng: &mut Rng, page: &mut Page) {
    let choice = rng.below(7);
    let (label, text): (&str, &str) = match choice {
        0 => ("MAP DIMENSION", rng.pick(&["     2", "     3"])),
        1 => (
            "LAT1 / LAT2 / DLAT",
            rng.pick(&[
                "    90.0 -90.0  -0.1",
                "    36.0   0.0  -0.1",
                "    36.1   0.0  -0.1",
                "    10.0 -10.0   5.0",
                "    10.0  -9.0  -5.0",
                "    10.0  10.0  10.0",
                "    90.1  10.0   0.0",
                "    90.0 -90.0 -15.1",
            ]),
        ),
        2 => (
            "LON1 / LON2 / DLON",
            rng.pick(&[
                "     0.0 360.0   0.1",
                "     0.0  72.1   0.1",
                "  -180.0 360.0  15.0",
                "  -180.0 180.0   0.5",
                "    10.0   5.0   5.0",
                "     1.0   6.0   5.0",
                "     0.0 360.1   0.0",
            ]),
        ),
        3 => (
            "HGT1 / HGT2 / DHGT",
            rng.pick(&[
                "   400.0 400.0   0.0",
                "   400.0 400.0   1.0",
                "   400.0 450.0   0.0",
                "   400.0 450.0  20.0",
                "   450.0 400.0  50.0",
                "     0.0  64.0   1.0",
                "     0.0  63.0   1.0",
                "     0.0  -0.1   1.0",
            ]),
        ),
        4 => (
            "# OF MAPS IN FILE",
            rng.pick(&["     1", "     2", "     3", "   300", "   301", "     0"]),
        ),
        5 => (
            "INTERVAL",
            rng.pick(&["     0", "     1", " 21600", " 21601", "    -1"]),
        ),
        _ => (
            "SYS / #STA / #SAT",
            rng.pick(&[
                "     X     1     1",
                "     G    -1    -1",
                "     R     1    -1",
                "    G      1     1",
            ]),
        ),
    };
    for line in page.with_labels(|l| l == label) {
        page.put(line, 0, text.as_bytes());
    }
}

/// An EXPONENT record, right or wrong, mostly inside the maps.
fn exponent(rng: &mut Rng, page: &mut Page) {
    let places = page.with_labels(|l| {
        l.starts_with("LAT/") || l.starts_with("END OF") || l.starts_with("EPOCH OF CURR")
    });
    let at = if places.is_empty() {
        rng.below(page.lines.len())
    } else {
        rng.pick(&places)
    };
    let body = rng.pick(&[
        "     1", "    -4", "     0", "    -3", "    -1 ", "999999", "  -1", "     1 x",
    ]);
    page.insert(at, record(body.as_bytes(), "EXPONENT"));
}

fn after_the_end(rng: &mut Rng, page: &mut Page) {
    let label = any_label(rng);
    let line = match rng.below(4) {
        0 => b"x".to_vec(),
        1 => vec![b' '; rng.below(90)],
        2 => record(b"", "END OF FILE."),
        _ => record(b"     1", label),
    };
    page.insert(page.lines.len(), line);
    page.last_lf = rng.once_in(2);
}

fn insert_record(rng: &mut Rng, page: &mut Page) {
    let at = rng.below(page.lines.len() + 1);
    let label = any_label(rng);
    let body = rng.pick(&[
        "",
        "     1",
        "     1.0",
        "text",
        "   ?",
        "  2000     1     1",
    ]);
    page.insert(at, record(body.as_bytes(), label));
}

/// So many DESCRIPTION lines in the header that there are 20, one more, or many.
fn descriptions(rng: &mut Rng, page: &mut Page) {
    let end = page.with_labels(|l| l == "END OF HEADER").pop();
    let there = page.with_labels(|l| l == "DESCRIPTION").len();
    let wanted = rng.pick(&[20, 21, 21, 22, 40]);
    for _ in there..wanted {
        let at = 1 + rng.below(end.unwrap_or(1).max(1));
        let body = rng.pick(&["", "a model", "  x"]);
        page.insert(at, record(body.as_bytes(), "DESCRIPTION"));
    }
}

fn version(rng: &mut Rng, page: &mut Page) {
    let lines = page.with_labels(|l| l.starts_with("IONEX"));
    let Some(&line) = lines.first() else {
        return;
    };
    match rng.below(7) {
        0 => page.put(line, 0, rng.pick(&[b"     1.0", b"     1.1"])),
        1 => page.put(
            line,
            0,
            rng.pick(&[b"    -1.1", b"     0.9", b"    10.0", b"     2.0"]),
        ),
        2 => page.put(line, 20, b"i"),
        3 => page.put(line, 40, rng.pick(&[b"GPS", b"GLO", b"gns", b" GN"])),
        4 => page.put(line, rng.below(20), b"1"),
        5 => page.put(line, 0, rng.pick(&[b"1.1     ", b"      11", b"     1.2"])),
        _ => {
            let at = 20 + rng.below(40);
            let byte = rng.printable();
            page.put(line, at, &[byte]);
        }
    }
}

fn header_records(page: &Page) -> Vec<usize> {
    let inside = |label: Label| (label as usize) < Label::EndHeader as usize;
    (0..page.lines.len())
        .filter(|&line| page.label(line).is_some_and(inside))
        .collect()
}

fn drop_header_record(rng: &mut Rng, page: &mut Page) {
    let lines = header_records(page);
    if !lines.is_empty() {
        page.lines.remove(rng.pick(&lines));
    }
}

/// A header record a second time, well-formed or not, near or far.
fn repeat_header_record(rng: &mut Rng, page: &mut Page) {
    let lines = header_records(page);
    if lines.is_empty() {
        return;
    }
    let from = rng.pick(&lines);
    let mut line = page.lines[from].clone();
    if rng.once_in(3) {
        let at = rng.below(line.len().min(60));
        line[at] = b'?';
    }
    let to = if rng.once_in(2) {
        from + 1
    } else {
        rng.below(page.lines.len() + 1)
    };
    page.lines.insert(to, line);
}

fn carriage_return(rng: &mut Rng, page: &mut Page) {
    let line = rng.below(page.lines.len());
    match rng.below(3) {
        0 => page.lines[line].push(b'\r'),
        1 => page.lines[line].extend(b"\r\r"),
        _ => {
            let at = rng.below(page.lines[line].len() + 1);
            page.lines[line].insert(at, b'\r');
        }
    }
}

/// An END record earlier than it should be.
fn move_end(rng: &mut Rng, page: &mut Page) {
    let lines = page.with_labels(|l| l.starts_with("END OF"));
    if lines.is_empty() {
        return;
    }
    let from = rng.pick(&lines);
    let line = if rng.once_in(2) {
        page.lines[from].clone()
    } else {
        page.lines.remove(from)
    };
    let to = rng.below(from + 1);
    page.lines.insert(to, line);
}

/// EPOCH OF CURRENT MAP where it may be too late, or wrong for the map.
fn late_epoch(rng: &mut Rng, page: &mut Page) {
    let epochs = page.with_labels(|l| l == "EPOCH OF CURRENT MAP");
    let places = page.with_labels(|l| l.starts_with("LAT/") || l.ends_with(" MAP"));
    if epochs.is_empty() || places.is_empty() {
        return;
    }
    let to = rng.pick(&places);
    // Mostly the epoch that stood last, which is often the right one.
    let from = match epochs.iter().rev().find(|&&line| line < to) {
        Some(&line) if !rng.once_in(4) => line,
        _ => rng.pick(&epochs),
    };
    let line = page.lines[from].clone();
    page.lines.insert(to, line);
}

/// A map behind the last one of its kind, with the next number or another.
fn one_map_more(rng: &mut Rng, page: &mut Page) {
    let kind = rng.pick(&["TEC", "TEC", "RMS", "HEIGHT"]);
    let start_label = format!("START OF {kind} MAP");
    let end_label = format!("END OF {kind} MAP");
    let starts = page.with_labels(|l| l == start_label);
    let ends = page.with_labels(|l| l == end_label);
    let (Some(&start), Some(&end)) = (starts.last(), ends.last()) else {
        return;
    };
    if end < start {
        return;
    }
    let number = page.number(start, WHOLE).unwrap_or(0) + rng.pick(&[1, 1, 1, 0, 2]);
    let copy = page.lines[start..=end].to_vec();
    let files = page.with_labels(|l| l == "END OF FILE");
    let to = match files.first() {
        Some(&file) if rng.once_in(2) && file > end => file,
        _ => end + 1,
    };
    let length = copy.len();
    page.lines.splice(to..to, copy);
    page.put_number(to, WHOLE, number);
    page.put_number(to + length - 1, WHOLE, number);
}

/// Numbers of maps, layers, rows and columns at the limits, all other rules kept.
fn limits(rng: &mut Rng, page: &mut Page) {
    let (maps, layers, rows, columns) = rng.pick(&[
        (100, 1, 50, 400),
        (53, 1, 53, 712),
        (100, 1, 50, 401),
        (125, 2, 20, 400),
        (300, 1, 361, 18),
        (300, 1, 361, 19),
        (1, 64, 361, 86),
        (1, 64, 361, 87),
        (7, 1, 361, 721),
        (8, 1, 361, 721),
        (1, 1, 361, 721),
        (1, 1, 362, 1),
        (1, 1, 361, 1),
        (1, 1, 1, 722),
        (1, 1, 1, 721),
        (1, 65, 1, 1),
        (1, 64, 1, 1),
    ]);
    let (dimension, step) = if layers == 1 { (2, 0) } else { (3, 10) };
    let number = |v: i64| second::fields::integer_text(v, 6);
    let axis = |first: i64, last: i64, step: i64| {
        let text = |v: i64| second::fields::tenths_text(v, 6);
        format!("  {}{}{}", text(first), text(last), text(step))
    };
    let records = [
        ("# OF MAPS IN FILE", number(maps)),
        ("MAP DIMENSION", number(dimension)),
        ("HGT1 / HGT2 / DHGT", axis(0, step * (layers - 1), step)),
        ("LAT1 / LAT2 / DLAT", axis(rows - 1, 0, -1)),
        ("LON1 / LON2 / DLON", axis(0, columns - 1, 1)),
    ];
    for (label, text) in records {
        for line in page.with_labels(|l| l == label) {
            page.put(line, 0, text.as_bytes());
        }
    }
}

/// A number field at an edge of what is accepted, or just outside.
fn boundary(rng: &mut Rng, page: &mut Page) {
    let lines = page.with_labels(|l| !boundaries(l, 0).is_empty());
    if lines.is_empty() {
        return;
    }
    let line = rng.pick(&lines);
    let Some(label) = page.label(line) else {
        return;
    };
    let fields = fields(label);
    let k = rng.below(fields.len());
    let value = rng.pick(boundaries(labels::label_text(label), k));
    page.put_number(line, fields[k], value);
}

/// Two fields of a record wrong, of an epoch mostly: each no number, or a number outside.
fn two_fields(rng: &mut Rng, page: &mut Page) {
    let epochs = !rng.once_in(4);
    let lines = page.with_labels(|l| match epochs {
        true => l.starts_with("EPOCH"),
        false => !outside(l, 1).is_empty(),
    });
    if lines.is_empty() {
        return;
    }
    let line = rng.pick(&lines);
    let Some(label) = page.label(line) else {
        return;
    };
    let fields = fields(label);
    let first = rng.below(fields.len());
    let second = (first + 1 + rng.below(fields.len() - 1)) % fields.len();
    for k in [first, second] {
        if rng.once_in(4) {
            page.put_word(line, fields[k], rng.pick(&ILL), false);
        } else {
            let value = rng.pick(outside(labels::label_text(label), k));
            page.put_number(line, fields[k], value);
        }
    }
}

/// Numbers just outside what a field of several may hold.
fn outside(label: &str, field: usize) -> &'static [i64] {
    match (label, field) {
        ("SYS / #STA / #SAT" | "HGT1 / HGT2 / DHGT", _) => &[-1],
        ("LAT1 / LAT2 / DLAT", 0..2) => &[-901, 901],
        ("LAT1 / LAT2 / DLAT", _) => &[-151, 0, 151],
        ("LON1 / LON2 / DLON", 0..2) => &[-1801, 3601],
        ("LON1 / LON2 / DLON", _) => &[-1, 0, 151],
        ("LAT/LON1/LON2/DLON/H", _) => &[-999, 7, 7777],
        ("EPOCH OF FIRST MAP" | "EPOCH OF LAST MAP" | "EPOCH OF CURRENT MAP", _) => match field {
            0 => &[1899, 2200],
            1 => &[0, 13],
            2 => &[0, 32],
            3 => &[-1, 24],
            _ => &[-1, 60],
        },
        _ => &[],
    }
}

/// Tenths where the field has a point.
fn boundaries(label: &str, field: usize) -> &'static [i64] {
    const COUNT: &[i64] = &[-1, 0, 999_999];
    match label {
        "INTERVAL" => &[-1, 0, 1, 21_600, 21_601],
        "# OF MAPS IN FILE" => &[0, 1, 300, 301],
        "ELEVATION CUTOFF" => &[-1, 0, 900, 901],
        "BASE RADIUS" => &[9_999, 10_000, 999_999, 1_000_000],
        "MAP DIMENSION" => &[1, 2, 3, 4],
        "EXPONENT" => &[-4, -3, 0, 1],
        "# OF STATIONS" | "# OF SATELLITES" | "SYS / #STA / #SAT" => COUNT,
        "HGT1 / HGT2 / DHGT" => &[-1, 0, 1, 99_999],
        "LAT1 / LAT2 / DLAT" if field < 2 => &[-901, -900, 900, 901],
        "LAT1 / LAT2 / DLAT" => &[-151, -150, -1, 0, 1, 150, 151],
        "LON1 / LON2 / DLON" if field < 2 => &[-1801, -1800, 3600, 3601],
        "LON1 / LON2 / DLON" => &[-1, 0, 1, 150, 151],
        "EPOCH OF FIRST MAP" | "EPOCH OF LAST MAP" | "EPOCH OF CURRENT MAP" => match field {
            0 => &[1899, 1900, 2100, 2199, 2200],
            1 => &[0, 1, 2, 12, 13],
            2 => &[0, 1, 28, 29, 30, 31, 32],
            3 => &[-1, 0, 23, 24],
            _ => &[-1, 0, 59, 60],
        },
        _ => &[],
    }
}

// ---- map sets ----

/// Epochs at the limits, or just outside; the text can still be written.
pub fn epochs(rng: &mut Rng, set: &mut MapSet) {
    let header = &mut set.header;
    let gap = rng.pick(&[0, 1, 2, 21_599, 21_600, 21_601, 43_200]);
    let mut epoch = set.areas.epochs[0].min(second::calendar::END - 1 - 43_200 * 300);
    for (k, place) in set.areas.epochs.iter_mut().enumerate() {
        if k > 0 {
            epoch += match rng.below(3) {
                0 => gap,
                1 => header.interval as u64,
                _ => rng.pick(&[1, 21_600]),
            };
        }
        *place = epoch;
    }
    header.first_epoch = set.areas.epochs[0];
    header.last_epoch = epoch;
    match rng.below(6) {
        0 => header.interval = 0,
        1 => header.interval = gap.min(21_600) as i64,
        2 => header.first_epoch += 1,
        3 => header.last_epoch += 1,
        _ => {}
    }
}

/// Damages a map set. True when it is certainly no map set any more.
pub fn map_set(rng: &mut Rng, set: &mut MapSet) -> bool {
    let maps = set.grid().maps;
    let blocks = set.grid().blocks();
    let needs = set.needs();
    let header = &mut set.header;
    let areas = &mut set.areas;
    let wide = [i64::from(i32::MIN), i64::from(i32::MAX)];
    match rng.below(32) {
        0 if rng.once_in(2) => {
            header.version = 21 - header.version;
            return header.version == 11 && header.code > 8;
        }
        0 => header.version = rng.pick(&[0, 9, 12, 110]),
        1 => header.file_type = rng.pick(b"iG \0\xff"),
        2 if header.version == 10 => header.code = rng.pick(&[11, 12, 255]),
        2 => header.code = rng.pick(&[9, 10, 255]),
        3 => {
            let old = header.first_epoch;
            header.first_epoch = rng.pick(&[old + 1, old ^ (1 << 20), u64::MAX]);
        }
        4 => {
            let old = header.last_epoch;
            header.last_epoch = rng.pick(&[old + 1, old ^ (1 << 20), u64::MAX]);
        }
        5 => header.interval = rng.pick(&[21_601, 99_999, wide[1]]),
        6 => {
            let old = header.interval;
            header.interval = rng.pick(&[0, 1, 21_600, (old - 1).max(0)]);
            return maps > 1 && header.interval != old && header.interval != 0 && old != 0;
        }
        7 => {
            header.maps = rng.pick(&[0, 301, maps as i64 + 1, wide[1]]);
        }
        8 => {
            if maps == 1 {
                return false;
            }
            header.maps -= 1;
        }
        9 => header.cutoff = rng.pick(&[901, -1, wide[0], wide[1]]),
        10 => header.radius = rng.pick(&[9_999, 1_000_000, 0, -10_000, wide[1]]),
        11 => header.dimension = rng.pick(&[5 - header.dimension, 0, 1, 4]),
        12 => {
            let field = rng.below(9);
            let axis = match field / 3 {
                0 => &mut header.heights,
                1 => &mut header.latitudes,
                _ => &mut header.longitudes,
            };
            let number = match field % 3 {
                0 => &mut axis.first,
                1 => &mut axis.last,
                _ => &mut axis.step,
            };
            *number = match rng.below(5) {
                0 => *number + rng.pick(&[-1, 1]),
                1 => -*number,
                2 => rng.pick(&[0, 150, 151, -150, -151, 900, 901, 3600, 3601, -1800, -1801]),
                3 => rng.pick(&[99_999, 100_000, wide[0], wide[1]]),
                _ => *number * 2,
            };
            return false;
        }
        13 => {
            let stands = header.stations.stands;
            header.stations.count = if stands { 1_000_000 } else { rng.range(1, 9) };
        }
        14 => {
            let stands = header.satellites.stands;
            header.satellites.count = if stands { 1_000_000 } else { rng.range(1, 9) };
        }
        15 => {
            let system = &mut header.systems[rng.below(7)];
            let wrong = if system.stands { 1_000_000 } else { 1 };
            if rng.once_in(2) {
                system.stations = wrong;
            } else {
                system.satellites = wrong;
            }
        }
        16 => {
            let system = &mut header.systems[rng.below(7)];
            system.stands = !system.stands;
            return !system.stands && (system.stations != 0 || system.satellites != 0);
        }
        17 => {
            let byte = rng.pick(&[0, 9, 10, 13, 31, 127, 128, 255]);
            let at = rng.below(124);
            match at {
                0..=19 => set.texts.program[at] = byte,
                20..=39 => set.texts.agency[at - 20] = byte,
                40..=59 => set.texts.date[at - 40] = byte,
                60..=63 => set.texts.mapping[at - 60] = byte,
                _ => set.texts.observables[at - 64] = byte,
            }
        }
        18 => {
            let at = rng.below(maps);
            areas.epochs[at] = areas.epochs[at].wrapping_add_signed(rng.pick(&[-1, 1, 21_600]));
            return at == 0 || at + 1 == maps;
        }
        19 => areas.marks[rng.below(maps)] = rng.pick(&[4, 5, 7, 128, 255]),
        20 => {
            // An RMS or height map more or less; its area may not fit any more.
            let at = rng.below(maps);
            areas.marks[at] ^= rng.pick(&[1, 2, 3]);
            return false;
        }
        21 => {
            let at = rng.below(3 * maps * blocks);
            areas.exponents[at] = rng.pick(&[1, 2, -4, -100, i32::MIN, i32::MAX]);
        }
        22 => {
            // Wrong only where the map is absent.
            let at = rng.below(3 * maps * blocks);
            let old = areas.exponents[at];
            areas.exponents[at] = rng.pick(&[-3, -2, -1, 0]);
            let kind = (at / (maps * blocks)) as u8;
            let present = kind == 0 || areas.marks[at / blocks % maps] & kind != 0;
            return !present && areas.exponents[at] != old;
        }
        23 => {
            let (values, need) = some_values(rng, set);
            values[rng.below(need)] = rng.pick(&[-10_000, 100_000, i32::MIN, i32::MAX]);
        }
        24 => {
            // Wrong only where the map is absent.
            let kind = rng.pick(&[1u8, 2]);
            let marks = areas.marks[..maps].to_vec();
            if marks.iter().all(|m| m & kind == 0) {
                return false;
            }
            let values = if kind == 1 {
                &mut areas.rms
            } else {
                &mut areas.height
            };
            let size = needs[0] / maps;
            let at = rng.below(maps);
            values[at * size + rng.below(size)] = rng.pick(&[0, 9998, -9999, 99_999]);
            return marks[at] & kind == 0;
        }
        25 => {
            // The last needed element of an area is missing.
            match rng.below(6) {
                0 => areas.tec.truncate(needs[0] - 1),
                1 if needs[1] > 0 => areas.rms.truncate(needs[1] - 1),
                2 if needs[2] > 0 => areas.height.truncate(needs[2] - 1),
                3 => areas.exponents.truncate(needs[3] - 1),
                4 => areas.epochs.truncate(needs[4] - 1),
                _ => areas.marks.truncate(needs[5] - 1),
            }
        }
        26 => {
            // All areas empty.
            *areas = Default::default();
        }
        27 | 28 => {
            epochs(rng, set);
            return false;
        }
        29 => header.descriptions = rng.pick(&[-1, 21, 276, wide[0], wide[1]]),
        30 => return description(rng, set),
        _ => {
            header.first_epoch = header.first_epoch.wrapping_add(second::calendar::END);
            header.last_epoch = header.last_epoch.wrapping_add(second::calendar::END);
            for epoch in &mut areas.epochs {
                *epoch = epoch.wrapping_add(second::calendar::END);
            }
        }
    }
    true
}

/// A byte of the descriptions, or their number by one: wrong behind the last line, and in it where it cannot be printed.
pub fn description(rng: &mut Rng, set: &mut MapSet) -> bool {
    let count = set.header.descriptions.clamp(0, 20) as usize;
    let lines = &mut set.texts.descriptions;
    let line = rng.pick(&[0, count.saturating_sub(1), count, 19]).min(19);
    let at = rng.pick(&[0, 1, 58, 59]);
    match rng.below(3) {
        0 => lines[line][at] = rng.unprintable(),
        1 => {
            lines[line][at] = b'~';
            return line >= count;
        }
        _ if count > 0 && rng.once_in(2) => {
            set.header.descriptions -= 1;
            return lines[count - 1] != [b' '; 60];
        }
        _ => {
            set.header.descriptions += 1;
            return count == 20;
        }
    }
    true
}

/// The values of a kind that has a map, and how many are needed.
fn some_values<'a>(rng: &mut Rng, set: &'a mut MapSet) -> (&'a mut Vec<i32>, usize) {
    let needs = set.needs();
    match rng.below(3) {
        1 if needs[1] > 0 => (&mut set.areas.rms, needs[1]),
        2 if needs[2] > 0 => (&mut set.areas.height, needs[2]),
        _ => (&mut set.areas.tec, needs[0]),
    }
}

/// Values and exponents that asking refuses only where a node is needed.
pub fn holes(rng: &mut Rng, set: &mut MapSet) {
    if rng.once_in(4) {
        // An absent map may hold anything; it is absent by its mark.
        let needs = set.needs();
        let size = needs[0] / set.grid().maps;
        let marks = set.areas.marks.clone();
        for (map, mark) in marks[..set.grid().maps].iter().enumerate() {
            let place = map * size..(map + 1) * size;
            if needs[1] > 0 && mark & 1 == 0 {
                set.areas.rms[place.clone()].fill(5);
            }
            if needs[2] > 0 && mark & 2 == 0 {
                set.areas.height[place].fill(5);
            }
        }
    }
    let count = rng.pick(&[0, 0, 1, 2, 8]);
    for _ in 0..count {
        let (values, need) = some_values(rng, set);
        values[rng.below(need)] = rng.pick(&[9999, 9999, 9999, -10_000, 100_000, i32::MIN]);
    }
    if rng.once_in(6) {
        let at = rng.below(set.areas.exponents.len());
        set.areas.exponents[at] = rng.pick(&[1, -4, i32::MAX]);
    }
}

// ---- questions ----

/// A question about a map set, mostly a good one.
pub fn question(rng: &mut Rng, set: &MapSet) -> Question {
    let header = &set.header;
    let grid = set.grid();
    Question {
        kind: match rng.below(12) {
            0 => rng.pick(&[-1, 3, 4, 255]),
            1..=3 => 1,
            4..=6 => 2,
            _ => 0,
        },
        method: match (rng.below(16), header.longitudes.goes_round()) {
            (0, _) => rng.pick(&[-1, 4, 5, 255]),
            (1..=2, _) => 0,
            (3..=5, _) => 1,
            // Most grids do not go round.
            (6..=8, false) => 0,
            (9..=13, false) => 1,
            (6..=9, true) | (14, false) => 3,
            _ => 2,
        },
        layer: match rng.below(16) {
            0 => rng.pick(&[-1, grid.layers as i64, 64, i64::from(i32::MAX)]),
            _ => rng.below(grid.layers) as i64,
        },
        latitude: {
            let (low, high) = ends(header.latitudes.first, header.latitudes.last);
            place(rng, low, high, header.latitudes.step.abs())
        },
        longitude: {
            let (low, high) = ends(header.longitudes.first, header.longitudes.last);
            let turns = match rng.below(6) {
                0 => rng.range(-3, 3),
                1 => rng.range(-50_000, 50_000),
                _ => 0,
            };
            let step = header.longitudes.step;
            let place = match 3600 - (high - low) {
                gap if gap > 0 && gap <= 2 * step && rng.once_in(2) => beyond(rng, high, gap),
                _ => place(rng, low, high, step),
            };
            let place = place + 36_000 * turns;
            // The library takes places of 32 bits.
            place.clamp(i64::from(i32::MIN), i64::from(i32::MAX))
        },
        second: second(rng, &set.areas.epochs[..grid.maps]),
    }
}

/// A question about the last nodes and maps of a large set.
pub fn late_question(rng: &mut Rng, set: &MapSet) -> Question {
    let Axis { last, step, .. } = set.header.latitudes;
    let grid = set.grid();
    let rows = rng.below(1 + grid.rows / 20) as i64;
    let maps = rng.below(grid.maps.min(40));
    Question {
        kind: rng.pick(&[0, 0, 0, 1, 2]),
        method: rng.pick(&[0, 1]),
        layer: grid.layers as i64 - 1,
        latitude: 10 * (last - rows * step),
        second: set.areas.epochs[grid.maps - 1 - maps],
        ..question(rng, set)
    }
}

fn ends(a: i64, b: i64) -> (i64, i64) {
    (a.min(b), a.max(b))
}

/// Hundredths of a degree, for an axis in tenths: nodes, middles, ends, outside.
fn place(rng: &mut Rng, low: i64, high: i64, step: i64) -> i64 {
    let (low, high, step) = (low * 10, high * 10, step * 10);
    let node = low + rng.range(0, (high - low) / step) * step;
    match rng.below(24) {
        0 => low - rng.pick(&[1, 10, 1000]),
        1 => high + rng.pick(&[1, 10, 1000]),
        2 => rng.pick(&[i64::from(i32::MIN), i64::from(i32::MAX), 0]),
        3 => low,
        4 => high,
        5..=8 => node,
        9..=12 => (node + step / 2).min(high),
        13..=14 => (node + rng.pick(&[-1, 1])).clamp(low, high),
        _ => rng.range(low, high),
    }
}

/// A place between the last column and the first, in hundredths, for columns that leave a small gap.
fn beyond(rng: &mut Rng, last: i64, gap: i64) -> i64 {
    let (last, gap) = (10 * last, 10 * gap);
    last + match rng.below(6) {
        0 => 1,
        1 => gap - 1,
        2 => gap / 2,
        _ => rng.range(1, gap - 1),
    }
}

fn second(rng: &mut Rng, epochs: &[u64]) -> u64 {
    let first = epochs[0];
    let last = epochs[epochs.len() - 1];
    let at = rng.below(epochs.len());
    match rng.below(20) {
        0 => first.saturating_sub(rng.pick(&[1, 7200])),
        1 => last + rng.pick(&[1, 7200]),
        2 => rng.pick(&[0, u64::MAX, i64::MAX as u64]),
        3..=6 => epochs[at],
        7 => (epochs[at] + 1).min(last),
        8..=11 if at > 0 => (epochs[at - 1] + epochs[at]) / 2,
        12 if at > 0 => (epochs[at - 1] + epochs[at]).div_ceil(2),
        _ => rng.range(first as i64, last as i64) as u64,
    }
}

#[cfg(test)]
mod tests {
    use super::*;

    #[test]
    fn a_page_keeps_its_line_ends() {
        let texts: [&[u8]; 6] = [
            b"a\r\nb\nc\r\n",
            b"a\nb\r\nc",
            b"\r\r\n\n",
            b"a\r",
            b"\n",
            b"",
        ];
        for text in texts {
            assert_eq!(Page::of(text).text(), text);
        }
        let mut page = Page::of(b"a\nb\r\nc");
        page.insert(2, b"x".to_vec());
        assert_eq!(page.text(), b"a\nb\r\nx\r\nc");
    }
}
