//! One block without the whole grid, at the C boundary: indexes made, of another file, shifted, of any positions; texts
//! cut and damaged. What two leave is compared, and an index that a library makes must answer as its reading does.

use crate::boundary::{self, Boundary, Lent, Plain, HEADER, TEXTS};
use crate::calls;
use crate::damage;
use crate::gen;
use crate::rng::Rng;
use crate::run;
use crate::set::{rubbish, MapSet};
use crate::tally::{self, Comparison, Tally};
use second::index::{self, Entries, Index, Node};
use second::{Reading, Refusal};

pub mod faults;

/// What is lent for an index, or given of one; any length, any number.
#[derive(Clone, Debug, Default, PartialEq, Eq)]
pub struct Kept {
    pub header: Vec<i64>,
    pub texts: Vec<u8>,
    pub positions: Vec<u64>,
    pub exponents: Vec<i32>,
    pub marks: Vec<u8>,
}

/// The functions. Each answers with 0, a refusal's number, or 101 to 103.
pub trait Indexes {
    fn index(&self, text: &[u8], lent: &mut Kept, place: &mut [u64]) -> u64;

    /// The number as written, and its exponent.
    fn indexed_node(&self, text: &[u8], kept: &Kept, node: &Node, found: &mut [i32]) -> u64;

    /// Where the block's lines start, and how many bytes they are.
    fn indexed_block(&self, text: &[u8], kept: &Kept, node: &Node, bounds: &mut [u64]) -> u64;
}

// ---- the second program at the boundary ----

fn number(done: Result<(), u64>) -> u64 {
    done.err().unwrap_or(0)
}

fn own_areas(kept: &Kept, result: usize) -> Result<(), u64> {
    match (kept.header.len(), kept.texts.len()) {
        (..HEADER, _) => Err(101),
        (_, ..TEXTS) => Err(102),
        _ if result < 2 => Err(103),
        _ => Ok(()),
    }
}

impl Indexes for Plain {
    fn index(&self, text: &[u8], lent: &mut Kept, place: &mut [u64]) -> u64 {
        number(make(text, lent, place))
    }

    fn indexed_node(&self, text: &[u8], kept: &Kept, node: &Node, found: &mut [i32]) -> u64 {
        number(own_areas(kept, found.len()).and_then(|()| {
            let answer = with_index(kept, |index| index::indexed_node(index, text, node));
            let (value, exponent) = answer.map_err(|refusal| u64::from(refusal.number()))?;
            found[..2].copy_from_slice(&[value, exponent]);
            Ok(())
        }))
    }

    fn indexed_block(&self, text: &[u8], kept: &Kept, node: &Node, bounds: &mut [u64]) -> u64 {
        number(own_areas(kept, bounds.len()).and_then(|()| {
            let answer = with_index(kept, |index| index::indexed_node(index, text, node));
            answer.map_err(|refusal| u64::from(refusal.number()))?;
            let lines = with_index(kept, |index| index::indexed_block(index, text, node));
            let start = lines.as_ptr() as usize - text.as_ptr() as usize;
            bounds[..2].copy_from_slice(&[start as u64, lines.len() as u64]);
            Ok(())
        }))
    }
}

fn make(text: &[u8], lent: &mut Kept, place: &mut [u64]) -> Result<(), u64> {
    own_areas(lent, place.len())?;
    let mut entries = Entries {
        positions: &mut lent.positions,
        exponents: &mut lent.exponents,
        marks: &mut lent.marks,
    };
    match index::make_index(text, &mut entries) {
        Reading::Accepted { header, texts } => {
            lent.header[..HEADER].copy_from_slice(&boundary::numbers_of(&header));
            lent.texts[..TEXTS].copy_from_slice(&boundary::bytes_of(&texts));
            Ok(())
        }
        Reading::Refused(refusal) => {
            let told = match refusal {
                Refusal::Place { line, column, .. } => [line, column],
                Refusal::Area { area, need } => [u64::from(area), need],
                other => panic!("{other} is no refusal of making an index"),
            };
            place[..2].copy_from_slice(&told);
            Err(u64::from(refusal.number()))
        }
    }
}

fn with_index<T>(kept: &Kept, ask: impl FnOnce(&Index) -> T) -> T {
    // A header of nothing, for numbers that no field can hold, is as invalid.
    let header = boundary::header_of(&kept.header).unwrap_or_default();
    let texts = boundary::texts_of(&kept.texts);
    ask(&Index {
        header: &header,
        texts: &texts,
        positions: &kept.positions,
        exponents: &kept.exponents,
        marks: &kept.marks,
    })
}

// ---- the calls of a seed ----

/// What a call is given, and after it what it left.
#[derive(Clone, Debug, PartialEq, Eq)]
enum Call {
    Make {
        text: Vec<u8>,
        lent: Kept,
        place: Vec<u64>,
    },
    Node {
        text: Vec<u8>,
        kept: Kept,
        node: Node,
        found: Vec<i32>,
    },
    Block {
        text: Vec<u8>,
        kept: Kept,
        node: Node,
        bounds: Vec<u64>,
    },
}

impl Call {
    fn name(&self) -> &'static str {
        match self {
            Call::Make { .. } => "index",
            Call::Node { .. } => "indexed_node",
            Call::Block { .. } => "indexed_block",
        }
    }
}

/// How many questions are asked of each seed's index.
const QUESTIONS: usize = 16;

fn calls(seed: u64) -> Vec<Call> {
    let rng = &mut Rng::new(seed ^ 0x0001_dea0);
    let set = gen::map_set(rng);
    let text = gen::text(rng, &set);
    let mut all = Vec::new();
    for damaged in [false, false, true, true] {
        let text = match damaged {
            true => damage::text(rng, &text),
            false => text.clone(),
        };
        all.push(Call::Make {
            text,
            lent: room(rng, &set),
            place: calls::words(rng, 2),
        });
    }
    let kept = made(&text);
    for _ in 0..QUESTIONS {
        let node = some_node(rng, &set);
        let (text, kept) = at_hand(rng, &set, &text, &kept, &node);
        all.push(Call::Node {
            text: text.clone(),
            kept: kept.clone(),
            node,
            found: calls::words(rng, 2).iter().map(|&w| w as i32).collect(),
        });
        all.push(Call::Block {
            text,
            kept,
            node,
            bounds: calls::words(rng, 2),
        });
    }
    all
}

/// Areas for an index of the set, longer or too short at times.
fn room(rng: &mut Rng, set: &MapSet) -> Kept {
    let needs = set.needs();
    let mut lengths = [needs[3], needs[3], needs[5]].map(|need| need + rng.pick(&[0, 1, 5]));
    for _ in 0..rng.pick(&[0, 0, 1, 3]) {
        let area = rng.below(3);
        lengths[area] = rng.below(lengths[area] + 1);
    }
    let own = calls::given(rng, set);
    Kept {
        header: own.header,
        texts: own.texts,
        positions: (0..lengths[0]).map(|_| rng.word()).collect(),
        exponents: (0..lengths[1]).map(|_| rng.word() as i32).collect(),
        marks: (0..lengths[2]).map(|_| rng.word() as u8).collect(),
    }
}

/// The index of a text by the second program.
pub fn made(text: &[u8]) -> Kept {
    let placed = second::read::placed(text).unwrap_or_else(|refusal| panic!("{refusal}"));
    Kept {
        header: boundary::numbers_of(&placed.header).to_vec(),
        texts: boundary::bytes_of(&placed.texts).to_vec(),
        positions: placed.positions,
        exponents: placed.exponents,
        marks: placed.marks,
    }
}

/// A node, mostly one that is there.
fn some_node(rng: &mut Rng, set: &MapSet) -> Node {
    let grid = set.grid();
    let mut node = Node {
        kind: rng.pick(&[0, 0, 0, 1, 1, 2, 2]),
        map: rng.below(grid.maps) as u64 + 1,
        layer: rng.below(grid.layers) as u64,
        row: rng.below(grid.rows) as u64,
        column: rng.below(grid.columns) as u64,
    };
    if rng.once_in(5) {
        let wide = rng.pick(&[1 << 8, 1 << 32, 1 << 63, u64::MAX]);
        match rng.below(6) {
            0 => node.kind = rng.pick(&[3, 4, 255, wide]),
            1 => node.map = rng.pick(&[0, 0, grid.maps as u64 + 1, node.map.wrapping_add(wide)]),
            2 => node.layer = rng.pick(&[grid.layers as u64, node.layer.wrapping_add(wide)]),
            3 => node.row = rng.pick(&[grid.rows as u64, node.row.wrapping_add(wide)]),
            _ => node.column = rng.pick(&[grid.columns as u64, node.column.wrapping_add(wide)]),
        }
    }
    node
}

/// The place of the node's entry, as far as there is one.
fn entry(kept: &Kept, set: &MapSet, node: &Node) -> usize {
    let grid = set.grid();
    let map = node.kind as usize % 3 * grid.maps + (node.map as usize).wrapping_sub(1) % grid.maps;
    let block = node.layer as usize % grid.layers * grid.rows + node.row as usize % grid.rows;
    (map * grid.blocks() + block) % kept.positions.len().max(1)
}

/// A text and an index to ask, right or wrong.
fn at_hand(rng: &mut Rng, set: &MapSet, text: &[u8], kept: &Kept, node: &Node) -> (Vec<u8>, Kept) {
    let mut text = text.to_vec();
    let mut kept = kept.clone();
    let at = entry(&kept, set, node);
    match rng.below(16) {
        0 => {
            // Of another file with the same maps, or with others.
            let other = match rng.once_in(2) {
                true => set.clone(),
                false => gen::map_set(rng),
            };
            kept = made(&gen::text(rng, &other));
        }
        1 => {
            let by = rng.pick(&[1, u64::MAX]);
            for position in &mut kept.positions {
                *position = position.wrapping_add(by);
            }
        }
        2 | 3 => kept.positions[at] = any_position(rng, &text, &kept, at),
        4 => text.truncate(rng.below(text.len() + 1)),
        5 => text = damage::text(rng, &text),
        6..=8 => damage_block(rng, &mut text, &mut kept, at, set),
        9 => kept.exponents[at] = rng.pick(&[1, -4, 2, 100, i32::MIN, i32::MAX, 0, -3]),
        10 => damage_index(rng, &mut kept, set),
        11 => {
            let given = calls::given(rng, set);
            (kept.header, kept.texts) = (given.header, given.texts);
        }
        _ => {}
    }
    (text, kept)
}

fn any_position(rng: &mut Rng, text: &[u8], kept: &Kept, at: usize) -> u64 {
    let length = text.len() as u64;
    let right = kept.positions[at];
    match rng.below(8) {
        0 => rng.below(text.len() + 1) as u64,
        1 => rng.pick(&[length, length + 1, length - 1, 0]),
        2 => rng.pick(&[
            u64::MAX,
            u64::MAX - 79,
            1 << 63,
            right.wrapping_add(1 << 32),
        ]),
        3 => right.wrapping_add_signed(rng.range(-3, 3)),
        4 => {
            // Where some line starts.
            let from = rng.below(text.len());
            let lf = text[from..].iter().position(|&b| b == b'\n');
            (from + lf.map_or(0, |lf| lf + 1)) as u64
        }
        // Of another block: of the next row, or of the same row in another map or kind.
        _ => rng.pick(&kept.positions),
    }
}

/// A change inside the block that the entry points at.
fn damage_block(rng: &mut Rng, text: &mut Vec<u8>, kept: &mut Kept, at: usize, set: &MapSet) {
    let start = kept.positions[at] as usize;
    let mut lines = text[start..].iter().enumerate();
    let behind_lf: Vec<usize> = lines
        .by_ref()
        .filter(|(_, &b)| b == b'\n')
        .map(|(k, _)| start + k + 1)
        .take(1 + set.grid().columns.div_ceil(16))
        .collect();
    let end = behind_lf.last().copied().unwrap_or(text.len());
    let somewhere = start + rng.below((end - start).max(1));
    let line = behind_lf.first().copied().unwrap_or(end);
    let line = if rng.once_in(2) { line } else { start };
    match rng.below(12) {
        0 => text[somewhere] = rng.printable(),
        1 => text[somewhere] = rng.word() as u8,
        2 => text.insert(somewhere, rng.pick(b" 0-.\r\n\t")),
        3 => drop(text.remove(somewhere)),
        4 => text.truncate(rng.pick(&[somewhere, end, end.saturating_sub(1), end - 2])),
        // Blank lines, up to 80 columns and beyond, with a bad byte, or ending in CR LF.
        5 => drop(text.splice(
            line..line,
            [vec![b' '; rng.pick(&[80, 81, 0])], vec![b'\n']].concat(),
        )),
        6 => drop(
            text.splice(
                line..line,
                rng.pick(&[&b" \t\n"[..], b"\0\n", b" \r\r\n", b" \r\n"])
                    .to_vec(),
            ),
        ),
        // The block alone, from the text's start on.
        7 => {
            *text = text[start..end].to_vec();
            kept.positions[at] = 0;
        }
        8 | 9 => {
            // Another number in the opening line.
            let field = start + 2 + 6 * rng.below(5);
            let number = rng.pick(&[
                "  10.0", "  -9.9", "   0.0", " 450.0", "    .5", "   5.x", "      ",
            ]);
            if field + 6 <= text.len() {
                text[field..field + 6].copy_from_slice(number.as_bytes());
            }
        }
        10 => text[somewhere] = rng.pick(b" 0-.+9"),
        // Noise all round: only the block's own bytes are looked at.
        _ => {
            let noise = rng.word() as u8;
            text[..start].fill(noise);
            text[end..].fill(noise ^ 1);
        }
    }
}

/// The header, the marks or a length changed.
fn damage_index(rng: &mut Rng, kept: &mut Kept, set: &MapSet) {
    let maps = set.grid().maps;
    match rng.below(7) {
        0 => kept.marks[rng.below(maps)] = rng.pick(&[4, 5, 128, 255]),
        1 => kept.marks[rng.below(maps)] ^= rng.pick(&[1, 2, 3]),
        2 => drop(kept.positions.pop()),
        3 => drop(kept.exponents.pop()),
        4 => drop(kept.marks.pop()),
        which => {
            let mut changed = set.clone();
            match which {
                5 => damage::map_set(rng, &mut changed),
                _ => damage::description(rng, &mut changed),
            };
            kept.header = boundary::numbers_of(&changed.header).to_vec();
            kept.texts = boundary::bytes_of(&changed.texts).to_vec();
        }
    }
}

// ---- comparing ----

fn perform(library: &dyn Indexes, call: &mut Call) -> u64 {
    match call {
        Call::Make { text, lent, place } => library.index(text, lent, place),
        Call::Node {
            text,
            kept,
            node,
            found,
        } => library.indexed_node(text, kept, node, found),
        Call::Block {
            text,
            kept,
            node,
            bounds,
        } => library.indexed_block(text, kept, node, bounds),
    }
}

/// The first's answer to a call, and the difference if there is one.
fn compare_call(a: &dyn Indexes, b: &dyn Indexes, call: &Call) -> (u64, Option<String>) {
    let (mut left, mut right) = (call.clone(), call.clone());
    let first = perform(a, &mut left);
    let second = perform(b, &mut right);
    if (first, &left) == (second, &right) {
        return (first, None);
    }
    let found = match (&left, &right) {
        _ if first != second => run::answers(first, second),
        (
            Call::Make { lent, place, .. },
            Call::Make {
                lent: other,
                place: at,
                ..
            },
        ) => run::first([
            run::part("header", &lent.header, &other.header),
            run::part("texts", &lent.texts, &other.texts),
            run::part("positions", &lent.positions, &other.positions),
            run::part("exponents", &lent.exponents, &other.exponents),
            run::part("marks", &lent.marks, &other.marks),
            run::part("place", place, at),
        ]),
        (Call::Node { found, .. }, Call::Node { found: other, .. }) => {
            run::part("found", found, other)
        }
        (Call::Block { bounds, .. }, Call::Block { bounds: other, .. }) => {
            run::part("bounds", bounds, other)
        }
        _ => None,
    };
    let found = found.unwrap_or("what is given was changed".to_string());
    (first, Some(format!("{}: {found}", call.name())))
}

/// The answers that must have occurred often.
fn expected_often() -> Vec<String> {
    let asked = [0, 21, 22, 23, 31, 50, 101, 102, 103];
    [
        tally::answered("index", &[0, 6, 8, 11, 101, 102, 103]),
        tally::answered("indexed_node", &asked),
        tally::answered("indexed_block", &asked),
    ]
    .concat()
}

/// Every call of the seeds, by the second program and by another, and the other's indexes judged.
pub fn compare<L: Indexes + Boundary>(other: &L, count: u64, seed: u64) -> Tally {
    Comparison::over(count, seed, expected_often(), |comparison, seed| {
        for call in calls(seed) {
            let (answer, found) = compare_call(&Plain, other, &call);
            comparison.count(format!("{} answered {answer}", call.name()), 1);
            comparison.judge(seed, found, || {
                tally::leave_words(&format!("{seed}-index.txt"), &call)
            });
        }
        comparison.judge(seed, judge(other, seed), || ());
    })
}

// ---- an index as its text is read ----

/// "For an index made from that text, every node of a map that is present equals what the full reading gives", and the
/// block's lines have its values.
fn judge<L: Indexes + Boundary>(library: &L, seed: u64) -> Option<String> {
    let rng = &mut Rng::new(seed ^ 0x0001_cafe);
    let set = gen::map_set(rng);
    let text = gen::text(rng, &set);
    let (grid, needs) = (set.grid(), set.needs());
    let mut kept = Kept {
        header: vec![0; HEADER],
        texts: vec![0; TEXTS],
        positions: vec![0; needs[3]],
        exponents: vec![0; needs[3]],
        marks: vec![0; needs[5]],
    };
    if library.index(&text, &mut kept, &mut [0; 2]) != 0 {
        return Some("no index of a good text".to_string());
    }
    let mut lent = Lent {
        areas: rubbish(needs, 1),
        header: vec![0; HEADER],
        texts: vec![0; TEXTS],
        place: vec![0; 2],
    };
    library.read(&text, &mut lent);
    let areas = &lent.areas;
    if (&kept.header, &kept.texts) != (&lent.header, &lent.texts)
        || (&kept.exponents, &kept.marks) != (&areas.exponents, &areas.marks)
    {
        return Some("the index is not that of the reading".to_string());
    }
    for entry in 0..needs[3] {
        let (map, block) = (entry / grid.blocks(), entry % grid.blocks());
        let (kind, map) = (map / grid.maps, map % grid.maps);
        let present = kind == 0 || areas.marks[map] & kind as u8 != 0;
        if !present {
            if (kept.positions[entry], kept.exponents[entry]) != (0, -1) {
                return Some("an absent map has an entry".to_string());
            }
            continue;
        }
        let values = [&areas.tec, &areas.rms, &areas.height][kind];
        let first = (map * grid.blocks() + block) * grid.columns;
        let values = &values[first..first + grid.columns];
        let node = |column: usize| Node {
            kind: kind as u64,
            map: map as u64 + 1,
            layer: (block / grid.rows) as u64,
            row: (block % grid.rows) as u64,
            column: column as u64,
        };
        // Of wide blocks the columns at the ends.
        let columns = (0..grid.columns).filter(|k| *k < 40 || grid.columns - k < 3);
        for column in columns {
            let mut found = [0; 2];
            let answer = library.indexed_node(&text, &kept, &node(column), &mut found);
            if (answer, found) != (0, [values[column], areas.exponents[entry]]) {
                return Some(format!("{:?} is {answer}, {found:?}", node(column)));
            }
        }
        let mut bounds = [0; 2];
        let answer = library.indexed_block(&text, &kept, &node(0), &mut bounds);
        let [start, length] = bounds.map(|bound| bound as usize);
        if answer != 0 || !is_block(&text[start..start + length], values) {
            return Some(format!("not the lines of {:?}", node(0)));
        }
    }
    None
}

/// Whether these are the lines of a block with these values, by their words; no line end behind the last.
fn is_block(lines: &[u8], values: &[i32]) -> bool {
    let text = String::from_utf8_lossy(lines);
    let mut rows = text
        .split('\n')
        .map(|line| line.strip_suffix('\r').unwrap_or(line));
    let opening = rows.next().unwrap_or("");
    let mut numbers = Vec::new();
    for row in rows {
        let fields = row
            .as_bytes()
            .chunks(5)
            .map(|field| String::from_utf8_lossy(field));
        numbers.extend(fields.filter_map(|field| field.trim().parse::<i32>().ok()));
    }
    opening.contains("LAT/LON1/LON2/DLON/H") && numbers == values && !text.ends_with(['\r', '\n'])
}

#[cfg(test)]
mod tests {
    use super::*;

    #[test]
    fn what_a_block_is() {
        let block = b"  10.0 LAT/LON1/LON2/DLON/H\r\n\r\n    1-9999";
        assert!(is_block(block, &[1, -9999]));
        assert!(!is_block(block, &[1, 9999]));
        assert!(!is_block(&[block, &b"\n"[..]].concat(), &[1, -9999]));
        assert!(!is_block(&block[1..20], &[]));
    }

    #[test]
    fn indexes_of_the_second_program() {
        assert_eq!((1..100).find_map(|seed| judge(&Plain, seed)), None);
    }
}
