//! 02, Ask 8: an index beside the text, and one node or block from the two.

use crate::header::{exponent_fits, Header, Texts};
use crate::labels::{self, Label};
use crate::lines;
use crate::maps::{self, Grid, KINDS};
use crate::read::{self, Reading};
use crate::refusal::Refusal;

/// "an index with each block's byte position and exponent", as it is lent to be
/// made: the entries as exponents of a map set stand, and the marks.
pub struct Entries<'a> {
    pub positions: &'a mut [u64],
    pub exponents: &'a mut [i32],
    pub marks: &'a mut [u8],
}

/// An index that is at hand. Nothing of it is trusted.
#[derive(Clone, Copy, Debug)]
pub struct Index<'a> {
    pub header: &'a Header,
    pub texts: &'a Texts,
    pub positions: &'a [u64],
    pub exponents: &'a [i32],
    pub marks: &'a [u8],
}

/// Which node is asked for. Maps count from 1, the others from 0.
#[derive(Clone, Copy, Debug, PartialEq, Eq)]
pub struct Node {
    pub kind: u64,
    pub map: u64,
    pub layer: u64,
    pub row: u64,
    pub column: u64,
}

/// "making the index refuses a text as the reader does, and gives 11 for an index
/// area too short": 1 positions, 2 exponents, 3 marks.
pub fn make_index(text: &[u8], entries: &mut Entries) -> Reading {
    let found = match read::placed(text) {
        Ok(found) => found,
        Err(refusal) => return Reading::Refused(refusal),
    };
    let areas = [
        (entries.positions.len(), found.positions.len()),
        (entries.exponents.len(), found.exponents.len()),
        (entries.marks.len(), found.marks.len()),
    ];
    for (area, (length, need)) in (1..).zip(areas) {
        if length < need {
            let need = need as u64;
            return Reading::Refused(Refusal::Area { area, need });
        }
    }
    read::copy(entries.positions, &found.positions);
    read::copy(entries.exponents, &found.exponents);
    read::copy(entries.marks, &found.marks);
    Reading::Accepted {
        header: found.header,
        texts: found.texts,
    }
}

/// "The answer is the number as written, 9999 included, with its exponent."
pub fn indexed_node(index: &Index, text: &[u8], node: &Node) -> Result<(i32, i32), Refusal> {
    let entry = entry(index, node)?;
    let block = block_at(index.header, text, &entry).ok_or(ASTRAY)?;
    Ok((block.values[node.column as usize], entry.exponent))
}

/// "the block's lines, opening line to last value line without its line end, as a
/// part of the lent text, empty on a refusal"
pub fn indexed_block<'t>(index: &Index, text: &'t [u8], node: &Node) -> &'t [u8] {
    let block = entry(index, node).map(|entry| block_at(index.header, text, &entry));
    match block {
        Ok(Some(block)) => block.lines,
        _ => &[],
    }
}

const ASTRAY: Refusal = Refusal::Bare { number: 50 };

/// An entry that is used, and the place (from 0) of its block in the map.
struct Entry {
    position: u64,
    exponent: i32,
    block: usize,
}

/// 23, 31, 21, 22, and 50 for the exponent.
fn entry(index: &Index, node: &Node) -> Result<Entry, Refusal> {
    let refuse = |number| Err(Refusal::Bare { number });
    let Some(&kind) = KINDS.iter().find(|&&kind| kind as u64 == node.kind) else {
        return refuse(23);
    };
    let Some(grid) = frame(index) else {
        return refuse(31);
    };
    let inside = (1..=grid.maps as u64).contains(&node.map)
        && node.layer < grid.layers as u64
        && node.row < grid.rows as u64
        && node.column < grid.columns as u64;
    if !inside {
        return refuse(21);
    }
    let map = node.map as usize - 1;
    if !maps::is_present(kind, index.marks[map]) {
        return refuse(22);
    }
    let block = node.layer as usize * grid.rows + node.row as usize;
    let place = grid.exponent_place(kind, map, block);
    let exponent = index.exponents[place];
    if !exponent_fits(i64::from(exponent)) {
        return Err(ASTRAY);
    }
    Ok(Entry {
        position: index.positions[place],
        exponent,
        block,
    })
}

/// "31 for an index without a valid header, length and marks"
fn frame(index: &Index) -> Option<Grid> {
    if !index.header.is_valid() || !index.texts.fit(index.header) {
        return None;
    }
    let grid = Grid::of(index.header);
    let blocks = KINDS.len() * grid.maps * grid.blocks();
    let long = index.positions.len() >= blocks && index.exponents.len() >= blocks;
    let marks = index.marks.get(..grid.maps)?;
    (long && marks.iter().all(|&mark| mark <= 3)).then_some(grid)
}

struct Block<'t> {
    values: Vec<i32>,
    lines: &'t [u8],
}

/// The block that opens at the entry's position, if one of that row and layer does:
/// "The bytes from the entry's position to that line's end alone decide". Every
/// value of it must be there and well-formed.
fn block_at<'t>(header: &Header, text: &'t [u8], entry: &Entry) -> Option<Block<'t>> {
    let grid = Grid::of(header);
    let rest = text.get(usize::try_from(entry.position).ok()?..)?;
    let mut lines = lines::placed(rest);
    let opening = lines::card(lines.next()?.1).ok()??;
    if labels::label_of(&opening) != Some(Label::Block) {
        return None;
    }
    let found = labels::numbers(Label::Block, &opening).ok()?;
    if read::other_block(header, &grid, entry.block, found).is_some() {
        return None;
    }
    let mut values = Vec::with_capacity(grid.columns);
    loop {
        let (at, line) = lines.next()?;
        // "A blank line is skipped everywhere, also inside a data block."
        let Some(card) = lines::card(line).ok()? else {
            continue;
        };
        values.extend(read::values(&card, grid.columns - values.len()).ok()?);
        if values.len() == grid.columns {
            let lines = &rest[..at + line.len()];
            return Some(Block { values, lines });
        }
    }
}
