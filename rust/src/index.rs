//! An index beside a text: one node or one block, without areas for the whole grid.

use crate::ffi;
use crate::header::{Header, HEADER, TEXTS};
use crate::refusal::{Refusal, INDEX_AREAS};
use crate::value::{Kind, Written};

/// An index as the archive holds it: 45 numbers, 1,324 bytes of texts, and three areas. Any numbers and any lengths may stand
/// here.
#[derive(Clone, Debug, PartialEq, Eq)]
pub struct IndexAreas {
    /// The header's numbers.
    pub header: [i64; HEADER],
    /// The header's texts.
    pub texts: [u8; TEXTS],
    /// Where each block's opening line starts in the text, block by block as the exponents of a map set; 0 of an absent map.
    pub positions: Vec<u64>,
    /// The exponent that each block stands under; -1 of an absent map.
    pub exponents: Vec<i32>,
    /// As those of a map set: 1 and 2 say which of RMS and height maps stand.
    pub marks: Vec<u8>,
}

impl IndexAreas {
    /// Areas enough for the index of every accepted text of this length: the opening line of a row takes eighty bytes.
    fn with_room_for(text: &[u8]) -> IndexAreas {
        let entries = 3 * (text.len() / 80).min(2_000_000);
        IndexAreas {
            header: [0; HEADER],
            texts: [b' '; TEXTS],
            positions: vec![0; entries],
            exponents: vec![0; entries],
            marks: vec![0; 300],
        }
    }

    fn lent(&mut self) -> ffi::LentIndex<'_> {
        ffi::LentIndex {
            positions: &mut self.positions,
            exponents: &mut self.exponents,
            marks: &mut self.marks,
            header: &mut self.header,
            texts: &mut self.texts,
        }
    }

    fn given(&self) -> ffi::GivenIndex<'_> {
        ffi::GivenIndex {
            header: &self.header,
            texts: &self.texts,
            positions: &self.positions,
            exponents: &self.exponents,
            marks: &self.marks,
        }
    }

    /// Gives back what the index of an accepted text does not need.
    fn cut_to(&mut self, entries: usize, maps: usize) {
        self.positions.truncate(entries);
        self.positions.shrink_to_fit();
        self.exponents.truncate(entries);
        self.exponents.shrink_to_fit();
        self.marks.truncate(maps);
        self.marks.shrink_to_fit();
    }
}

/// An index: header and texts of a text, which maps stand, and for each block where it stands in the text and its exponent.
/// Beside the text it answers for one node by looking at one block.
///
/// ```
/// use ionex::{Index, Kind, Written};
///
/// // Two TEC maps of two rows and three columns.
/// let text = std::fs::read("../tests/examples/accepted-canonical.inx")?;
/// let index = Index::make(&text)?;
/// // Map 2, layer 0, row 1, column 2: maps are counted from 1, as texts number them.
/// assert_eq!(index.node(&text, Kind::Tec, 2, 0, 1, 2)?, Written { number: 16, exponent: -1 });
/// let lines = index.block(&text, Kind::Tec, 2, 0, 1, 2).unwrap();
/// assert!(lines.ends_with(b"LAT/LON1/LON2/DLON/H\n   14   15   16"));
///
/// // Of another text.
/// let other = std::fs::read("../tests/examples/accepted-3d.inx")?;
/// assert_eq!(index.node(&other, Kind::Tec, 2, 0, 1, 2).unwrap_err().number(), 50);
/// # Ok::<(), Box<dyn std::error::Error>>(())
/// ```
#[derive(Clone, Debug, PartialEq, Eq)]
pub struct Index {
    areas: IndexAreas,
    header: Header,
}

impl Index {
    /// The index of a text; refused exactly where [`crate::MapSet::read`] refuses it.
    pub fn make(text: &[u8]) -> Result<Index, Refusal> {
        let mut areas = IndexAreas::with_room_for(text);
        let mut place = [0; 2];
        let number = ffi::index(text, areas.lent(), &mut place);
        if number != 0 {
            return Err(Refusal::of_reading(number, place, &INDEX_AREAS));
        }
        let mut index = Index::from_areas(areas);
        let (entries, maps) = (index.entries(), index.header.maps);
        index.areas.cut_to(entries, maps);
        Ok(index)
    }

    /// The number of a node as the text writes it, 9999 included, and its exponent. Maps are counted from 1, as texts number
    /// them; layers, rows and columns from 0.
    ///
    /// Refusals in this order: 31 where header, lengths or marks of the index are not valid, which can only be one of
    /// [`Index::from_areas`]; 21 where there is no such map, layer, row or column; 22 where the map is absent; 50 where no
    /// well-formed block of that row and layer stands at the entry's position, or the entry's exponent is none. The number is
    /// the text's and the exponent the index's: another text whose blocks stand at the same bytes is answered too.
    pub fn node(
        &self,
        text: &[u8],
        kind: Kind,
        map: u64,
        layer: u64,
        row: u64,
        column: u64,
    ) -> Result<Written, Refusal> {
        let node = node(kind, map, layer, row, column);
        let mut value = [0; 2];
        match ffi::indexed_node(text, self.areas.given(), node, &mut value) {
            0 => Ok(Written {
                number: value[0],
                exponent: value[1],
            }),
            number => Err(Refusal::plain(number)),
        }
    }

    /// The lines of a node's block as they stand in the text, from the opening line to the last value line without its line
    /// end; nothing where [`Index::node`] refuses.
    pub fn block<'a>(
        &self,
        text: &'a [u8],
        kind: Kind,
        map: u64,
        layer: u64,
        row: u64,
        column: u64,
    ) -> Option<&'a [u8]> {
        let node = node(kind, map, layer, row, column);
        let mut bounds = [0; 2];
        if ffi::indexed_block(text, self.areas.given(), node, &mut bounds) != 0 {
            return None;
        }
        let [start, length] = bounds.map(|bound| bound as usize);
        text.get(start..start.checked_add(length)?)
    }

    /// The header's numbers by name.
    pub fn header(&self) -> &Header {
        &self.header
    }

    /// The numbers and areas as the archive holds them.
    pub fn as_areas(&self) -> &IndexAreas {
        &self.areas
    }

    /// As [`Index::as_areas`], handed over.
    pub fn into_areas(self) -> IndexAreas {
        self.areas
    }

    /// An index of any numbers. Whether it is a valid one (31) and fits a text (50) is told when it is asked.
    pub fn from_areas(areas: IndexAreas) -> Index {
        let header = Header::of(&areas.header);
        Index { areas, header }
    }

    /// The blocks of three kinds, in all maps.
    fn entries(&self) -> usize {
        let header = &self.header;
        [header.heights.nodes(), header.latitudes.nodes(), 3]
            .into_iter()
            .fold(header.maps, usize::saturating_mul)
    }
}

/// A node in the archive's numbers.
fn node(kind: Kind, map: u64, layer: u64, row: u64, column: u64) -> ffi::Node {
    ffi::Node {
        kind: kind as u64,
        map,
        layer,
        row,
        column,
    }
}
