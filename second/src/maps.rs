//! The grid, the lent areas and what of the maps reading, writing and asking
//! have in common.

use crate::header::{Header, Texts};

/// "Kind 0 TEC, 1 RMS, 2 height map values".
#[derive(Clone, Copy, Debug, PartialEq, Eq)]
pub enum Kind {
    Tec,
    Rms,
    Height,
}

pub const KINDS: [Kind; 3] = [Kind::Tec, Kind::Rms, Kind::Height];

/// "Non-available TEC values are written as '9999'" (001).
pub const NO_VALUE: i32 = 9999;

/// The exponent that a text starts with, and that of absent maps.
pub const FIRST_EXPONENT: i32 = -1;

/// What I5 can hold.
pub fn value_fits(value: i32) -> bool {
    (-9999..=99_999).contains(&value)
}

/// "marks (one byte per map: 1 RMS, 2 height, 3 both, 0 neither)"
pub fn is_present(kind: Kind, mark: u8) -> bool {
    match kind {
        Kind::Tec => true,
        Kind::Rms => mark & 1 != 0,
        Kind::Height => mark & 2 != 0,
    }
}

/// The mark that a map of a kind gives.
pub fn mark_of(kind: Kind) -> u8 {
    match kind {
        Kind::Tec => 0,
        Kind::Rms => 1,
        Kind::Height => 2,
    }
}

/// Numbers of maps, layers, rows and columns.
#[derive(Clone, Copy, Debug, PartialEq, Eq)]
pub struct Grid {
    pub maps: usize,
    pub layers: usize,
    pub rows: usize,
    pub columns: usize,
}

impl Grid {
    /// The grid of a header whose axes have no fault.
    pub fn of(header: &Header) -> Grid {
        Grid {
            maps: header.maps as usize,
            layers: header.heights.count() as usize,
            rows: header.latitudes.count() as usize,
            columns: header.longitudes.count() as usize,
        }
    }

    /// Blocks of one map.
    pub fn blocks(&self) -> usize {
        self.layers * self.rows
    }

    /// Values of one map.
    pub fn values(&self) -> usize {
        self.blocks() * self.columns
    }

    /// Elements needed of the six areas. "A kind with no map needs no value area."
    pub fn needs(&self, marks: &[u8]) -> [usize; 6] {
        let values = |kind| {
            if marks[..self.maps].iter().any(|&m| is_present(kind, m)) {
                self.maps * self.values()
            } else {
                0
            }
        };
        [
            values(Kind::Tec),
            values(Kind::Rms),
            values(Kind::Height),
            3 * self.maps * self.blocks(),
            self.maps,
            self.maps,
        ]
    }

    /// The place of a block's exponent: "the three kinds one after the other".
    pub fn exponent_place(&self, kind: Kind, map: usize, block: usize) -> usize {
        (kind as usize * self.maps + map) * self.blocks() + block
    }

    /// The place of a block's first value in its kind's area.
    pub fn value_place(&self, map: usize, block: usize) -> usize {
        (map * self.blocks() + block) * self.columns
    }
}

/// The six areas lent to the reader.
pub struct Areas<'a> {
    pub tec: &'a mut [i32],
    pub rms: &'a mut [i32],
    pub height: &'a mut [i32],
    pub exponents: &'a mut [i32],
    pub epochs: &'a mut [u64],
    pub marks: &'a mut [u8],
}

impl Areas<'_> {
    pub fn view(&self) -> View<'_> {
        View {
            tec: self.tec,
            rms: self.rms,
            height: self.height,
            exponents: self.exponents,
            epochs: self.epochs,
            marks: self.marks,
        }
    }
}

/// The six areas lent to the writer and the asker.
#[derive(Clone, Copy, Debug)]
pub struct View<'a> {
    pub tec: &'a [i32],
    pub rms: &'a [i32],
    pub height: &'a [i32],
    pub exponents: &'a [i32],
    pub epochs: &'a [u64],
    pub marks: &'a [u8],
}

impl<'a> View<'a> {
    pub fn values(&self, kind: Kind) -> &'a [i32] {
        match kind {
            Kind::Tec => self.tec,
            Kind::Rms => self.rms,
            Kind::Height => self.height,
        }
    }

    pub fn lengths(&self) -> [usize; 6] {
        [
            self.tec.len(),
            self.rms.len(),
            self.height.len(),
            self.exponents.len(),
            self.epochs.len(),
            self.marks.len(),
        ]
    }
}

/// Six areas of one's own.
#[derive(Clone, Debug, Default, PartialEq, Eq)]
pub struct Buffers {
    pub tec: Vec<i32>,
    pub rms: Vec<i32>,
    pub height: Vec<i32>,
    pub exponents: Vec<i32>,
    pub epochs: Vec<u64>,
    pub marks: Vec<u8>,
}

impl Buffers {
    pub fn lent(&mut self) -> Areas<'_> {
        Areas {
            tec: &mut self.tec,
            rms: &mut self.rms,
            height: &mut self.height,
            exponents: &mut self.exponents,
            epochs: &mut self.epochs,
            marks: &mut self.marks,
        }
    }

    pub fn view(&self) -> View<'_> {
        View {
            tec: &self.tec,
            rms: &self.rms,
            height: &self.height,
            exponents: &self.exponents,
            epochs: &self.epochs,
            marks: &self.marks,
        }
    }

    pub fn lengths(&self) -> [usize; 6] {
        self.view().lengths()
    }
}

/// Whether the TEC map of a place (from 0) may have this epoch. "The first epoch
/// is the header's first, the n-th its last. Each is later than the one before by
/// 1 to 21,600 s, and by exactly INTERVAL unless that is 0."
pub fn epoch_agrees(header: &Header, map: usize, before: Option<u64>, epoch: u64) -> bool {
    let first = map > 0 || epoch == header.first_epoch;
    let last = map + 1 < header.maps as usize || epoch == header.last_epoch;
    let step = match before {
        None => true,
        Some(before) => match epoch.checked_sub(before) {
            None => false,
            Some(gap) => {
                (1..=21_600).contains(&gap)
                    && (header.interval == 0 || gap == header.interval as u64)
            }
        },
    };
    first && last && step
}

/// The part of a map set that writing and asking judge alike: "header, area
/// lengths, epochs, a mark above 3". Gives the grid of a good one.
pub fn frame(header: &Header, texts: &Texts, areas: &View) -> Option<Grid> {
    if !header.is_valid() || !texts.fit(header) {
        return None;
    }
    let grid = Grid::of(header);
    if areas.marks.len() < grid.maps || areas.marks[..grid.maps].iter().any(|&m| m > 3) {
        return None;
    }
    let needs = grid.needs(areas.marks);
    let lengths = areas.lengths();
    if (0..6).any(|k| lengths[k] < needs[k]) {
        return None;
    }
    let mut before = None;
    for map in 0..grid.maps {
        let epoch = areas.epochs[map];
        if !epoch_agrees(header, map, before, epoch) {
            return None;
        }
        before = Some(epoch);
    }
    Some(grid)
}
