//! 02, Ask 11: two map sets joined, where the first's last epoch is the second's
//! first.

use crate::header::{Header, Texts};
use crate::maps::{self, Areas, Grid, Kind, View, FIRST_EXPONENT, KINDS, NO_VALUE};
use crate::refusal::Refusal;
use crate::write;

/// A map set as it is given: any header, any areas.
#[derive(Clone, Copy, Debug)]
pub struct Given<'a> {
    pub header: &'a Header,
    pub texts: &'a Texts,
    pub areas: View<'a>,
}

/// Joins the earlier set and the later into the lent areas. Refusals in the order
/// 31, 40, 41, 42, 11; each leaves the areas as they were.
pub fn join(earlier: &Given, later: &Given, areas: &mut Areas) -> Result<(Header, Texts), Refusal> {
    let valid = |set: &Given| write::map_set(set.header, set.texts, &set.areas);
    let (Some(first), Some(second)) = (valid(earlier), valid(later)) else {
        return refuse(31);
    };
    if !same_grid(earlier.header, later.header) {
        return refuse(40);
    }
    if earlier.header.last_epoch != later.header.first_epoch {
        return refuse(41);
    }
    let header = joined_header(earlier.header, later.header);
    if header.maps > 300 || !header.size_fits() {
        return refuse(42);
    }
    // "The shared map comes once, from the later set."
    let from_first = (0..first.maps - 1).map(|map| (Source(earlier, first), map));
    let from_second = (0..second.maps).map(|map| (Source(later, second), map));
    let joined = Joined {
        grid: Grid::of(&header),
        maps: from_first.chain(from_second).collect(),
    };
    joined.hand_over(areas)?;
    Ok((header, *later.texts))
}

fn refuse<T>(number: u8) -> Result<T, Refusal> {
    Err(Refusal::Bare { number })
}

/// "equal grids, dimension, heights and base radius"
fn same_grid(a: &Header, b: &Header) -> bool {
    a.latitudes == b.latitudes
        && a.longitudes == b.longitudes
        && a.dimension == b.dimension
        && a.heights == b.heights
        && a.radius == b.radius
}

/// "The header is the later set's, with the earlier first epoch and the new n;
/// INTERVAL is kept when both are equal and otherwise 0."
fn joined_header(earlier: &Header, later: &Header) -> Header {
    let interval = if earlier.interval == later.interval {
        later.interval
    } else {
        0
    };
    Header {
        first_epoch: earlier.first_epoch,
        maps: earlier.maps + later.maps - 1,
        interval,
        ..*later
    }
}

/// One of the two sets, with its own grid.
#[derive(Clone, Copy)]
struct Source<'a>(&'a Given<'a>, Grid);

impl Source<'_> {
    fn mark(&self, map: usize) -> u8 {
        self.0.areas.marks[map]
    }

    /// "An absent RMS or height map reads as 9999 everywhere with exponent -1."
    fn values(&self, kind: Kind, map: usize) -> Vec<i32> {
        let size = self.1.values();
        if !maps::is_present(kind, self.mark(map)) {
            return vec![NO_VALUE; size];
        }
        let start = self.1.value_place(map, 0);
        self.0.areas.values(kind)[start..start + size].to_vec()
    }

    fn exponents(&self, kind: Kind, map: usize) -> Vec<i32> {
        let size = self.1.blocks();
        if !maps::is_present(kind, self.mark(map)) {
            return vec![FIRST_EXPONENT; size];
        }
        let start = self.1.exponent_place(kind, map, 0);
        self.0.areas.exponents[start..start + size].to_vec()
    }
}

/// The maps of the result in order, each with the set that it comes from.
struct Joined<'a> {
    grid: Grid,
    maps: Vec<(Source<'a>, usize)>,
}

impl Joined<'_> {
    fn hand_over(&self, areas: &mut Areas) -> Result<(), Refusal> {
        let marks: Vec<u8> = self.maps.iter().map(|(set, map)| set.mark(*map)).collect();
        let needs = self.grid.needs(&marks);
        let lengths = areas.view().lengths();
        if let Some(short) = (0..6).find(|&k| lengths[k] < needs[k]) {
            return Err(Refusal::Area {
                area: short as u8 + 1,
                need: needs[short] as u64,
            });
        }
        for (at, (set, map)) in self.maps.iter().enumerate() {
            areas.epochs[at] = set.0.areas.epochs[*map];
            areas.marks[at] = set.mark(*map);
            for kind in KINDS {
                let start = self.grid.exponent_place(kind, at, 0);
                put(areas.exponents, start, &set.exponents(kind, *map));
                // "A kind with no map needs no value area."
                if needs[kind as usize] > 0 {
                    let area = match kind {
                        Kind::Tec => &mut *areas.tec,
                        Kind::Rms => &mut *areas.rms,
                        Kind::Height => &mut *areas.height,
                    };
                    put(area, self.grid.value_place(at, 0), &set.values(kind, *map));
                }
            }
        }
        Ok(())
    }
}

fn put(area: &mut [i32], start: usize, from: &[i32]) {
    area[start..start + from.len()].copy_from_slice(from);
}
