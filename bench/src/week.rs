//! A map set added to a week, plainly: tallied a block at a time, its power of ten applied once.

use crate::ask::blocks;
use crate::plain::enough;
use crate::valid::{has, is_valid, maps_of, size};
use second::maps::{Kind, KINDS, NO_VALUE};
use second::week::{Figures, Week, ROW, SETS};
use second::{Given, Refusal};

/// Adds a set, and fills the front of `rows` with its own figures: 60, 31, 11.
pub fn add(week: &mut Week, set: &Given, rows: &mut [i64]) -> Result<(), Refusal> {
    let check = |good: bool, number: u8| good.then_some(()).ok_or(Refusal::Bare { number });
    check(week.sets < SETS, 60)?;
    let sane = week.kinds.iter().all(|kind| kind.can_be_of(week.sets));
    check(sane && is_valid(set), 31)?;
    let maps = maps_of(set);
    enough(&[(rows.len(), KINDS.len() * ROW * (maps + 1))])?;
    let mut rows = rows.chunks_exact_mut(ROW);
    for (kind, so_far) in KINDS.into_iter().zip(&mut week.kinds) {
        let mut all = Figures::default();
        for map in 0..maps {
            let figures = map_figures(set, kind, map);
            all = all.plus(&figures);
            put(rows.next(), &figures);
        }
        put(rows.next(), &all);
        *so_far = so_far.plus(&all);
    }
    week.sets += 1;
    Ok(())
}

fn put(place: Option<&mut [i64]>, figures: &Figures) {
    if let Some(place) = place {
        place.copy_from_slice(&figures.row().map(|number| number as i64));
    }
}

fn map_figures(set: &Given, kind: Kind, map: usize) -> Figures {
    let (blocks, size) = (blocks(set.header), size(set));
    if !has(set, kind, map) {
        return Figures {
            without: size as i128,
            ..Figures::default()
        };
    }
    let first = (kind as usize * maps_of(set) + map) * blocks;
    let exponents = &set.areas.exponents[first..first + blocks];
    let values = &set.areas.values(kind)[map * size..(map + 1) * size];
    let mut tally = Tally::default();
    for (&exponent, values) in exponents.iter().zip(values.chunks_exact(size / blocks)) {
        tally.take(values, 10i64.pow((exponent + 3) as u32));
    }
    tally.figures(size)
}

/// Of the blocks so far, in thousandths.
struct Tally {
    with: i64,
    smallest: i64,
    largest: i64,
    sum: i64,
}

impl Default for Tally {
    fn default() -> Tally {
        Tally {
            with: 0,
            smallest: i64::MAX,
            largest: i64::MIN,
            sum: 0,
        }
    }
}

impl Tally {
    /// A block of at most 721 values of at most 99,999, so that its sum has 32 bits.
    fn take(&mut self, values: &[i32], power: i64) {
        let (mut with, mut smallest, mut largest, mut sum) = (0, i32::MAX, i32::MIN, 0);
        for &value in values {
            let absent = value == NO_VALUE;
            with += i32::from(!absent);
            smallest = smallest.min(if absent { i32::MAX } else { value });
            largest = largest.max(if absent { i32::MIN } else { value });
            sum += if absent { 0 } else { value };
        }
        if with > 0 {
            self.with += i64::from(with);
            self.smallest = self.smallest.min(i64::from(smallest) * power);
            self.largest = self.largest.max(i64::from(largest) * power);
            self.sum += i64::from(sum) * power;
        }
    }

    fn figures(&self, size: usize) -> Figures {
        let range = (i128::from(self.smallest), i128::from(self.largest));
        Figures {
            with: i128::from(self.with),
            without: size as i128 - i128::from(self.with),
            range: (self.with > 0).then_some(range),
            sum: i128::from(self.sum),
        }
    }
}
