//! Whether a map set is one that some text has, plainly; no branch for a value.

use crate::ask::{blocks, fits};
use second::maps::{self, Kind, FIRST_EXPONENT, KINDS, NO_VALUE};
use second::Given;

pub fn maps_of(set: &Given) -> usize {
    set.header.maps as usize
}

/// Values of one map.
pub fn size(set: &Given) -> usize {
    blocks(set.header) * set.header.longitudes.count() as usize
}

pub fn has(set: &Given, kind: Kind, map: usize) -> bool {
    maps::is_present(kind, set.areas.marks[map])
}

pub fn has_any(set: &Given, kind: Kind) -> bool {
    (0..maps_of(set)).any(|map| has(set, kind, map))
}

pub fn is_valid(set: &Given) -> bool {
    fits(set) && KINDS.into_iter().all(|kind| kind_is_valid(set, kind))
}

fn kind_is_valid(set: &Given, kind: Kind) -> bool {
    let (maps, blocks, size) = (maps_of(set), blocks(set.header), size(set));
    let any = has_any(set, kind);
    let exponents = &set.areas.exponents[kind as usize * maps * blocks..];
    (0..maps).all(|map| {
        let exponents = &exponents[map * blocks..(map + 1) * blocks];
        let values = match any {
            true => &set.areas.values(kind)[map * size..(map + 1) * size],
            false => &[],
        };
        match has(set, kind, map) {
            true => all_between(exponents, -3, 0) && all_between(values, -9999, 99_999),
            false => {
                all_between(exponents, FIRST_EXPONENT, FIRST_EXPONENT)
                    && all_between(values, NO_VALUE, NO_VALUE)
            }
        }
    })
}

fn all_between(numbers: &[i32], low: i32, high: i32) -> bool {
    let span = (high - low) as u32;
    let outside = |number: i32| u32::from(number.wrapping_sub(low) as u32 > span);
    numbers.iter().fold(0, |any, &number| any | outside(number)) == 0
}
