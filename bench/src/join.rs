//! Two map sets joined, plainly, with the library's checks: both sets judged, then the result copied.

use crate::ask::blocks;
use crate::plain::enough;
use crate::valid::{has_any, is_valid, maps_of, size};
use second::header::maps_fit;
use second::maps::{self, Kind, KINDS, NO_VALUE};
use second::{Areas, Given, Header, Refusal, Texts};

/// Joins two sets into the lent areas; a refusal leaves them as they were.
pub fn join(a: &Given, b: &Given, areas: &mut Areas) -> Result<(Header, Texts), Refusal> {
    let check = |good: bool, number: u8| good.then_some(()).ok_or(Refusal::Bare { number });
    check(is_valid(a) && is_valid(b), 31)?;
    check(same_grid(a.header, b.header), 40)?;
    check(a.header.last_epoch == b.header.first_epoch, 41)?;
    let mut header = *b.header;
    header.first_epoch = a.header.first_epoch;
    header.maps = a.header.maps + b.header.maps - 1;
    if a.header.interval != b.header.interval {
        header.interval = 0;
    }
    check(maps_fit(header.maps) && header.size_fits(), 42)?;
    hand_over(a, b, areas)?;
    Ok((header, *b.texts))
}

fn same_grid(a: &Header, b: &Header) -> bool {
    a.latitudes == b.latitudes
        && a.longitudes == b.longitudes
        && a.heights == b.heights
        && a.dimension == b.dimension
        && a.radius == b.radius
}

fn hand_over(a: &Given, b: &Given, areas: &mut Areas) -> Result<(), Refusal> {
    let (first, second) = (maps_of(a) - 1, maps_of(b));
    let maps = first + second;
    let (size, blocks) = (size(a), blocks(a.header));
    let any = |kind: Kind| {
        let marks = a.areas.marks[..first].iter();
        let mut marks = marks.chain(&b.areas.marks[..second]);
        marks.any(|&mark| maps::is_present(kind, mark))
    };
    let any = KINDS.map(any);
    let need = |kind: usize| if any[kind] { maps * size } else { 0 };
    let needs = [need(0), need(1), need(2), 3 * maps * blocks, maps, maps];
    let lengths = areas.view().lengths();
    enough(&std::array::from_fn::<_, 6, _>(|k| (lengths[k], needs[k])))?;
    let values = [&mut *areas.tec, &mut *areas.rms, &mut *areas.height];
    for (kind, area) in KINDS.into_iter().zip(values) {
        let k = kind as usize;
        let kept = if any[k] { first * size } else { 0 };
        let (front, back) = area[..needs[k]].split_at_mut(kept);
        copy_values(a, kind, front);
        copy_values(b, kind, back);
        let third = &mut areas.exponents[k * maps * blocks..(k + 1) * maps * blocks];
        let (front, back) = third.split_at_mut(first * blocks);
        let of = |set: &Given| k * maps_of(set) * blocks;
        front.copy_from_slice(&a.areas.exponents[of(a)..][..front.len()]);
        back.copy_from_slice(&b.areas.exponents[of(b)..][..back.len()]);
    }
    areas.epochs[..first].copy_from_slice(&a.areas.epochs[..first]);
    areas.epochs[first..maps].copy_from_slice(&b.areas.epochs[..second]);
    areas.marks[..first].copy_from_slice(&a.areas.marks[..first]);
    areas.marks[first..maps].copy_from_slice(&b.areas.marks[..second]);
    Ok(())
}

/// The values of the first maps; none where the set has no map of the kind.
fn copy_values(set: &Given, kind: Kind, area: &mut [i32]) {
    if has_any(set, kind) {
        area.copy_from_slice(&set.areas.values(kind)[..area.len()]);
    } else {
        area.fill(NO_VALUE);
    }
}
