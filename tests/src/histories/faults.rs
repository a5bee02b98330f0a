//! Planted faults of a day: readers that let a refused text, or one that is no longer in force, reach an answer.

use super::{day, judge};
use crate::boundary::{Boundary, Lent, Plain};
use crate::tally;

listed! {
    /// One thing wrong with texts read one after the other.
    pub enum Fault {
        /// The accident: values are stored before the text is judged to its end.
        StoredHalfway,
        /// The header, the texts, the marks or the epochs told though the text is refused.
        HeaderWhenRefused,
        TextsWhenRefused,
        MarksWhenRefused,
        EpochsWhenRefused,
        /// A text that ends too early taken for the one before it.
        CutTaken,
        /// Of an accepted text something is left as the text before it had it.
        FirstStays,
        MarksAdded,
        ExponentsLeft,
        EpochsLeft,
        DescriptionsLeft,
        IntervalLeft,
    }
}

/// The seed and the difference at which the comparison finds a fault, within `count` seeds.
pub fn find(fault: Fault, count: u64, seed: u64) -> Option<(u64, String)> {
    let read = |text: &[u8], lent: &mut Lent| wrong(fault, text, lent);
    tally::first(count, seed, |seed| judge(&read, &Plain, &day(seed)).0)
}

/// The second program's reading with one thing wrong.
fn wrong(fault: Fault, text: &[u8], lent: &mut Lent) -> u64 {
    let before = lent.clone();
    let number = Plain.read(text, lent);
    match number {
        0 => accepted(fault, &before, lent),
        10 if fault == Fault::CutTaken => return 0,
        1..=10 => refused(fault, lent),
        _ => {}
    }
    number
}

fn refused(fault: Fault, lent: &mut Lent) {
    match fault {
        Fault::StoredHalfway => lent
            .areas
            .tec
            .iter_mut()
            .take(3)
            .for_each(|value| *value = 9),
        Fault::HeaderWhenRefused => lent.header[3] = lent.header[3].wrapping_add(1),
        Fault::TextsWhenRefused => lent.texts[0] = lent.texts[0].wrapping_add(1),
        Fault::MarksWhenRefused => lent.areas.marks.iter_mut().for_each(|mark| *mark = 0),
        Fault::EpochsWhenRefused => lent.areas.epochs.iter_mut().for_each(|epoch| *epoch ^= 1),
        _ => {}
    }
}

fn accepted(fault: Fault, before: &Lent, lent: &mut Lent) {
    match fault {
        // What stands there in the morning is no number of maps.
        Fault::FirstStays if before.header[6].unsigned_abs() <= 300 => *lent = before.clone(),
        Fault::MarksAdded => {
            let pairs = lent.areas.marks.iter_mut().zip(&before.areas.marks);
            pairs.for_each(|(mark, old)| *mark |= *old & 3);
        }
        Fault::ExponentsLeft => lent.areas.exponents = before.areas.exponents.clone(),
        Fault::EpochsLeft => lent.areas.epochs = before.areas.epochs.clone(),
        Fault::DescriptionsLeft => {
            lent.texts[124..].copy_from_slice(&before.texts[124..]);
        }
        Fault::IntervalLeft => lent.header[5] = before.header[5],
        _ => {}
    }
}
