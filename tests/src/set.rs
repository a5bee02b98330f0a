//! Map sets with areas of their own.

use crate::rng::Rng;
use second::maps::Grid;
use second::{Axis, Buffers, Given, Header, Texts};

/// Areas of the given lengths, filled with seeded rubbish.
pub fn rubbish(lengths: [usize; 6], seed: u64) -> Buffers {
    let mut rng = Rng::new(seed);
    let mut words = |count: usize| (0..count).map(|_| rng.word() as i32).collect();
    Buffers {
        tec: words(lengths[0]),
        rms: words(lengths[1]),
        height: words(lengths[2]),
        exponents: words(lengths[3]),
        epochs: (0..lengths[4]).map(|_| rng.word()).collect(),
        marks: (0..lengths[5]).map(|_| rng.word() as u8).collect(),
    }
}

/// These areas with the front of each taken from `front`.
pub fn overlaid(back: &Buffers, front: &Buffers) -> Buffers {
    fn over<T: Copy>(back: &[T], front: &[T]) -> Vec<T> {
        let mut all = front.to_vec();
        all.extend(back.iter().skip(front.len()).copied());
        all
    }
    Buffers {
        tec: over(&back.tec, &front.tec),
        rms: over(&back.rms, &front.rms),
        height: over(&back.height, &front.height),
        exponents: over(&back.exponents, &front.exponents),
        epochs: over(&back.epochs, &front.epochs),
        marks: over(&back.marks, &front.marks),
    }
}

/// The front of each area, cut to the needs.
fn cut(areas: &Buffers, needs: [usize; 6]) -> Buffers {
    Buffers {
        tec: areas.tec[..needs[0]].to_vec(),
        rms: areas.rms[..needs[1]].to_vec(),
        height: areas.height[..needs[2]].to_vec(),
        exponents: areas.exponents[..needs[3]].to_vec(),
        epochs: areas.epochs[..needs[4]].to_vec(),
        marks: areas.marks[..needs[5]].to_vec(),
    }
}

/// A header record, its texts and the areas.
#[derive(Clone, Debug, PartialEq, Eq)]
pub struct MapSet {
    pub header: Header,
    pub texts: Texts,
    pub areas: Buffers,
}

impl MapSet {
    pub fn grid(&self) -> Grid {
        Grid::of(&self.header)
    }

    /// As the second program is given it.
    pub fn given(&self) -> Given<'_> {
        Given {
            header: &self.header,
            texts: &self.texts,
            areas: self.areas.view(),
        }
    }

    pub fn needs(&self) -> [usize; 6] {
        self.grid().needs(&self.areas.marks)
    }

    /// Whether a longitude in hundredths is beyond the last column, and a step behind that is the first again.
    pub fn in_strip(&self, longitude: i64) -> bool {
        let Axis { first, last, step } = self.header.longitudes;
        let from_first = (longitude - 10 * first).rem_euclid(36_000);
        last + step == first + 3600 && from_first > 10 * (last - first)
    }

    /// The set up to each need.
    pub fn cut(&self) -> MapSet {
        MapSet {
            areas: cut(&self.areas, self.needs()),
            ..self.clone()
        }
    }
}
