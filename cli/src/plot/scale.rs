//! The colour scale and its ticks. Values are in thousandths.

use super::picture::Colour;
use crate::numbers;

/// From the smallest to the largest, at equal distances: dark to light, and told apart without colours too.
const STOPS: [Colour; 9] = [
    [68, 1, 84],
    [71, 44, 122],
    [59, 81, 139],
    [44, 113, 142],
    [33, 144, 141],
    [39, 173, 129],
    [92, 200, 99],
    [170, 220, 50],
    [253, 231, 37],
];

/// How many colours there are.
pub const SHADES: i64 = 160;

/// The values of the two ends, and the step from tick to tick.
#[derive(Clone, Copy, Debug, PartialEq, Eq)]
pub struct Scale {
    pub low: i64,
    pub high: i64,
    pub step: i64,
}

/// What the scale goes round.
#[derive(Clone, Copy, Debug, PartialEq, Eq)]
pub enum Range {
    /// The values of the map itself.
    Own,
    /// From the one value to the other, so that several maps have one scale.
    Shared(i32, i32),
    /// From 0 to a value that was asked for.
    UpTo(i64),
}

impl Range {
    pub fn scale(self, values: &[Option<i32>], ticks: i64) -> Scale {
        match self {
            Range::Own => Scale::around(values.iter().flatten().copied(), ticks),
            Range::Shared(low, high) => Scale::around([low, high].into_iter(), ticks),
            Range::UpTo(most) => Scale::up_to(most, ticks),
        }
    }
}

impl Scale {
    /// A scale around these values with about `ticks` ticks.
    pub fn around(values: impl Iterator<Item = i32>, ticks: i64) -> Scale {
        let (mut low, mut high) = (i64::MAX, i64::MIN);
        for value in values.map(i64::from) {
            low = low.min(value);
            high = high.max(value);
        }
        if low > high {
            (low, high) = (0, 1000);
        }
        if low == high {
            (low, high) = (low - 1000, high + 1000);
        }
        let step = nice((high - low).max(1) / ticks.max(1));
        let low = low.div_euclid(step) * step;
        let high = (high + step - 1).div_euclid(step) * step;
        Scale {
            low,
            high: high.max(low + step),
            step,
        }
    }

    /// A scale from 0 to a value, with about `ticks` ticks.
    pub fn up_to(most: i64, ticks: i64) -> Scale {
        Scale {
            low: 0,
            high: most,
            step: nice(most.max(1) / ticks.max(1)),
        }
    }

    /// The shade of a value, 0 to `SHADES` - 1.
    pub fn shade(&self, value: i64) -> i64 {
        let place = (value - self.low) * SHADES / (self.high - self.low);
        place.clamp(0, SHADES - 1)
    }

    pub fn ticks(&self) -> impl Iterator<Item = i64> {
        (self.low..=self.high).step_by(self.step.max(1) as usize)
    }

    /// A tick with as many decimals as the step asks for.
    pub fn label(&self, tick: i64) -> String {
        let words = numbers::thousandths(tick as i32);
        let decimals = (1..=3)
            .rev()
            .find(|&digits| self.step % 10i64.pow(4 - digits) != 0);
        match decimals {
            Some(digits) => words[..words.len() - 3 + digits as usize].to_string(),
            None => words[..words.len() - 4].to_string(),
        }
    }
}

/// The smallest of 1, 2, 5, 10, 20, 50 … that is not below this.
fn nice(least: i64) -> i64 {
    let mut power = 1;
    loop {
        for digit in [1, 2, 5] {
            if digit * power >= least {
                return digit * power;
            }
        }
        power *= 10;
    }
}

pub fn shade_colour(shade: i64) -> Colour {
    let parts = (STOPS.len() - 1) as i64;
    let place = shade * parts;
    let (stop, rest) = ((place / (SHADES - 1)).min(parts - 1), place % (SHADES - 1));
    let rest = if place == parts * (SHADES - 1) {
        SHADES - 1
    } else {
        rest
    };
    let (from, to) = (STOPS[stop as usize], STOPS[stop as usize + 1]);
    std::array::from_fn(|part| {
        let (from, to) = (i64::from(from[part]), i64::from(to[part]));
        (from + (to - from) * rest / (SHADES - 1)) as u8
    })
}

#[cfg(test)]
mod tests {
    use super::*;

    #[test]
    fn ends_and_ticks() {
        let scale = Scale::around([4_300, 61_200].into_iter(), 6);
        assert_eq!(
            scale,
            Scale {
                low: 0,
                high: 70_000,
                step: 10_000
            }
        );
        assert_eq!(
            scale
                .ticks()
                .map(|tick| scale.label(tick))
                .collect::<Vec<_>>()
                .join(" "),
            "0 10 20 30 40 50 60 70"
        );
        let scale = Scale::around([-400, 500].into_iter(), 6);
        assert_eq!(
            scale,
            Scale {
                low: -400,
                high: 600,
                step: 200
            }
        );
        assert_eq!(scale.label(-400), "-0.4");
        let scale = Scale::around([100_000, 100_000].into_iter(), 6);
        assert_eq!((scale.low, scale.high), (99_000, 101_000));
        assert_eq!(scale.label(99_500), "99.5");
        assert_eq!(Scale::around(std::iter::empty(), 6).high, 1000);
    }

    #[test]
    fn a_fixed_end() {
        let scale = Scale::up_to(75_000, 6);
        let ticks: Vec<String> = scale.ticks().map(|tick| scale.label(tick)).collect();
        assert_eq!(ticks.join(" "), "0 20 40 60");
        assert_eq!(scale.shade(75_000), SHADES - 1);
        assert_eq!([scale.shade(80_000), scale.shade(-1)], [SHADES - 1, 0]);
    }

    #[test]
    fn shades_go_from_dark_to_light() {
        assert_eq!(shade_colour(0), STOPS[0]);
        assert_eq!(shade_colour(SHADES - 1), STOPS[8]);
        let scale = Scale {
            low: 0,
            high: 100,
            step: 10,
        };
        assert_eq!(
            (scale.shade(0), scale.shade(100), scale.shade(50)),
            (0, SHADES - 1, SHADES / 2)
        );
    }
}
