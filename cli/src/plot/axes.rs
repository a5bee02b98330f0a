//! Degrees and pixels: where a node's cell lies, and which lines the graticule has.

use crate::numbers::tenths;
use ionex::Axis;

/// The degrees, in hundredths, that one side of the map covers, and the pixels they are drawn on.
#[derive(Clone, Copy, Debug)]
pub struct Side {
    pub low: i64,
    pub high: i64,
    pub start: i32,
    pub pixels: i32,
}

/// Where the cells of an axis end: half a step beyond the outer nodes, but not beyond `limits` and not more than a turn.
pub fn extent(axis: &Axis, limits: Option<(i64, i64)>) -> (i64, i64) {
    let half = 5 * axis.step.abs();
    let (low, high) = (
        10 * axis.first.min(axis.last),
        10 * axis.first.max(axis.last),
    );
    match limits {
        Some((least, most)) => ((low - half).max(least), (high + half).min(most)),
        None if high - low == 36_000 => (low, high),
        None => (low - half, high + half),
    }
}

impl Side {
    /// Whether a place, in hundredths of a degree, lies on it.
    pub fn holds(&self, place: i64) -> bool {
        (self.low..=self.high).contains(&place)
    }

    /// The pixel of a place, in hundredths of a degree, counted from the low end.
    fn pixel(&self, place: i64) -> i32 {
        let span = (self.high - self.low).max(1);
        let along = (place.clamp(self.low, self.high) - self.low) * i64::from(self.pixels);
        self.start + ((2 * along + span) / (2 * span)) as i32
    }

    /// Eastward.
    pub fn x(&self, place: i64) -> i32 {
        self.pixel(place)
    }

    /// Downward: the high end is above.
    pub fn y(&self, place: i64) -> i32 {
        2 * self.start + self.pixels - self.pixel(place)
    }

    /// The lines of the graticule, at least so many pixels apart, in tenths of a degree.
    pub fn lines(&self, apart: i64) -> Vec<i64> {
        let span = self.high - self.low;
        let fits = |step: &&i64| **step * 10 * i64::from(self.pixels) >= apart * span;
        let step = *STEPS.iter().find(fits).unwrap_or(&900);
        let first = self.low.div_euclid(10 * step) * step;
        (first..=self.high.div_euclid(10))
            .step_by(step as usize)
            .filter(|line| line * 10 >= self.low)
            .collect()
    }
}

/// Distances of lines, in tenths of a degree.
const STEPS: [i64; 12] = [1, 2, 5, 10, 20, 50, 100, 150, 300, 450, 600, 900];

/// A latitude as maps have it, `30°N`.
pub fn latitude(line: i64) -> String {
    let side = match line {
        0 => "",
        1.. => "N",
        _ => "S",
    };
    format!("{}°{side}", degrees(line))
}

/// A longitude, `150°W`.
pub fn longitude(line: i64) -> String {
    let line = (line + 1800).rem_euclid(3600) - 1800;
    let side = match line {
        0 | -1800 => "",
        1.. => "E",
        _ => "W",
    };
    format!("{}°{side}", degrees(line))
}

fn degrees(line: i64) -> String {
    let words = tenths(line.abs());
    words.trim_end_matches(".0").to_string()
}

#[cfg(test)]
mod tests {
    use super::*;

    #[test]
    fn names_of_lines() {
        assert_eq!(
            [latitude(300), latitude(0), latitude(-875)],
            ["30°N", "0°", "87.5°S"]
        );
        let names = [0, 900, 1800, 2100, 3600, -1800, -25].map(longitude);
        assert_eq!(
            names,
            ["0°", "90°E", "180°", "150°W", "0°", "180°", "2.5°W"]
        );
    }

    #[test]
    fn a_global_side() {
        let axis = Axis {
            first: -1800,
            last: 1800,
            step: 50,
        };
        let (low, high) = extent(&axis, None);
        let side = Side {
            low,
            high,
            start: 100,
            pixels: 960,
        };
        assert_eq!(
            [side.x(-18_000), side.x(0), side.x(18_000)],
            [100, 580, 1060]
        );
        assert_eq!(
            side.lines(70),
            [-1800, -1500, -1200, -900, -600, -300, 0, 300, 600, 900, 1200, 1500, 1800]
        );
        let axis = Axis {
            first: 875,
            last: -875,
            step: -25,
        };
        assert_eq!(extent(&axis, Some((-9000, 9000))), (-8875, 8875));
        let side = Side {
            low: -75,
            high: -25,
            start: 0,
            pixels: 160,
        };
        assert_eq!(side.lines(40), [-6, -4]);
        let side = Side {
            low: -9000,
            high: 9000,
            start: 50,
            pixels: 360,
        };
        assert_eq!([side.y(9000), side.y(0), side.y(-9000)], [50, 230, 410]);
    }
}
