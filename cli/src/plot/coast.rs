//! Coast lines, from Natural Earth's map of 1 to 110 million (naturalearthdata.com), which is in the public domain: its 133
//! lines of coast, in tenths of a degree.

use super::axes::Side;
use super::picture::{Picture, WHITE};

/// `[[LON,LAT,LON,LAT,…],…]`
const COASTS: &str = include_str!("coast.json");

/// The coasts within a map. Round the Earth a map may begin anywhere, so each line is tried a turn to both sides.
pub fn draw(picture: &mut Picture, across: &Side, along: &Side) {
    // The last pixels of the map, on which its own ends are drawn too.
    let [right, bottom] = [across, along].map(|side| side.start + side.pixels - 1);
    for line in lines() {
        for turn in [-36_000, 0, 36_000] {
            let moved = line
                .iter()
                .map(|&[lon, lat]| [10 * lon + turn, 10 * lat])
                .collect::<Vec<_>>();
            for run in within(&moved, across, along) {
                let mut places: Vec<[i32; 2]> = run
                    .iter()
                    .map(|&[lon, lat]| [across.x(lon).min(right), along.y(lat).min(bottom)])
                    .collect();
                places.dedup();
                if places.len() > 1 {
                    picture.line(places, WHITE);
                }
            }
        }
    }
}

/// The parts of a line whose places all lie on the map, so that none is drawn beside it.
fn within<'a>(
    line: &'a [[i64; 2]],
    across: &'a Side,
    along: &'a Side,
) -> impl Iterator<Item = &'a [[i64; 2]]> {
    let on_map = |&[lon, lat]: &[i64; 2]| across.holds(lon) && along.holds(lat);
    line.split(move |place| !on_map(place))
}

/// Longitudes and latitudes, in tenths of a degree.
fn lines() -> impl Iterator<Item = Vec<[i64; 2]>> {
    let inside = COASTS.trim().trim_start_matches('[').trim_end_matches(']');
    inside.split("],[").map(|line| {
        let numbers: Vec<i64> = line
            .split(',')
            .filter_map(|word| word.trim().parse().ok())
            .collect();
        numbers
            .chunks_exact(2)
            .map(|pair| [pair[0], pair[1]])
            .collect()
    })
}

#[cfg(test)]
mod tests {
    use super::*;

    #[test]
    fn the_lines_are_whole() {
        let lines: Vec<Vec<[i64; 2]>> = lines().collect();
        assert_eq!(lines.len(), 133);
        assert_eq!(lines.iter().map(Vec::len).sum::<usize>(), 5119);
        let on_earth = |&[lon, lat]: &[i64; 2]| lon.abs() <= 1800 && lat.abs() <= 900;
        assert!(lines.iter().flatten().all(on_earth));
        // Ireland goes round from 6.2 W, 53.9 N.
        assert_eq!(
            (lines[1][0], lines[1].last()),
            ([-62, 539], Some(&[-62, 539]))
        );
    }
}
