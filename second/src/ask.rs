//! Asking: the value at a place and second, by exact fractions of a degree and of
//! the time between two maps.

use crate::fraction::Fraction;
use crate::header::{exponent_fits, Axis, Header, Texts};
use crate::maps::{self, Grid, Kind, View, NO_VALUE};
use crate::refusal::Refusal;

/// Numbers are held wide, so that every wrong question can be asked.
#[derive(Clone, Copy, Debug, PartialEq, Eq)]
pub struct Question {
    /// 0 TEC, 1 RMS, 2 height map values.
    pub kind: i64,
    /// 0 the nearest map, 1 formula (2) of 001, 2 formula (3), 3 the nearest map moved as in formula (3).
    pub method: i64,
    /// Counted from 0.
    pub layer: i64,
    /// Hundredths of a degree.
    pub latitude: i64,
    pub longitude: i64,
    /// Seconds from 1900.
    pub second: u64,
}

/// "the two units are kept apart throughout"
#[derive(Clone, Copy, Debug, PartialEq, Eq)]
pub enum Answer {
    ThousandthsOfTecu(i64),
    ThousandthsOfKilometre(i64),
}

/// A grid line or a map with its weight; only those that are needed.
#[derive(Clone, Copy, Debug, PartialEq, Eq)]
pub(crate) struct Part {
    pub(crate) place: usize,
    pub(crate) weight: Fraction,
}

/// `place` and `next` with weights 1 - p and p. "A node is needed when its weight
/// is not zero."
fn parts(place: usize, next: usize, p: Fraction) -> Vec<Part> {
    let near = Part {
        place,
        weight: Fraction::ONE.minus(p),
    };
    let far = Part {
        place: next,
        weight: p,
    };
    let mut parts = vec![near, far];
    parts.retain(|part| !part.weight.is_zero());
    parts
}

/// Refusals in the order 23, 31, 24, 20, 21, 22.
pub fn ask(
    header: &Header,
    texts: &Texts,
    areas: &View,
    question: &Question,
) -> Result<Answer, Refusal> {
    let aim = aim(header, texts, areas, question)?;
    let mut sum = Fraction::ZERO;
    for (map, columns) in &aim.maps {
        let Some(value) = four_points(areas, &aim, map.place, columns) else {
            return refuse(22);
        };
        sum = sum.plus(map.weight.times(value));
    }
    // "The exact fraction is rounded once."
    Ok(aim.in_unit(sum.rounded()))
}

/// What a question looks at: the maps with the columns of each, the layer and the
/// rows, each with its weight.
pub(crate) struct Aim {
    pub(crate) kind: Kind,
    pub(crate) grid: Grid,
    pub(crate) maps: Vec<(Part, Vec<Part>)>,
    pub(crate) layer: usize,
    pub(crate) rows: Vec<Part>,
}

impl Aim {
    /// "the two units are kept apart throughout"
    pub(crate) fn in_unit(&self, thousandths: i128) -> Answer {
        let value = i64::try_from(thousandths).unwrap_or(i64::MAX);
        match self.kind {
            Kind::Tec | Kind::Rms => Answer::ThousandthsOfTecu(value),
            Kind::Height => Answer::ThousandthsOfKilometre(value),
        }
    }
}

/// The refusals 23, 31 and 24, which the place and the second have no part in.
pub(crate) fn served(
    header: &Header,
    texts: &Texts,
    areas: &View,
    kind: i64,
    method: i64,
) -> Result<(Kind, Grid), Refusal> {
    let kind = match kind {
        0 => Kind::Tec,
        1 => Kind::Rms,
        2 => Kind::Height,
        _ => return refuse(23),
    };
    if !(0..4).contains(&method) {
        return refuse(23);
    }
    let Some(grid) = maps::frame(header, texts, areas) else {
        return refuse(31);
    };
    if method >= 2 && !can_turn(&header.longitudes, &areas.epochs[..grid.maps]) {
        return refuse(24);
    }
    Ok((kind, grid))
}

/// Every refusal but 22.
pub(crate) fn aim(
    header: &Header,
    texts: &Texts,
    areas: &View,
    question: &Question,
) -> Result<Aim, Refusal> {
    let (kind, grid) = served(header, texts, areas, question.kind, question.method)?;
    let epochs = &areas.epochs[..grid.maps];
    if question.second < epochs[0] || question.second > epochs[grid.maps - 1] {
        return refuse(20);
    }
    let maps = match question.method {
        0 | 3 => nearest(epochs, question.second),
        _ => between_epochs(epochs, question.second),
    };
    let place = (
        layer(&grid, question.layer),
        latitude(&header.latitudes, degrees(question.latitude)),
    );
    let (Some(layer), Some(rows)) = place else {
        return refuse(21);
    };
    let columns = |map: Part| {
        let at = match question.method {
            0 | 1 => degrees(question.longitude),
            _ => moved(question, epochs[map.place]),
        };
        longitude(&header.longitudes, at).map(|columns| (map, columns))
    };
    let Some(maps) = maps.into_iter().map(columns).collect() else {
        return refuse(21);
    };
    Ok(Aim {
        kind,
        grid,
        maps,
        layer,
        rows,
    })
}

fn refuse<T>(number: u8) -> Result<T, Refusal> {
    Err(Refusal::Bare { number })
}

fn degrees(hundredths: i64) -> Fraction {
    Fraction::new(i128::from(hundredths), 100)
}

/// A number of an axis, which is in tenths.
fn of_axis(tenths: i64) -> Fraction {
    Fraction::new(i128::from(tenths), 10)
}

/// 02, Ask 3: "24 when the grid does not go round, DLON is above 5.0, or two
/// neighbouring epochs are more than 7,200 s apart."
fn can_turn(longitudes: &Axis, epochs: &[u64]) -> bool {
    longitudes.goes_round()
        && longitudes.step <= 50
        && epochs.windows(2).all(|pair| pair[1] - pair[0] <= 7_200)
}

/// 001's formula (3): lambda' = lambda + (t - T); "360 degrees in 86,400 seconds,
/// so one degree in 240" (02, Ask 3). Back where the map is the later.
fn moved(question: &Question, epoch: u64) -> Fraction {
    let since = i128::from(question.second) - i128::from(epoch);
    degrees(question.longitude).plus(Fraction::new(since, 240))
}

fn layer(grid: &Grid, layer: i64) -> Option<usize> {
    let layer = usize::try_from(layer).ok()?;
    (layer < grid.layers).then_some(layer)
}

/// The row at or before the latitude in DLAT's direction, and its neighbour.
fn latitude(axis: &Axis, degrees: Fraction) -> Option<Vec<Part>> {
    along(axis, degrees.minus(of_axis(axis.first)))
}

/// "The longitude is brought by whole turns into LON1 <= x < LON1 + 360.00; x
/// beyond LON2 is outside", but for the strip of 02's Ask 2, where "the column
/// after the last is the first".
fn longitude(axis: &Axis, degrees: Fraction) -> Option<Vec<Part>> {
    let turn = Fraction::from(360);
    let from_first = degrees.minus(of_axis(axis.first));
    let turns = Fraction::new(from_first.by(turn).floor(), 1);
    let from_first = from_first.minus(turns.times(turn));
    along(axis, from_first).or_else(|| {
        let last = usize::try_from(axis.count() - 1).ok()?;
        let from_last = from_first.minus(of_axis(axis.last - axis.first));
        let p = from_last.by(of_axis(axis.step));
        axis.has_strip().then(|| parts(last, 0, p))
    })
}

/// The grid lines around a place given from the axis' first, in degrees, and
/// their weights: 1 - p and p of 001's four-point formula.
fn along(axis: &Axis, from_first: Fraction) -> Option<Vec<Part>> {
    // In steps, so that it goes up in the axis' direction.
    let direction = Fraction::from(axis.step.signum());
    let steps = from_first.times(direction).by(of_axis(axis.step.abs()));
    let place = usize::try_from(steps.floor()).ok()?;
    let p = steps.minus(Fraction::new(steps.floor(), 1));
    let last = usize::try_from(axis.count() - 1).ok()?;
    // On the last line its neighbour does not exist, and has no weight.
    let inside = place < last || (place == last && p.is_zero());
    inside.then(|| parts(place, place + 1, p))
}

/// "the nearest map, the earlier of two equally near"
fn nearest(epochs: &[u64], second: u64) -> Vec<Part> {
    let mut best = 0;
    for map in 1..epochs.len() {
        if epochs[map].abs_diff(second) < epochs[best].abs_diff(second) {
            best = map;
        }
    }
    parts(best, best, Fraction::ZERO)
}

/// 001's formulas (2) and (3), for T_i <= t < T_i+1; "at the last epoch, the last
/// map alone".
fn between_epochs(epochs: &[u64], second: u64) -> Vec<Part> {
    let map = epochs.iter().rposition(|&t| t <= second).unwrap_or(0);
    let Some(&next) = epochs.get(map + 1) else {
        return parts(map, map, Fraction::ZERO);
    };
    let since = i128::from(second - epochs[map]);
    let gap = i128::from(next - epochs[map]);
    parts(map, map + 1, Fraction::new(since, gap))
}

/// 001's four-point formula in one map, or nothing where a needed node has no
/// value.
fn four_points(areas: &View, aim: &Aim, map: usize, columns: &[Part]) -> Option<Fraction> {
    let Aim { kind, grid, .. } = aim;
    let mut sum = Fraction::ZERO;
    for row in &aim.rows {
        let block = aim.layer * grid.rows + row.place;
        for column in columns {
            let node = node(grid, areas, *kind, map, block, column.place).ok()?;
            let weight = row.weight.times(column.weight);
            sum = sum.plus(weight.times(Fraction::from(node)));
        }
    }
    Some(sum)
}

/// Why a node has no value. 02, Ask 10: "of two causes, the absent map first, then
/// the exponent, then the number".
#[derive(Clone, Copy, Debug, PartialEq, Eq, PartialOrd, Ord)]
pub enum Cause {
    MapAbsent,
    ExponentOutOfRange,
    NumberOutOfRange,
    NoValue,
}

/// A node in thousandths, or no value "when its number is 9999 or outside -9999 to
/// 99999, its exponent is outside -3 to 0, or its map is marked absent".
pub fn node(
    grid: &Grid,
    areas: &View,
    kind: Kind,
    map: usize,
    block: usize,
    column: usize,
) -> Result<i64, Cause> {
    if !maps::is_present(kind, areas.marks[map]) {
        return Err(Cause::MapAbsent);
    }
    let exponent = i64::from(areas.exponents[grid.exponent_place(kind, map, block)]);
    if !exponent_fits(exponent) {
        return Err(Cause::ExponentOutOfRange);
    }
    let value = areas.values(kind)[grid.value_place(map, block) + column];
    if !maps::value_fits(value) {
        return Err(Cause::NumberOutOfRange);
    }
    if value == NO_VALUE {
        return Err(Cause::NoValue);
    }
    // "A value v under exponent k is v·10^(k+3) thousandths."
    Ok(i64::from(value) * 10_i64.pow((exponent + 3) as u32))
}

#[cfg(test)]
mod tests {
    use super::*;

    fn axis(first: i64, last: i64, step: i64) -> Axis {
        Axis { first, last, step }
    }

    fn alone(place: usize) -> Vec<Part> {
        parts(place, place, Fraction::ZERO)
    }

    #[test]
    fn equally_near_is_the_earlier() {
        let epochs = [0, 10, 20, 21];
        for (second, map) in [(5, 0), (6, 1), (15, 1), (16, 2), (21, 3)] {
            assert_eq!(nearest(&epochs, second), alone(map));
        }
    }

    /// The columns around a longitude in hundredths.
    fn around(axis: Axis, hundredths: i64) -> Option<Vec<Part>> {
        longitude(&axis, degrees(hundredths))
    }

    /// From a place towards the next one by so much.
    fn by(place: usize, over: i128, under: i128) -> Option<Vec<Part>> {
        Some(parts(place, place + 1, Fraction::new(over, under)))
    }

    #[test]
    fn longitude_turns() {
        // 180.00 is brought to -180.00, so the last column is a neighbour only.
        let closed = axis(-1800, 1800, 50);
        assert_eq!(around(closed, 18_000), Some(alone(0)));
        assert_eq!(around(closed, 17_999), by(71, 499, 500));
        assert_eq!(around(closed, -18_001), by(71, 499, 500));
        let open = axis(0, 3500, 50);
        assert_eq!(around(open, 35_001), None);
        assert_eq!(around(open, 35_000), Some(alone(70)));
        assert_eq!(around(open, -1000), Some(alone(70)));
        assert_eq!(around(open, -999), None);
        // 9,223,372,036,854,775,807 = 36,000 * 256,204,778,801,521 + 19,807.
        assert_eq!(around(open, i64::MAX), by(39, 307, 500));
        assert!(around(open, i64::MIN).is_some());
    }

    #[test]
    fn strip_goes_to_the_first_column() {
        let strip = axis(0, 3575, 25);
        let of = |beyond| Some(parts(143, 0, Fraction::new(beyond, 250)));
        assert_eq!(around(strip, 35_751), of(1));
        assert_eq!(around(strip, 35_999), of(249));
        assert_eq!(around(strip, -1), of(249));
        assert_eq!(around(strip, 35_750), Some(alone(143)));
        assert_eq!(around(strip, 36_000), Some(alone(0)));
        let strip = axis(-1800, 1750, 50);
        let of = |beyond| Some(parts(71, 0, Fraction::new(beyond, 500)));
        assert_eq!(around(strip, 17_501), of(1));
        assert_eq!(around(strip, -18_001), of(499));
        assert_eq!(around(strip, 17_999 + 36_000), of(499));
        // One column less: outside.
        assert_eq!(around(axis(0, 3550, 25), 35_501), None);
        assert_eq!(around(axis(0, 3500, 50), 35_001), None);
        assert_eq!(around(axis(-1800, 1700, 50), 17_001), None);
    }

    #[test]
    fn one_degree_in_240_seconds() {
        let question = Question {
            kind: 0,
            method: 2,
            layer: 0,
            latitude: 0,
            longitude: 1_001,
            second: 1_000,
        };
        assert_eq!(moved(&question, 760), degrees(1_101));
        assert_eq!(moved(&question, 1_000), degrees(1_001));
        assert_eq!(moved(&question, 1_240), degrees(901));
        // 10.01 + 1/240 in units of 1/1200: 12,012 + 5.
        assert_eq!(moved(&question, 999), Fraction::new(12_017, 1_200));
    }

    #[test]
    fn what_can_turn() {
        let strip = axis(0, 3550, 50);
        assert!(can_turn(&strip, &[5]));
        assert!(can_turn(&strip, &[0, 7_200, 7_201]));
        assert!(!can_turn(&strip, &[0, 7_201, 7_202]));
        assert!(!can_turn(&strip, &[0, 1, 7_202]));
        assert!(can_turn(&axis(-1800, 1800, 50), &[0, 7_200]));
        assert!(can_turn(&axis(0, 3575, 25), &[0, 7_200]));
        for no in [axis(0, 3500, 50), axis(0, 3550, 25), axis(50, 3550, 50)] {
            assert!(!can_turn(&no, &[0]));
        }
        // Round, but with wider steps; 5.5 does not divide a turn.
        for wide in [axis(0, 3540, 60), axis(0, 3600, 60), axis(0, 3575, 55)] {
            assert!(!can_turn(&wide, &[0]));
        }
    }
}
