//! The value at a place and second, plainly, with the library's checks.

use second::header::exponent_fits;
use second::maps::{self, value_fits, Kind, KINDS, NO_VALUE};
use second::{Axis, Given, Header, Question, Texts, View};

/// Two neighbouring lines or maps, and the share of each.
#[derive(Clone, Copy)]
struct Between {
    at: [usize; 2],
    shares: [i64; 2],
}

impl Between {
    fn parts(self) -> impl Iterator<Item = (usize, i64)> {
        self.at.into_iter().zip(self.shares)
    }
}

/// Thousandths of a TECU or of a kilometre, or a refusal: 23, 31, 24, 20, 21, 22.
pub fn ask(given: &Given, question: &Question) -> Result<i32, u8> {
    let kind = kind_asked(question)?;
    let asker = Asker::of(given, question.method).ok_or(31)?;
    asker.answer(kind, question)
}

fn kind_asked(question: &Question) -> Result<Kind, u8> {
    let kind = usize::try_from(question.kind).ok();
    match kind.and_then(|kind| KINDS.get(kind)) {
        Some(&kind) if (0..=3).contains(&question.method) => Ok(kind),
        _ => Err(23),
    }
}

/// A map set that was judged, for one question or many by one method.
pub struct Asker<'a> {
    header: &'a Header,
    view: View<'a>,
    epochs: &'a [u64],
    layers: usize,
    rows: usize,
    columns: usize,
    turns: bool,
}

impl<'a> Asker<'a> {
    pub fn of(given: &Given<'a>, method: i64) -> Option<Asker<'a>> {
        if !fits(given) {
            return None;
        }
        let (header, view) = (given.header, given.areas);
        let epochs = &view.epochs[..header.maps as usize];
        Some(Asker {
            header,
            view,
            epochs,
            layers: header.heights.count() as usize,
            rows: header.latitudes.count() as usize,
            columns: header.longitudes.count() as usize,
            turns: method < 2 || turns(&header.longitudes, epochs),
        })
    }

    pub fn ask(&self, question: &Question) -> Result<i32, u8> {
        self.answer(kind_asked(question)?, question)
    }

    fn answer(&self, kind: Kind, question: &Question) -> Result<i32, u8> {
        let header = self.header;
        if !self.turns {
            return Err(24);
        }
        let time = in_time(self.epochs, question).ok_or(20)?;
        let layer = usize::try_from(question.layer).map_err(|_| 21)?;
        if layer >= self.layers {
            return Err(21);
        }
        let latitude = question.latitude - 10 * header.latitudes.first;
        let south = header.latitudes.step.signum();
        let row = along(&header.latitudes, latitude * south, 10).ok_or(21)?;
        let columns = columns(&header.longitudes, self.epochs, question, time).ok_or(21)?;
        self.value(kind, layer, time, row, columns).ok_or(22)
    }

    /// The exact fraction, rounded once, halves away from zero. Shares of at most 21,600, 1,500 and 1,500, or 7,200, 1,500
    /// and 6,000, and nodes of at most 99,999,000 leave the sum within 64 bits.
    fn value(
        &self,
        kind: Kind,
        layer: usize,
        time: Between,
        row: Between,
        columns: [Between; 2],
    ) -> Option<i32> {
        let (mut sum, mut all) = (0, 0);
        for ((map, share), columns) in time.parts().zip(columns) {
            if share == 0 {
                continue;
            }
            if !maps::is_present(kind, self.view.marks[map]) {
                return None;
            }
            let first = (map * self.layers + layer) * self.rows;
            for (row, part) in row.parts().filter(|(_, part)| *part != 0) {
                let (row_sum, weight) = self.row_sum(kind, first + row, columns)?;
                sum += share * part * row_sum;
                all += share * part * weight;
            }
        }
        let (whole, rest) = (sum / all, sum % all);
        let up = if 2 * rest.abs() >= all {
            sum.signum()
        } else {
            0
        };
        Some((whole + up) as i32)
    }

    /// The weighted sum of the columns of a block, in thousandths, and its weights.
    fn row_sum(&self, kind: Kind, block: usize, columns: Between) -> Option<(i64, i64)> {
        let kinds = kind as usize * self.epochs.len() * self.layers * self.rows;
        let exponent = self.view.exponents[kinds + block];
        if !exponent_fits(i64::from(exponent)) {
            return None;
        }
        let row = &self.view.values(kind)[block * self.columns..][..self.columns];
        let (mut sum, mut all) = (0, 0);
        for (column, weight) in columns.parts().filter(|(_, weight)| *weight != 0) {
            let value = row[column];
            if value == NO_VALUE || !value_fits(value) {
                return None;
            }
            sum += weight * i64::from(value);
            all += weight;
        }
        Some((sum * POWERS[(exponent + 3) as usize], all))
    }
}

/// Of exponents -3 to 0, in thousandths.
const POWERS: [i64; 4] = [1, 10, 100, 1000];

/// Whether the maps can turn with the Sun.
fn turns(longitudes: &Axis, epochs: &[u64]) -> bool {
    longitudes.goes_round()
        && longitudes.step <= 50
        && epochs.windows(2).all(|pair| pair[1] - pair[0] <= 7200)
}

/// The columns of each of the two maps: around the longitude, in hundredths of a degree, or around the longitude moved
/// by the time since the map's epoch, in 1/1200 of a degree.
fn columns(
    axis: &Axis,
    epochs: &[u64],
    question: &Question,
    time: Between,
) -> Option<[Between; 2]> {
    let lon = question.longitude;
    if question.method < 2 {
        return around(axis, lon, 10).map(|columns| [columns; 2]);
    }
    let moved = |map: usize| 12 * lon + 5 * (question.second as i64 - epochs[map] as i64);
    let [first, second] = time.at.map(|map| around(axis, moved(map), 120));
    Some([first?, second?])
}

/// The two lines around an offset from an axis' first, in so many parts of a tenth.
fn along(axis: &Axis, offset: i64, tenth: i64) -> Option<Between> {
    if offset < 0 || offset > tenth * (axis.last - axis.first).abs() {
        return None;
    }
    Some(between(offset, tenth * axis.step.abs()))
}

/// The line at or before an offset, and the next one.
fn between(offset: i64, step: i64) -> Between {
    let at = (offset / step) as usize;
    let share = offset % step;
    Between {
        at: [at, at + 1],
        shares: [step - share, share],
    }
}

/// The two columns around a longitude; after the last comes the first where one step more is a whole turn.
fn around(axis: &Axis, lon: i64, tenth: i64) -> Option<Between> {
    let offset = (lon - tenth * axis.first).rem_euclid(tenth * 3600);
    if !axis.has_strip() {
        return along(axis, offset, tenth);
    }
    let mut column = between(offset, tenth * axis.step);
    if column.at[1] == axis.count() as usize {
        column.at[1] = 0;
    }
    Some(column)
}

fn in_time(epochs: &[u64], question: &Question) -> Option<Between> {
    let second = question.second;
    let alone = |at| Between {
        at: [at, at],
        shares: [1, 0],
    };
    if second < epochs[0] || second > epochs[epochs.len() - 1] {
        return None;
    }
    let at = epochs.partition_point(|&epoch| epoch <= second) - 1;
    let Some(&next) = epochs.get(at + 1) else {
        return Some(alone(at));
    };
    let (after, before) = ((second - epochs[at]) as i64, (next - second) as i64);
    Some(match question.method {
        0 | 3 => alone(if after <= before { at } else { at + 1 }),
        _ => Between {
            at: [at, at + 1],
            shares: [before, after],
        },
    })
}

/// Blocks of one map.
pub fn blocks(header: &Header) -> usize {
    (header.heights.count() * header.latitudes.count()) as usize
}

/// Every byte can be printed, and behind the last description all is blank; looked at without a branch for each byte.
fn texts_fit(texts: &Texts, header: &Header) -> bool {
    let lines = texts.descriptions.as_flattened();
    let (said, behind) = lines.split_at(60 * header.descriptions as usize);
    let blank = behind.iter().fold(0, |any, &b| any | (b ^ b' ')) == 0;
    let parts: [&[u8]; 6] = [
        &texts.program,
        &texts.agency,
        &texts.date,
        &texts.mapping,
        &texts.observables,
        said,
    ];
    parts
        .iter()
        .fold(blank, |good, part| good & printable(part))
}

fn printable(bytes: &[u8]) -> bool {
    let bad = |byte: u8| u8::from(byte.wrapping_sub(32) > 94);
    bytes.iter().fold(0, |any, &byte| any | bad(byte)) == 0
}

/// The header, the texts, lengths, marks and epochs.
pub fn fits(given: &Given) -> bool {
    let (header, view) = (given.header, &given.areas);
    if !header.is_valid() || !texts_fit(given.texts, header) {
        return false;
    }
    let maps = header.maps as usize;
    let values = maps * blocks(header) * header.longitudes.count() as usize;
    let (Some(marks), Some(epochs)) = (view.marks.get(..maps), view.epochs.get(..maps)) else {
        return false;
    };
    let any = marks.iter().fold(0, |any, mark| any | mark);
    any <= 3
        && view.tec.len() >= values
        && (view.rms.len() >= values || any & 1 == 0)
        && (view.height.len() >= values || any & 2 == 0)
        && view.exponents.len() >= 3 * maps * blocks(header)
        && epochs_fit(header, epochs)
}

/// The first and the last are the header's, and each follows the one before; no branch for an epoch.
fn epochs_fit(header: &Header, epochs: &[u64]) -> bool {
    let (low, span) = match header.interval {
        0 => (1, 21_599),
        interval => (interval as u64, 0),
    };
    let outside =
        |pair: &[u64]| u64::from((pair[1].wrapping_sub(pair[0])).wrapping_sub(low) > span);
    epochs[0] == header.first_epoch
        && epochs[epochs.len() - 1] == header.last_epoch
        && epochs.windows(2).fold(0, |any, pair| any | outside(pair)) == 0
}
