//! The canonical text of a map set, plainly: its length is known before a byte is written, a block's opening line is
//! kept from one to the next, and digits go straight into the output.

use crate::ask::blocks;
use crate::valid::{has, is_valid, maps_of, size};
use second::labels::{record, Label};
use second::maps::{Kind, FIRST_EXPONENT, KINDS};
use second::write::header_text;
use second::{calendar, Given, Header, Refusal};

const START: [Label; 3] = [Label::StartTec, Label::StartRms, Label::StartHeight];
const END: [Label; 3] = [Label::EndTec, Label::EndRms, Label::EndHeight];

/// Writes to the front of `out`, and gives the length: 31 before 30.
pub fn write(set: &Given, out: &mut [u8]) -> Result<usize, Refusal> {
    if !is_valid(set) {
        return Err(Refusal::Bare { number: 31 });
    }
    let head = header_text(set.header, set.texts);
    let mut records = Records::of(set, head);
    let values = records.maps.len() * block_bytes(set) * blocks(set.header);
    let need = values + records.bytes();
    if out.len() < need {
        return Err(Refusal::Output { need: need as u64 });
    }
    let mut rest = put(out, &records.head);
    for map in std::mem::take(&mut records.maps) {
        rest = write_map(set, &map, &mut records, rest);
    }
    put(rest, &records.end);
    Ok(need)
}

/// A map that is there, with its records.
struct Map {
    kind: Kind,
    map: usize,
    front: Vec<u8>,
    back: Vec<u8>,
}

/// All records but those of blocks.
struct Records {
    head: Vec<u8>,
    maps: Vec<Map>,
    exponents: [Vec<u8>; 4],
    /// How many EXPONENT records stand, and the exponent in force.
    changes: usize,
    in_force: i32,
    end: Vec<u8>,
    opening: [u8; 81],
}

impl Records {
    fn of(set: &Given, head: Vec<u8>) -> Records {
        let mut records = Records {
            head,
            maps: Vec::new(),
            exponents: [-3, -2, -1, 0].map(|exponent| record(Label::Exponent, &[exponent], &[])),
            changes: 0,
            in_force: FIRST_EXPONENT,
            end: record(Label::EndFile, &[], &[]),
            opening: opening(set.header),
        };
        for kind in KINDS {
            for map in (0..maps_of(set)).filter(|&map| has(set, kind, map)) {
                records.maps.push(Map::of(set, kind, map));
                for &exponent in exponents(set, kind, map) {
                    records.changes += usize::from(records.in_force != exponent);
                    records.in_force = exponent;
                }
            }
        }
        records.in_force = FIRST_EXPONENT;
        records
    }

    fn bytes(&self) -> usize {
        let of_map = |map: &Map| map.front.len() + map.back.len();
        let maps: usize = self.maps.iter().map(of_map).sum();
        self.head.len() + maps + self.changes * self.exponents[0].len() + self.end.len()
    }
}

impl Map {
    fn of(set: &Given, kind: Kind, map: usize) -> Map {
        let number = map as i64 + 1;
        let mut front = record(START[kind as usize], &[number], &[]);
        if kind == Kind::Tec {
            let date = calendar::date(set.areas.epochs[map]).unwrap_or_default();
            front.extend(record(Label::CurrentEpoch, &date, &[]));
        }
        Map {
            kind,
            map,
            front,
            back: record(END[kind as usize], &[number], &[]),
        }
    }
}

fn exponents<'a>(set: &Given<'a>, kind: Kind, map: usize) -> &'a [i32] {
    let blocks = blocks(set.header);
    &set.areas.exponents[(kind as usize * maps_of(set) + map) * blocks..][..blocks]
}

/// The bytes of a block: its opening, and its lines of values.
fn block_bytes(set: &Given) -> usize {
    let columns = set.header.longitudes.count() as usize;
    81 + 5 * columns + columns.div_ceil(16)
}

/// A block's opening line, but for its latitude and height.
fn opening(header: &Header) -> [u8; 81] {
    let axis = &header.longitudes;
    let line = record(Label::Block, &[0, axis.first, axis.last, axis.step, 0], &[]);
    let mut opening = [b' '; 81];
    opening.copy_from_slice(&line);
    opening
}

/// The output behind what is put there.
fn put<'o>(out: &'o mut [u8], bytes: &[u8]) -> &'o mut [u8] {
    let (front, rest) = out.split_at_mut(bytes.len());
    front.copy_from_slice(bytes);
    rest
}

fn write_map<'o>(set: &Given, map: &Map, records: &mut Records, out: &'o mut [u8]) -> &'o mut [u8] {
    let (header, size) = (set.header, size(set));
    let columns = header.longitudes.count() as usize;
    let rows = header.latitudes.count() as usize;
    let values = &set.areas.values(map.kind)[map.map * size..(map.map + 1) * size];
    let mut rest = put(out, &map.front);
    let exponents = exponents(set, map.kind, map.map).iter();
    for (block, (&exponent, values)) in exponents.zip(values.chunks_exact(columns)).enumerate() {
        if exponent != records.in_force {
            rest = put(rest, &records.exponents[(exponent + 3) as usize]);
            records.in_force = exponent;
        }
        let (row, layer) = ((block % rows) as i64, (block / rows) as i64);
        let latitude = header.latitudes.first + row * header.latitudes.step;
        let height = header.heights.first + layer * header.heights.step;
        records.opening[2..8].copy_from_slice(&tenths(latitude));
        records.opening[26..32].copy_from_slice(&tenths(height));
        rest = put(rest, &records.opening);
        for line in values.chunks(16) {
            let (front, behind) = rest.split_at_mut(5 * line.len() + 1);
            put_values(front, line);
            rest = behind;
        }
    }
    put(rest, &map.back)
}

/// F6.1, of what fits.
fn tenths(number: i64) -> [u8; 6] {
    let mut field = [b' '; 6];
    let size = number.unsigned_abs();
    let mut whole = size / 10;
    field[5] = b'0' + (size % 10) as u8;
    field[4] = b'.';
    let mut at = 3;
    field[at] = b'0' + (whole % 10) as u8;
    while whole >= 10 {
        whole /= 10;
        at -= 1;
        field[at] = b'0' + (whole % 10) as u8;
    }
    if number < 0 {
        field[at - 1] = b'-';
    }
    field
}

fn put_values(out: &mut [u8], values: &[i32]) {
    let (fields, end) = out.split_at_mut(5 * values.len());
    for (field, &value) in fields.chunks_exact_mut(5).zip(values) {
        match value {
            0.. => put_number(field, value as u32),
            _ => field.copy_from_slice(format!("{value:>5}").as_bytes()),
        }
    }
    end[0] = b'\n';
}

/// I5, of a number below 100,000: the four digits before the last as the bytes of a word, blanks for the zeros that
/// lead.
fn put_number(field: &mut [u8], number: u32) {
    let front = number / 10;
    let pairs = (front / 100) | ((front % 100) << 16);
    let tens = ((pairs * 103) >> 10) & 0x000f_000f;
    let digits = ((pairs - 10 * tens) << 8) | tens;
    let zeros = match front {
        0 => 4,
        _ => digits.trailing_zeros() / 8,
    };
    let blanks = (0x1010_1010 & ((1u64 << (8 * zeros)) - 1)) as u32;
    field[..4].copy_from_slice(&(digits + 0x3030_3030 - blanks).to_le_bytes());
    field[4] = b'0' + (number % 10) as u8;
}
