//! Sixteen values of five columns each, without a branch for any of them: all bytes are judged at once, and then two
//! products gather the digits of each field straight from the text.

/// Values of a full line, their columns, and all columns.
pub const VALUES: usize = 16;
pub const WIDTH: usize = 5;
const ROW: usize = VALUES * WIDTH;

/// A field is taken as the last of eight bytes, so three bytes before the line are seen besides.
pub const BEFORE: usize = 8 - WIDTH;

/// All ones at the first column of each field, where it may begin whatever stands before.
const FIRST: [u8; ROW] = all_but(0, 0xff, 0);
/// All zeros at the last column of each field, which must be a digit.
const NOT_LAST: [u8; ROW] = all_but(WIDTH - 1, 0, 0xff);

const fn all_but(column: usize, there: u8, elsewhere: u8) -> [u8; ROW] {
    let mut all = [elsewhere; ROW];
    let mut k = column;
    while k < ROW {
        all[k] = there;
        k += WIDTH;
    }
    all
}

/// The values of a full line, with the bytes before it, where all fields are good.
pub fn full_row(bytes: &[u8; BEFORE + ROW]) -> Option<[i32; VALUES]> {
    match signs(bytes)? {
        false => Some(gathered(bytes, size)),
        true => Some(gathered(bytes, signed)),
    }
}

fn gathered(bytes: &[u8; BEFORE + ROW], value: impl Fn(u64) -> i32) -> [i32; VALUES] {
    let mut values = [0; VALUES];
    for (k, place) in values.iter_mut().enumerate() {
        let mut field = [0; 8];
        field.copy_from_slice(&bytes[WIDTH * k..WIDTH * k + 8]);
        *place = value(u64::from_le_bytes(field));
    }
    values
}

/// The values of fewer fields; zeros stand in the place of those that are missing.
pub fn short_row(fields: &[u8]) -> Option<[i32; VALUES]> {
    let mut bytes = [b'0'; BEFORE + ROW];
    bytes[BEFORE..BEFORE + fields.len()].copy_from_slice(fields);
    full_row(&bytes)
}

/// Whether there is a minus, where all fields are good ones: blanks, an optional minus, then digits to the last column.
/// Blanks and a minus stand at the front or behind a blank.
fn signs(bytes: &[u8; BEFORE + ROW]) -> Option<bool> {
    let (mut bad, mut signs) = (0, 0);
    for k in 0..ROW {
        let (before, byte) = (bytes[BEFORE + k - 1], bytes[BEFORE + k]);
        let digit = ones(byte.wrapping_sub(b'0') <= 9);
        let minus = ones(byte == b'-');
        let opens = ones(byte == b' ') | minus;
        let may_open = (ones(before == b' ') | FIRST[k]) & NOT_LAST[k];
        bad |= !(digit | (opens & may_open));
        signs |= minus;
    }
    (bad == 0).then_some(signs != 0)
}

fn ones(yes: bool) -> u8 {
    u8::from(yes).wrapping_neg()
}

/// Bit 0 of each of the five high bytes, which are a field.
const BITS: u64 = 0x0101_0101_0100_0000;

/// The digits of a good field without a minus; a blank's code has no low bits. Shifts and small products are vector
/// code; a product of 64 bits is not.
fn size(field: u64) -> i32 {
    let digits = field & (15 * BITS);
    // Ten times each digit beside the next one; every other byte is a pair.
    let pairs = (digits << 3) + (digits << 1) + (digits >> 8);
    let pair = |at: u32| pairs >> at & 0xff;
    (10_000 * pair(16) + 100 * pair(32) + pair(48)) as i32
}

/// The value of a good field. A digit's code has bit 4, and a minus is 13 without bit 4.
fn signed(field: u64) -> i32 {
    let minus = (field >> 3) & !(field >> 4) & BITS;
    let size = size(field & !((minus << 4) - minus));
    if minus == 0 {
        size
    } else {
        -size
    }
}

#[cfg(test)]
mod tests {
    use super::*;

    /// Every value that five columns hold, with blanks and with zeros before it.
    #[test]
    fn all_values() {
        let all: Vec<i32> = (-9999..=99_999).collect();
        for values in all.chunks(VALUES) {
            let blanks: String = values.iter().map(|v| format!("{v:>5}")).collect();
            let zeros: String = values.iter().map(|v| format!("{v:05}")).collect();
            for text in [blanks, zeros] {
                let found = short_row(text.as_bytes()).expect("good fields");
                assert_eq!(found[..values.len()], *values);
            }
        }
    }
}
