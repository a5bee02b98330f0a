//! Deflate with fixed codes. Pictures of few colours repeat the byte before or the line above, so only these two are
//! looked for.

/// First length of each length code from 257 on, and its extra bits.
const LENGTHS: [(usize, u32); 29] = [
    (3, 0),
    (4, 0),
    (5, 0),
    (6, 0),
    (7, 0),
    (8, 0),
    (9, 0),
    (10, 0),
    (11, 1),
    (13, 1),
    (15, 1),
    (17, 1),
    (19, 2),
    (23, 2),
    (27, 2),
    (31, 2),
    (35, 3),
    (43, 3),
    (51, 3),
    (59, 3),
    (67, 4),
    (83, 4),
    (99, 4),
    (115, 4),
    (131, 5),
    (163, 5),
    (195, 5),
    (227, 5),
    (258, 0),
];

/// The first distance of each distance code; the extra bits rise by one after every second code from 4 on.
const DISTANCES: [usize; 30] = [
    1, 2, 3, 4, 5, 7, 9, 13, 17, 25, 33, 49, 65, 97, 129, 193, 257, 385, 513, 769, 1025, 1537,
    2049, 3073, 4097, 6145, 8193, 12289, 16385, 24577,
];
const LONGEST: usize = 258;
const FARTHEST: usize = 32_768;

/// Bits go into bytes from the lowest on.
#[derive(Default)]
struct Bits {
    bytes: Vec<u8>,
    held: u64,
    count: u32,
}

impl Bits {
    fn put(&mut self, value: usize, count: u32) {
        self.held |= (value as u64) << self.count;
        self.count += count;
        while self.count >= 8 {
            self.bytes.push(self.held as u8);
            self.held >>= 8;
            self.count -= 8;
        }
    }

    /// Codes are put from their highest bit on.
    fn code(&mut self, code: usize, count: u32) {
        self.put(code.reverse_bits() >> (usize::BITS - count), count);
    }

    /// A letter, a length or the end (256), by the fixed codes.
    fn symbol(&mut self, symbol: usize) {
        match symbol {
            0..=143 => self.code(0x30 + symbol, 8),
            144..=255 => self.code(0x190 + symbol - 144, 9),
            256..=279 => self.code(symbol - 256, 7),
            _ => self.code(0xc0 + symbol - 280, 8),
        }
    }

    fn repeat(&mut self, length: usize, distance: usize) {
        let code = LENGTHS.partition_point(|&(first, _)| first <= length) - 1;
        let (first, extra) = LENGTHS[code];
        self.symbol(257 + code);
        self.put(length - first, extra);
        let code = DISTANCES.partition_point(|&first| first <= distance) - 1;
        self.code(code, 5);
        self.put(
            distance - DISTANCES[code],
            (code as u32 / 2).saturating_sub(1),
        );
    }

    fn end(mut self) -> Vec<u8> {
        if self.count > 0 {
            self.bytes.push(self.held as u8);
        }
        self.bytes
    }
}

/// How far the bytes from `at` on are those so much before.
fn repeated(data: &[u8], at: usize, distance: usize) -> usize {
    if distance > at || distance > FARTHEST {
        return 0;
    }
    let (here, before) = (&data[at..], &data[at - distance..]);
    let pairs = here.iter().zip(before).take(LONGEST);
    pairs.take_while(|(one, other)| one == other).count()
}

/// One block of lines that are `line` bytes long each.
pub fn deflate(data: &[u8], line: usize) -> Vec<u8> {
    let mut bits = Bits::default();
    bits.put(1, 1);
    bits.put(1, 2);
    let mut at = 0;
    while at < data.len() {
        let candidates = [1, line].map(|distance| (repeated(data, at, distance), distance));
        let (length, distance) = candidates.into_iter().max().unwrap_or((0, 1));
        if length >= 3 {
            bits.repeat(length, distance);
            at += length;
        } else {
            bits.symbol(usize::from(data[at]));
            at += 1;
        }
    }
    bits.symbol(256);
    bits.end()
}
