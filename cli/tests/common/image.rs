//! A reader of PNG for what the program writes, made from the documents of PNG, zlib and deflate.

pub struct Image {
    pub width: usize,
    pub height: usize,
    pixels: Vec<u8>,
    palette: Vec<u8>,
}

impl Image {
    /// Reads a picture with a palette of eight bits, and checks every sum in it.
    pub fn read(file: &[u8]) -> Image {
        assert_eq!(&file[..8], b"\x89PNG\r\n\x1a\n");
        let chunks = chunks(&file[8..]);
        let names: Vec<&[u8]> = chunks.iter().map(|(name, _)| *name).collect();
        assert_eq!(names, [b"IHDR", b"PLTE", b"IDAT", b"IEND"]);
        let head = chunks[0].1;
        let [width, height] = [0, 4].map(|at| number(&head[at..at + 4]) as usize);
        assert_eq!(
            head[8..],
            [8, 3, 0, 0, 0],
            "eight bits, a palette, no other method"
        );
        let data = unpacked(chunks[2].1);
        assert_eq!(data.len(), height * (width + 1));
        let mut pixels = Vec::new();
        for line in data.chunks(width + 1) {
            assert_eq!(line[0], 0, "not filtered");
            pixels.extend(&line[1..]);
        }
        Image {
            width,
            height,
            pixels,
            palette: chunks[1].1.to_vec(),
        }
    }

    pub fn at(&self, x: usize, y: usize) -> [u8; 3] {
        let place = 3 * usize::from(self.pixels[y * self.width + x]);
        self.palette[place..place + 3].try_into().expect("a colour")
    }
}

fn number(bytes: &[u8]) -> u32 {
    bytes
        .iter()
        .fold(0, |sum, &byte| (sum << 8) | u32::from(byte))
}

fn chunks(mut rest: &[u8]) -> Vec<(&[u8], &[u8])> {
    let mut found = Vec::new();
    while !rest.is_empty() {
        let length = number(&rest[..4]) as usize;
        let (name, content) = (&rest[4..8], &rest[8..8 + length]);
        assert_eq!(
            number(&rest[8 + length..12 + length]),
            crc(&rest[4..8 + length])
        );
        found.push((name, content));
        rest = &rest[12 + length..];
    }
    found
}

/// By division of polynomials, bit after bit from the highest, on reversed bytes.
fn crc(data: &[u8]) -> u32 {
    let mut register = 0xffff_ffffu32;
    for byte in data {
        register ^= u32::from(byte.reverse_bits()) << 24;
        for _ in 0..8 {
            let high = register >> 31;
            register <<= 1;
            if high == 1 {
                register ^= 0x04c1_1db7;
            }
        }
    }
    (!register).reverse_bits()
}

fn unpacked(zlib: &[u8]) -> Vec<u8> {
    assert_eq!(zlib[0] & 15, 8, "deflate");
    assert_eq!((u32::from(zlib[0]) * 256 + u32::from(zlib[1])) % 31, 0);
    let (content, sum) = zlib[2..].split_at(zlib.len() - 6);
    let data = inflate(content);
    let (mut a, mut b) = (1u64, 0u64);
    for &byte in &data {
        a += u64::from(byte);
        b += a;
        b %= 65_521;
    }
    assert_eq!(u64::from(number(sum)), (b << 16) | (a % 65_521));
    data
}

struct Bits<'a> {
    data: &'a [u8],
    at: usize,
}

impl Bits<'_> {
    fn bit(&mut self) -> usize {
        let bit = self.data[self.at / 8] >> (self.at % 8) & 1;
        self.at += 1;
        usize::from(bit)
    }

    fn low_first(&mut self, count: usize) -> usize {
        (0..count).map(|place| self.bit() << place).sum()
    }

    fn high_first(&mut self, count: usize) -> usize {
        (0..count).fold(0, |code, _| 2 * code + self.bit())
    }

    /// The fixed codes: of seven bits below 24, of eight below 192, of eight below 200, of nine above.
    fn symbol(&mut self) -> usize {
        let seven = self.high_first(7);
        if seven < 0b0011000 {
            return 256 + seven;
        }
        let eight = 2 * seven + self.bit();
        match eight {
            0b00110000..=0b10111111 => eight - 0b00110000,
            0b11000000..=0b11000111 => 280 + eight - 0b11000000,
            _ => 144 + 2 * eight + self.bit() - 0b110010000,
        }
    }
}

/// One block of fixed codes.
fn inflate(data: &[u8]) -> Vec<u8> {
    let mut bits = Bits { data, at: 0 };
    assert_eq!(
        (bits.low_first(1), bits.low_first(2)),
        (1, 1),
        "the last block, with fixed codes"
    );
    let mut out: Vec<u8> = Vec::new();
    loop {
        match bits.symbol() {
            byte @ 0..=255 => out.push(byte as u8),
            256 => return out,
            code => {
                let length = length(code, &mut bits);
                let code = bits.high_first(5);
                let distance = distance(code, &mut bits);
                for _ in 0..length {
                    out.push(out[out.len() - distance]);
                }
            }
        }
    }
}

fn length(code: usize, bits: &mut Bits) -> usize {
    match code {
        257..=264 => code - 254,
        285 => 258,
        _ => {
            let extra = (code - 261) / 4;
            ((4 + (code - 261) % 4) << extra) + 3 + bits.low_first(extra)
        }
    }
}

fn distance(code: usize, bits: &mut Bits) -> usize {
    if code < 4 {
        return code + 1;
    }
    let extra = code / 2 - 1;
    ((2 + code % 2) << extra) + 1 + bits.low_first(extra)
}
