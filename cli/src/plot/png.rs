//! A picture as PNG, with a palette.

use super::deflate::deflate;
use super::picture::Picture;
use super::raster::Raster;
use crate::crc::crc32;

pub fn png(picture: &Picture) -> Vec<u8> {
    let raster = Raster::of(picture);
    let mut out = b"\x89PNG\r\n\x1a\n".to_vec();
    let mut head = Vec::new();
    for side in [raster.width, raster.height] {
        head.extend((side as u32).to_be_bytes());
    }
    // Eight bits, a palette, and the only ways there are to compress, filter and not to interlace.
    head.extend([8, 3, 0, 0, 0]);
    let palette = raster.palette.concat();
    chunk(&mut out, b"IHDR", &head);
    chunk(&mut out, b"PLTE", &palette);
    chunk(&mut out, b"IDAT", &zlib(&lines(&raster), raster.width + 1));
    chunk(&mut out, b"IEND", b"");
    out
}

/// Each line of pixels behind a 0, which says that it is not filtered.
fn lines(raster: &Raster) -> Vec<u8> {
    let mut out = Vec::with_capacity(raster.height * (raster.width + 1));
    for line in raster.pixels.chunks(raster.width) {
        out.push(0);
        out.extend(line);
    }
    out
}

fn chunk(out: &mut Vec<u8>, name: &[u8; 4], content: &[u8]) {
    out.extend((content.len() as u32).to_be_bytes());
    let start = out.len();
    out.extend(name);
    out.extend(content);
    let sum = crc32(&out[start..]);
    out.extend(sum.to_be_bytes());
}

fn zlib(data: &[u8], line: usize) -> Vec<u8> {
    let mut out = vec![0x78, 0x01];
    out.extend(deflate(data, line));
    out.extend(adler32(data).to_be_bytes());
    out
}

fn adler32(data: &[u8]) -> u32 {
    let (mut one, mut two) = (1u32, 0u32);
    for &byte in data {
        one = (one + u32::from(byte)) % 65_521;
        two = (two + one) % 65_521;
    }
    (two << 16) | one
}

#[cfg(test)]
mod tests {
    use super::*;

    #[test]
    fn sums() {
        // The check value that is given for this sum everywhere.
        assert_eq!(adler32(b"Wikipedia"), 0x11e6_0398);
    }
}
