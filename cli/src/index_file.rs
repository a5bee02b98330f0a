//! Index files: the bytes of an index, as docs/INDEX-FILE.md has them.

use crate::crc::crc32;
use crate::status::Stop;
use ionex::{Index, IndexAreas, HEADER, TEXTS};

const MAGIC: &[u8; 8] = b"IONEXIDX";
const VERSION: u32 = 2;

/// Magic, version and two counts; the header's numbers and texts; and at the end the checksum.
const HEAD: usize = 8 + 4 + 8 + 8;
const FIXED: usize = HEAD + 8 * HEADER + TEXTS;
const SUM: usize = 4;

/// The bytes of an index that was made.
pub fn bytes(index: &Index) -> Vec<u8> {
    let areas = index.as_areas();
    let mut out = MAGIC.to_vec();
    out.extend(VERSION.to_le_bytes());
    out.extend((areas.positions.len() as u64).to_le_bytes());
    out.extend((areas.marks.len() as u64).to_le_bytes());
    out.extend(areas.header.iter().flat_map(|number| number.to_le_bytes()));
    out.extend(areas.texts);
    out.extend(areas.positions.iter().flat_map(|at| at.to_le_bytes()));
    out.extend(areas.exponents.iter().flat_map(|e| e.to_le_bytes()));
    out.extend(&areas.marks);
    let sum = crc32(&out);
    out.extend(sum.to_le_bytes());
    out
}

/// The index of a file's bytes. What it says of a text is tested when it is asked.
pub fn index(name: &str, bytes: &[u8]) -> Result<Index, Stop> {
    let told = |words| Stop::File(format!("{name}: {words}"));
    parts(bytes).map_err(told).map(Index::from_areas)
}

fn parts(bytes: &[u8]) -> Result<IndexAreas, String> {
    let (entries, marks) = counts(bytes)?;
    let (content, sum) = bytes.split_at(bytes.len() - SUM);
    let (found, made) = (number(sum, u32::from_le_bytes), crc32(content));
    if found != made {
        return Err(format!(
            "a damaged index file: its checksum is {found:08x}, its bytes make {made:08x}"
        ));
    }
    let (header, rest) = content[HEAD..].split_at(8 * HEADER);
    let (texts, rest) = rest.split_at(TEXTS);
    let (positions, rest) = rest.split_at(8 * entries);
    let (exponents, marked) = rest.split_at(4 * entries);
    debug_assert_eq!(marked.len(), marks);
    Ok(IndexAreas {
        header: std::array::from_fn(|at| number(&header[8 * at..][..8], i64::from_le_bytes)),
        texts: std::array::from_fn(|at| texts[at]),
        positions: numbers(positions, u64::from_le_bytes),
        exponents: numbers(exponents, i32::from_le_bytes),
        marks: marked.to_vec(),
    })
}

/// How many entries and marks there are, of a file that is as long as it says.
fn counts(bytes: &[u8]) -> Result<(usize, usize), String> {
    if !bytes.starts_with(MAGIC) {
        return Err("not an index file: it does not begin with IONEXIDX".to_string());
    }
    let least = FIXED + SUM;
    let cut = || {
        format!(
            "an index file that is cut: {} of at least {least} bytes",
            bytes.len()
        )
    };
    // Before the length, for a whole file of another version may be shorter.
    let version = bytes.get(8..12).ok_or_else(cut)?;
    let version = number(version, u32::from_le_bytes);
    if version != VERSION {
        return Err(format!(
            "an index file of version {version}, and only version {VERSION} is read: make it again by `ionex index`"
        ));
    }
    if bytes.len() < least {
        return Err(cut());
    }
    let [entries, marks] = [12, 20].map(|at| number(&bytes[at..at + 8], u64::from_le_bytes));
    let long = least as u128 + 12 * u128::from(entries) + u128::from(marks);
    let found = bytes.len() as u128;
    if found < long {
        return Err(format!(
            "an index file that is cut: {found} of {long} bytes"
        ));
    }
    if found > long {
        return Err(format!(
            "an index file with more behind its end: {found} bytes, and it has {long}"
        ));
    }
    Ok((entries as usize, marks as usize))
}

fn number<const N: usize, T>(bytes: &[u8], of: fn([u8; N]) -> T) -> T {
    of(std::array::from_fn(|at| bytes[at]))
}

fn numbers<const N: usize, T>(bytes: &[u8], of: fn([u8; N]) -> T) -> Vec<T> {
    bytes.chunks_exact(N).map(|part| number(part, of)).collect()
}

#[cfg(test)]
mod tests {
    use super::*;

    /// One entry and two marks, byte by byte as docs/INDEX-FILE.md says.
    #[test]
    fn written_and_read() {
        let index = Index::from_areas(IndexAreas {
            header: std::array::from_fn(|at| at as i64 - 1),
            texts: [b't'; TEXTS],
            positions: vec![0x0102_0304],
            exponents: vec![-3],
            marks: vec![1, 2],
        });
        let written = bytes(&index);
        assert_eq!(written.len(), 1712 + 12 + 2 + 4);
        assert_eq!(
            &written[..28],
            b"IONEXIDX\x02\0\0\0\x01\0\0\0\0\0\0\0\x02\0\0\0\0\0\0\0"
        );
        assert_eq!(written[28..36], [0xff; 8]);
        assert_eq!(written[44..52], [1, 0, 0, 0, 0, 0, 0, 0]);
        assert_eq!(written[380..388], [43, 0, 0, 0, 0, 0, 0, 0]);
        assert_eq!(written[388..1712], [b't'; 1324]);
        assert_eq!(written[1712..1720], [4, 3, 2, 1, 0, 0, 0, 0]);
        assert_eq!(written[1720..1726], [0xfd, 0xff, 0xff, 0xff, 1, 2]);
        assert_eq!(parts(&written).as_ref(), Ok(index.as_areas()));
    }
}
