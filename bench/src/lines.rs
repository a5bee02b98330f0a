//! The lines of a text, cut off one by one: full lines by one look behind their 80 bytes, others by a search in steps
//! of 16 bytes. The loops over a fixed number of bytes are those that the compiler turns into vector code.

use second::refusal::{self, Fault};

pub type Step<T = ()> = Result<T, Fault>;

/// Columns of a full line.
pub const FULL: usize = 80;

const CHUNK: usize = 16;

pub fn fault<T>(number: u8, column: usize) -> Step<T> {
    refusal::fault(number, column as u64)
}

pub fn check(good: bool, number: u8, column: usize) -> Step {
    if good {
        Ok(())
    } else {
        fault(number, column)
    }
}

/// The first line without its end, and the text behind it. Printable bytes up to the line's end make a good line.
pub fn cut(text: &[u8]) -> Step<(&[u8], &[u8])> {
    match cut_full(text) {
        Some(found) => Ok(found),
        None => search(text),
    }
}

fn cut_full(text: &[u8]) -> Option<(&[u8], &[u8])> {
    let (line, rest) = text.split_first_chunk::<FULL>()?;
    let after = behind_end(rest)?;
    printable(line).then_some((line, after))
}

/// The text behind the line's end, LF or CR LF, that stands here.
pub fn behind_end(text: &[u8]) -> Option<&[u8]> {
    match text {
        [b'\n', after @ ..] | [b'\r', b'\n', after @ ..] => Some(after),
        _ => None,
    }
}

fn search(text: &[u8]) -> Step<(&[u8], &[u8])> {
    let end = printable_front(text);
    let after = match &text[end..] {
        [] => Some(&[][..]),
        rest => behind_end(rest),
    };
    let Some(after) = after else {
        return bad_byte(text, end);
    };
    check(end <= FULL, 1, FULL + 1)?;
    Ok((&text[..end], after))
}

/// The number of printable bytes that the text begins with.
fn printable_front(text: &[u8]) -> usize {
    let (chunks, _) = text.as_chunks::<CHUNK>();
    let good = chunks.iter().take_while(|chunk| printable(chunk)).count();
    let start = CHUNK * good;
    let rest = text[start..].iter();
    start + rest.take_while(|b| (32..=126).contains(*b)).count()
}

fn printable<const N: usize>(bytes: &[u8; N]) -> bool {
    let bad = |byte: u8| u8::from(byte.wrapping_sub(32) > 94);
    bytes.iter().fold(0, |any, &byte| any | bad(byte)) == 0
}

/// A line with a bad byte is refused for its length first.
fn bad_byte<T>(text: &[u8], at: usize) -> Step<T> {
    let line = text.split(|&b| b == b'\n').next().unwrap_or(text);
    let ended = line.len() < text.len();
    let line = match line {
        [front @ .., b'\r'] if ended => front,
        _ => line,
    };
    check(line.len() <= FULL, 1, FULL + 1)?;
    fault(2, at + 1)
}

pub fn is_blank(bytes: &[u8]) -> bool {
    let (chunks, rest) = bytes.as_chunks::<CHUNK>();
    chunks.iter().all(|chunk| *chunk == [b' '; CHUNK]) && rest.iter().all(|&b| b == b' ')
}
