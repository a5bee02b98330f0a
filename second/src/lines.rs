//! Cutting a text into lines, and a line into 80 columns.

use crate::refusal::{fault, Fault};

/// The 80 columns of a line; "missing columns are blanks".
pub type Card = [u8; 80];

/// The lines of a text, without their ends.
pub struct Lines<'a> {
    rest: &'a [u8],
}

pub fn lines(text: &[u8]) -> Lines<'_> {
    Lines { rest: text }
}

impl<'a> Iterator for Lines<'a> {
    type Item = &'a [u8];

    fn next(&mut self) -> Option<&'a [u8]> {
        // "A last line without LF counts if it has a byte."
        if self.rest.is_empty() {
            return None;
        }
        match self.rest.iter().position(|&b| b == b'\n') {
            Some(end) => {
                let line = &self.rest[..end];
                self.rest = &self.rest[end + 1..];
                // "one CR directly before that LF is dropped"
                Some(line.strip_suffix(b"\r").unwrap_or(line))
            }
            None => {
                let line = self.rest;
                self.rest = &[];
                Some(line)
            }
        }
    }
}

/// The lines, each with the place (from 0) of its first byte.
pub fn placed(text: &[u8]) -> impl Iterator<Item = (usize, &[u8])> {
    let behind_lf = (1..text.len()).filter(|&at| text[at - 1] == b'\n');
    std::iter::once(0).chain(behind_lf).zip(lines(text))
}

/// The columns of a line, or nothing for a blank line. The length is looked at
/// before the bytes (1 before 2), and both before the line counts as blank.
pub fn card(line: &[u8]) -> Result<Option<Card>, Fault> {
    if line.len() > 80 {
        return fault(1, 81);
    }
    if let Some(at) = line.iter().position(|b| !(32..=126).contains(b)) {
        return fault(2, at as u64 + 1);
    }
    if line.iter().all(|&b| b == b' ') {
        return Ok(None);
    }
    let mut card = [b' '; 80];
    card[..line.len()].copy_from_slice(line);
    Ok(Some(card))
}

#[cfg(test)]
mod tests {
    use super::*;

    fn cut(text: &[u8]) -> Vec<&[u8]> {
        lines(text).collect()
    }

    #[test]
    fn lines_end_in_lf_and_lose_one_cr() {
        assert_eq!(cut(b""), Vec::<&[u8]>::new());
        assert_eq!(cut(b"a"), vec![&b"a"[..]]);
        assert_eq!(cut(b"a\n"), vec![&b"a"[..]]);
        assert_eq!(cut(b"a\r\nb\n\n"), vec![&b"a"[..], b"b", b""]);
        assert_eq!(cut(b"a\r\r\nb"), vec![&b"a\r"[..], b"b"]);
        assert_eq!(cut(b"a\r"), vec![&b"a\r"[..]]);
    }

    #[test]
    fn where_lines_start() {
        let starts = |text: &'static [u8]| -> Vec<usize> { placed(text).map(|p| p.0).collect() };
        assert_eq!(starts(b""), Vec::<usize>::new());
        assert_eq!(starts(b"\n"), vec![0]);
        assert_eq!(starts(b"ab\r\n\nc\n"), vec![0, 4, 5]);
        assert_eq!(starts(b"ab\nc"), vec![0, 3]);
    }

    #[test]
    fn length_then_bytes_then_blank() {
        assert_eq!(card(&[b' '; 80]), Ok(None));
        assert_eq!(card(&[b' '; 81]), fault(1, 81));
        assert_eq!(card(&[0; 81]), fault(1, 81));
        assert_eq!(card(b"  \t"), fault(2, 3));
        assert_eq!(card(b"\x7f"), fault(2, 1));
        assert_eq!(card(b"~\x80\x00"), fault(2, 2));
        assert_eq!(card(b""), Ok(None));
        let full = card(b"~").unwrap().unwrap();
        assert_eq!(full[0], b'~');
        assert!(full[1..].iter().all(|&b| b == b' '));
    }
}
