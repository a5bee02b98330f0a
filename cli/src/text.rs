//! Lines and columns of a text, as the scope paper counts them.

/// A line of 80 columns: missing columns are blanks.
pub type Card = [u8; 80];

/// The lines of a text without their ends. One CR directly before an LF belongs to the end; a last line without LF counts
/// if it has a byte.
pub fn lines(text: &[u8]) -> impl Iterator<Item = &[u8]> {
    let mut rest = text;
    std::iter::from_fn(move || {
        if rest.is_empty() {
            return None;
        }
        let Some(end) = rest.iter().position(|&byte| byte == b'\n') else {
            return Some(std::mem::take(&mut rest));
        };
        let line = &rest[..end];
        rest = &rest[end + 1..];
        Some(line.strip_suffix(b"\r").unwrap_or(line))
    })
}

/// The line of this number, counted from 1.
pub fn line(text: &[u8], number: u64) -> Option<&[u8]> {
    let before = usize::try_from(number.checked_sub(1)?).ok()?;
    lines(text).nth(before)
}

/// The last line that is not blank, with its number.
pub fn last_line(text: &[u8]) -> Option<(u64, &[u8])> {
    (1..)
        .zip(lines(text))
        .filter(|(_, line)| !blank(line))
        .last()
}

pub fn blank(line: &[u8]) -> bool {
    line.iter().all(|&byte| byte == b' ')
}

/// The first 80 columns of a line.
pub fn card(line: &[u8]) -> Card {
    let mut card = [b' '; 80];
    let width = line.len().min(80);
    card[..width].copy_from_slice(&line[..width]);
    card
}

/// The columns from `first`, counted from 1, as words: without blanks around them.
pub fn columns(card: &Card, first: usize, width: usize) -> String {
    let bytes = &card[first - 1..(first - 1 + width).min(80)];
    String::from_utf8_lossy(bytes).trim().to_string()
}

/// The number that a field of whole numbers or of tenths holds, in whole numbers or in tenths.
pub fn number(card: &Card, first: usize, width: usize) -> Option<i64> {
    columns(card, first, width).replace('.', "").parse().ok()
}

#[cfg(test)]
mod tests {
    use super::*;

    #[test]
    fn lines_end_in_lf_or_cr_lf() {
        let found: Vec<&[u8]> = lines(b"a\r\nb\n\nc\r").collect();
        assert_eq!(found, [b"a" as &[u8], b"b", b"", b"c\r"]);
        assert_eq!(lines(b"").count(), 0);
        assert_eq!(lines(b"a\n").count(), 1);
        assert_eq!(line(b"a\nb", 2), Some(b"b" as &[u8]));
        assert_eq!(line(b"a\nb", 3), None);
        assert_eq!(line(b"a\nb", 0), None);
        assert_eq!(last_line(b"a\nb\n \n"), Some((2, b"b" as &[u8])));
    }

    #[test]
    fn numbers_of_columns() {
        let line = card(b"    87.5 -87.5  -2.5    -3");
        assert_eq!(number(&line, 3, 6), Some(875));
        assert_eq!(number(&line, 15, 6), Some(-25));
        assert_eq!(number(&line, 21, 6), Some(-3));
        assert_eq!(number(&line, 27, 6), None);
        assert_eq!(columns(&line, 77, 20), "");
    }
}
