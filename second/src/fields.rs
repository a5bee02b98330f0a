//! Number fields: In and Fn.1, read and written.

/// "In is blanks, an optional minus, one or more digits, the last digit in the
/// field's last column."
pub fn integer(field: &[u8]) -> Option<i64> {
    let (negative, rest) = sign(field);
    Some(apply(negative, digits(rest)?))
}

/// "Fn.1 is the same with a point and one digit more." Before the point no digit
/// is asked for (02, Ask 4). The value in tenths.
pub fn tenths(field: &[u8]) -> Option<i64> {
    decimal(field, 1)
}

/// "F10.3 is read as Fn.1 with three digits after the point" (02, Ask 7). The value
/// in thousandths.
pub fn thousandths(field: &[u8]) -> Option<i64> {
    decimal(field, 3)
}

/// So many digits after the point; the value in units of the last.
fn decimal(field: &[u8], places: usize) -> Option<i64> {
    let (negative, rest) = sign(field);
    let point = rest.len().checked_sub(places + 1)?;
    if rest[point] != b'.' {
        return None;
    }
    let whole = match &rest[..point] {
        [] => 0,
        body => digits(body)?,
    };
    let behind = digits(&rest[point + 1..])?;
    Some(apply(negative, whole * 10_i64.pow(places as u32) + behind))
}

/// Drops the leading blanks and an optional minus.
fn sign(field: &[u8]) -> (bool, &[u8]) {
    let start = field.iter().position(|&b| b != b' ');
    let body = &field[start.unwrap_or(field.len())..];
    match body.strip_prefix(b"-") {
        Some(rest) => (true, rest),
        None => (false, body),
    }
}

/// One or more digits and nothing else. Fields have at most 10 columns.
fn digits(body: &[u8]) -> Option<i64> {
    if body.is_empty() || !body.iter().all(u8::is_ascii_digit) {
        return None;
    }
    Some(body.iter().fold(0, |n, b| n * 10 + i64::from(b - b'0')))
}

fn apply(negative: bool, size: i64) -> i64 {
    if negative {
        -size
    } else {
        size
    }
}

/// "Numbers are right-aligned without needless zeros."
pub fn integer_text(value: i64, width: usize) -> String {
    format!("{value:>width$}")
}

/// A number of tenths with its point and a digit before it: "Canonical text goes
/// on writing `0.5`" (02, Ask 4).
pub fn tenths_text(value: i64, width: usize) -> String {
    let minus = if value < 0 { "-" } else { "" };
    let size = value.unsigned_abs();
    let text = format!("{minus}{}.{}", size / 10, size % 10);
    format!("{text:>width$}")
}

#[cfg(test)]
mod tests {
    use super::*;

    #[test]
    fn figures_of_01() {
        assert_eq!(integer(b"   -0"), Some(0));
        assert_eq!(integer(b"00000"), Some(0));
        assert_eq!(integer(b"   +5"), None);
        assert_eq!(integer(b"   5 "), None);
    }

    #[test]
    fn integers() {
        assert_eq!(integer(b"-9999"), Some(-9999));
        assert_eq!(integer(b"99999"), Some(99999));
        assert_eq!(integer(b"-0005"), Some(-5));
        assert_eq!(integer(b" -  5"), None);
        assert_eq!(integer(b"     "), None);
        assert_eq!(integer(b"    -"), None);
        assert_eq!(integer(b"--005"), None);
        assert_eq!(integer(b"1 002"), None);
        assert_eq!(integer(b"  5.0"), None);
        assert_eq!(integer(b"  1e2"), None);
    }

    #[test]
    fn numbers_of_tenths() {
        assert_eq!(tenths(b"  87.5"), Some(875));
        assert_eq!(tenths(b"-180.0"), Some(-1800));
        assert_eq!(tenths(b"  -0.0"), Some(0));
        assert_eq!(tenths(b"  -0.5"), Some(-5));
        assert_eq!(tenths(b"0000.1"), Some(1));
        assert_eq!(tenths(b"9999.9"), Some(99999));
        assert_eq!(tenths(b"    .5"), Some(5));
        assert_eq!(tenths(b"   -.5"), Some(-5));
        assert_eq!(tenths(b"   -.0"), Some(0));
        assert_eq!(tenths(b"  - .5"), None);
        assert_eq!(tenths(b"     ."), None);
        assert_eq!(tenths(b"    -."), None);
        assert_eq!(tenths(b"    . "), None);
        assert_eq!(tenths(b"    5."), None);
        assert_eq!(tenths(b"     5"), None);
        assert_eq!(tenths(b"  5.00"), None);
        assert_eq!(tenths(b"  5.0 "), None);
        assert_eq!(tenths(b"  + .0"), None);
        assert_eq!(tenths(b"  1..0"), None);
        assert_eq!(tenths(b"      "), None);
    }

    #[test]
    fn numbers_of_thousandths() {
        assert_eq!(thousandths(b"     0.000"), Some(0));
        assert_eq!(thousandths(b"    -1.234"), Some(-1_234));
        assert_eq!(thousandths(b"      .005"), Some(5));
        assert_eq!(thousandths(b"     -.000"), Some(0));
        assert_eq!(thousandths(b"999999.999"), Some(999_999_999));
        assert_eq!(thousandths(b"-99999.999"), Some(-99_999_999));
        assert_eq!(thousandths(b"      1.23"), None);
        assert_eq!(thousandths(b"    1.2345"), None);
        assert_eq!(thousandths(b"     1.2 0"), None);
        assert_eq!(thousandths(b"    1.234 "), None);
        assert_eq!(thousandths(b"         0"), None);
        assert_eq!(thousandths(b"     1.-23"), None);
        assert_eq!(thousandths(b"          "), None);
    }

    #[test]
    fn numbers_as_text() {
        assert_eq!(integer_text(-5, 5), "   -5");
        assert_eq!(integer_text(0, 6), "     0");
        assert_eq!(tenths_text(-5, 6), "  -0.5");
        assert_eq!(tenths_text(0, 6), "   0.0");
        assert_eq!(tenths_text(-1800, 6), "-180.0");
        assert_eq!(tenths_text(999_999, 8), " 99999.9");
    }
}
