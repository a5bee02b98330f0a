//! Numbers as people read them.

/// Tenths as a decimal number, 875 as 87.5.
pub fn tenths(value: i64) -> String {
    let sign = if value < 0 { "-" } else { "" };
    let size = value.unsigned_abs();
    format!("{sign}{}.{}", size / 10, size % 10)
}

/// Thousandths as a decimal number, 11659 as 11.659.
pub fn thousandths(value: i32) -> String {
    let sign = if value < 0 { "-" } else { "" };
    let size = value.unsigned_abs();
    format!("{sign}{}.{:03}", size / 1000, size % 1000)
}

/// `1 map`, `2 maps`
pub fn counted(count: usize, name: &str) -> String {
    let s = if count == 1 { "" } else { "s" };
    format!("{count} {name}{s}")
}

/// A sum by a count, rounded once to a whole number, halves away from zero; 0 where there is no count.
pub fn rounded(sum: i128, count: u128) -> i64 {
    let count = count.max(1) as i128;
    let size = (2 * sum.abs() + count) / (2 * count);
    (sum.signum() * size) as i64
}

/// A part of a whole in tenths of a percent.
pub fn share(part: usize, whole: usize) -> String {
    let per_mille = (2000 * part + whole) / (2 * whole).max(1);
    tenths(per_mille as i64)
}

#[cfg(test)]
mod tests {
    use super::*;

    #[test]
    fn decimals() {
        assert_eq!(
            [tenths(-5), tenths(875), tenths(0)],
            ["-0.5", "87.5", "0.0"]
        );
        assert_eq!([thousandths(-5), thousandths(11_659)], ["-0.005", "11.659"]);
        assert_eq!(
            [share(1, 3), share(0, 5), share(5, 5), share(1, 2000)],
            ["33.3", "0.0", "100.0", "0.1"]
        );
        let means = [(7, 2), (-7, 2), (1, 3), (-5, 3), (0, 0), (11_500, 5)];
        assert_eq!(
            means.map(|(sum, count)| rounded(sum, count)),
            [4, -4, 0, -2, 0, 2300]
        );
        assert_eq!([counted(1, "map"), counted(0, "map")], ["1 map", "0 maps"]);
    }
}
