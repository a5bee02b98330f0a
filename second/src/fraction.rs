//! Exact fractions, held in lowest terms.

/// `over` / `under`; `under` is positive, and no whole number above 1 divides both.
#[derive(Clone, Copy, Debug, PartialEq, Eq)]
pub struct Fraction {
    over: i128,
    under: i128,
}

impl Fraction {
    pub const ZERO: Fraction = Fraction { over: 0, under: 1 };
    pub const ONE: Fraction = Fraction { over: 1, under: 1 };

    /// `under` is positive.
    pub fn new(over: i128, under: i128) -> Fraction {
        let common = greatest_common_divisor(over.unsigned_abs(), under.unsigned_abs()) as i128;
        Fraction {
            over: over / common,
            under: under / common,
        }
    }

    pub fn plus(self, other: Fraction) -> Fraction {
        let over = self.over * other.under + other.over * self.under;
        Fraction::new(over, self.under * other.under)
    }

    pub fn minus(self, other: Fraction) -> Fraction {
        let over = self.over * other.under - other.over * self.under;
        Fraction::new(over, self.under * other.under)
    }

    pub fn times(self, other: Fraction) -> Fraction {
        Fraction::new(self.over * other.over, self.under * other.under)
    }

    /// Divided by a positive fraction.
    pub fn by(self, other: Fraction) -> Fraction {
        Fraction::new(self.over * other.under, self.under * other.over)
    }

    pub fn is_zero(self) -> bool {
        self.over == 0
    }

    /// The largest whole number that is not above.
    pub fn floor(self) -> i128 {
        self.over.div_euclid(self.under)
    }

    /// "to the nearest whole number, halves away from zero"
    pub fn rounded(self) -> i128 {
        let size = (2 * self.over.abs() + self.under) / (2 * self.under);
        size * self.over.signum()
    }
}

impl From<i64> for Fraction {
    fn from(whole: i64) -> Fraction {
        Fraction {
            over: i128::from(whole),
            under: 1,
        }
    }
}

fn greatest_common_divisor(mut a: u128, mut b: u128) -> u128 {
    while b != 0 {
        // Most numbers are short, and 64 bits are quicker to divide.
        let rest = match (u64::try_from(a), u64::try_from(b)) {
            (Ok(a), Ok(b)) => u128::from(a % b),
            _ => a % b,
        };
        a = b;
        b = rest;
    }
    a
}

#[cfg(test)]
mod tests {
    use super::*;

    #[test]
    fn lowest_terms() {
        assert_eq!(Fraction::new(6, 4), Fraction { over: 3, under: 2 });
        assert_eq!(Fraction::new(-6, 4), Fraction { over: -3, under: 2 });
        assert_eq!(Fraction::new(0, 7), Fraction::ZERO);
        assert_eq!(Fraction::new(5, 5), Fraction::ONE);
        let long = i128::from(u64::MAX) * 6;
        assert_eq!(Fraction::new(long, long / 3), Fraction::from(3));
    }

    #[test]
    fn sums_and_products() {
        let half = Fraction::new(1, 2);
        let third = Fraction::new(1, 3);
        assert_eq!(half.plus(third), Fraction::new(5, 6));
        assert_eq!(third.minus(half), Fraction::new(-1, 6));
        assert_eq!(half.times(third), Fraction::new(1, 6));
        assert_eq!(half.by(third), Fraction::new(3, 2));
        assert!(half.minus(half).is_zero());
    }

    #[test]
    fn floors() {
        for (over, under, floor) in [(7, 2, 3), (-7, 2, -4), (6, 2, 3), (-6, 2, -3), (0, 5, 0)] {
            assert_eq!(Fraction::new(over, under).floor(), floor);
        }
    }

    #[test]
    fn halves_away_from_zero() {
        for (over, under, rounded) in [
            (1, 2, 1),
            (-1, 2, -1),
            (3, 2, 2),
            (-3, 2, -2),
            (1, 3, 0),
            (-2, 3, -1),
            (0, 7, 0),
        ] {
            assert_eq!(Fraction::new(over, under).rounded(), rounded);
        }
    }
}
