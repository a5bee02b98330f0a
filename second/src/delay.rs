//! 02, Ask 13: the group delay of a carrier, in metres.

use crate::ask::{ask, Answer, Question};
use crate::header::{Header, Texts};
use crate::maps::View;
use crate::refusal::Refusal;

/// "The record handed on holds carrier, TECU and delay together."
#[derive(Clone, Copy, Debug, PartialEq)]
pub struct Delay {
    /// In hertz.
    pub carrier: f64,
    pub tecu: f64,
    pub metres: f64,
}

/// "x divided by 1000, times 4.03e17, divided by f times f, each step rounded
/// once in that order, the product f times f taken first." 25 "unless f compares
/// as at least 1.0e9 and at most 2.0e9; not-a-number is refused by that."
pub fn delay(thousandths_of_tecu: i32, carrier: f64) -> Result<Delay, Refusal> {
    if !(1.0e9..=2.0e9).contains(&carrier) {
        return Err(Refusal::Bare { number: 25 });
    }
    let square = carrier * carrier;
    let tecu = f64::from(thousandths_of_tecu) / 1000.0;
    let scaled = tecu * 4.03e17;
    Ok(Delay {
        carrier,
        tecu,
        metres: scaled / square,
    })
}

/// The delay of a question's answer. "A height in thousandths of a kilometre must
/// not be accepted here": kind 2 is 23.
pub fn ask_delay(
    header: &Header,
    texts: &Texts,
    areas: &View,
    question: &Question,
    carrier: f64,
) -> Result<Delay, Refusal> {
    let no_tec = Refusal::Bare { number: 23 };
    if question.kind == 2 {
        return Err(no_tec);
    }
    match ask(header, texts, areas, question)? {
        // "held in signed 32 bits, which holds every answer"
        Answer::ThousandthsOfTecu(x) => delay(i32::try_from(x).map_err(|_| no_tec)?, carrier),
        Answer::ThousandthsOfKilometre(_) => Err(no_tec),
    }
}

#[cfg(test)]
mod tests {
    use super::*;

    const L1: f64 = 1_575_420_000.0;

    #[test]
    fn one_tecu_at_l1() {
        let found = delay(1000, L1).unwrap();
        assert_eq!((found.carrier, found.tecu), (L1, 1.0));
        assert_eq!(format!("{:.4}", found.metres), "0.1624");
        // 4.03e17 / 1,575,420,000^2 = 403 / 2481.9481764 = 0.16237244751199..
        assert!((found.metres - 0.162_372_447_511_99).abs() < 1e-14);
    }

    #[test]
    fn limits() {
        let below = f64::from_bits(1.0e9_f64.to_bits() - 1);
        let above = f64::from_bits(2.0e9_f64.to_bits() + 1);
        for good in [1.0e9, 2.0e9, L1, 1_227_600_000.0, 1_176_450_000.0] {
            assert!(delay(1, good).is_ok());
        }
        for bad in [below, above, 0.0, -0.0, -L1, 1.0e300, 5e-324] {
            assert_eq!(delay(1, bad), Err(Refusal::Bare { number: 25 }));
        }
        for bad in [f64::NAN, -f64::NAN, f64::INFINITY, f64::NEG_INFINITY] {
            assert_eq!(delay(1, bad), Err(Refusal::Bare { number: 25 }));
        }
    }

    #[test]
    fn zero_and_the_widest() {
        assert_eq!(delay(0, L1).unwrap().metres.to_bits(), 0);
        let widest = delay(i32::MIN, 1.0e9).unwrap();
        assert_eq!(widest.tecu, -2_147_483.648);
        assert!(widest.metres.is_finite() && widest.metres < 0.0);
        // At 1 GHz a TECU is 0.403 m.
        assert_eq!(delay(1000, 1.0e9).unwrap().metres, 0.403);
        assert_eq!(delay(1000, 2.0e9).unwrap().metres, 0.100_75);
    }
}
