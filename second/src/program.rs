//! The program `canon`: text in, canonical text or one line out.

use crate::maps::Areas;
use crate::read::{read, Reading};
use crate::write::write;

/// "The program reads up to 32,768 bytes of standard input."
pub const INPUT: usize = 32_768;

const VALUES: usize = 4_000;
const EXPONENTS: usize = 4_000;
const EPOCHS: usize = 300;
const MARKS: usize = 300;
const OUTPUT: usize = 65_536;

/// What the program prints for a text. An input longer than `INPUT` may be cut
/// after one byte more.
pub fn canon(text: &[u8]) -> Vec<u8> {
    if text.len() > INPUT {
        return b"text too big\n".to_vec();
    }
    let mut areas = Areas {
        tec: &mut [0; VALUES],
        rms: &mut [0; VALUES],
        height: &mut [0; VALUES],
        exponents: &mut [0; EXPONENTS],
        epochs: &mut [0; EPOCHS],
        marks: &mut [0; MARKS],
    };
    let mut out = vec![0; OUTPUT];
    let written = match read(text, &mut areas) {
        Reading::Accepted { header, texts } => write(&header, &texts, &areas.view(), &mut out),
        Reading::Refused(refusal) => Err(refusal),
    };
    match written {
        Ok(length) => {
            out.truncate(length);
            out
        }
        Err(refusal) => format!("{refusal}\n").into_bytes(),
    }
}
