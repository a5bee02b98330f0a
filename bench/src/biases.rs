//! The code biases of a text, plainly: the plain reader judges it, then its header's rows are gone over once, the
//! stations' names in a table of sums. What is not in order is left to the second program, which finds its place.

use crate::plain::{check_text, enough};
use second::biases::{Room, SIZES};
use second::{fields, Refusal};
use std::collections::HashSet;

const TITLE: &[u8] = b"DIFFERENTIAL CODE BIASES";

/// How many satellites and stations there are, with their numbers and names in front of the areas.
pub fn biases(text: &[u8], room: &mut Room) -> Result<[usize; 2], Refusal> {
    check_text(text)?;
    let Some(found) = gathered(text) else {
        return second::biases::biases(text, room);
    };
    let [satellites, stations] = [found.satellites.len() / 4, found.stations.len() / 3];
    enough(&[
        (room.satellites.len(), SIZES[0] * satellites),
        (room.stations.len(), SIZES[1] * stations),
        (room.names.len(), SIZES[2] * stations),
    ])?;
    room.satellites[..found.satellites.len()].copy_from_slice(&found.satellites);
    room.stations[..found.stations.len()].copy_from_slice(&found.stations);
    room.names[..found.names.len()].copy_from_slice(&found.names);
    Ok([satellites, stations])
}

#[derive(Default)]
struct Found {
    satellites: Vec<i32>,
    stations: Vec<i32>,
    names: Vec<u8>,
    seen: HashSet<[u8; 21]>,
}

/// Nothing where a row is refused.
fn gathered(text: &[u8]) -> Option<Found> {
    let mut found = Found::default();
    // Inside an aux block, and whether that is one of biases.
    let mut block = None;
    for line in text.split(|&b| b == b'\n') {
        let Some(label) = line.get(60..).map(<[u8]>::trim_ascii_end) else {
            continue;
        };
        match (block, label) {
            (None, b"START OF AUX DATA") => block = Some(line[..60].trim_ascii_end() == TITLE),
            (None, b"END OF HEADER") => break,
            (Some(_), b"END OF AUX DATA") => block = None,
            (Some(true), b"PRN / BIAS / RMS") => found.satellite(line)?,
            (Some(true), b"STATION / BIAS / RMS") => found.station(line)?,
            _ => {}
        }
    }
    Some(found)
}

fn is_blank(bytes: &[u8]) -> bool {
    bytes.iter().all(|&b| b == b' ')
}

/// Two numbers of F10.3 from a column on, and blanks behind them.
fn numbers(line: &[u8], from: usize) -> Option<[i32; 2]> {
    let number = |at: usize| thousandths(&line[at..at + 10]);
    is_blank(&line[from + 20..60]).then_some(())?;
    Some([number(from)?, number(from + 10)?])
}

/// A number in the usual form, with a digit before its point; another goes by the second program's field.
fn thousandths(field: &[u8]) -> Option<i32> {
    usual(field).or_else(|| fields::thousandths(field).map(|number| number as i32))
}

fn usual(field: &[u8]) -> Option<i32> {
    let blanks = field.iter().position(|&b| b != b' ')?;
    let minus = field[blanks] == b'-';
    let start = blanks + usize::from(minus);
    if start > 5 || field[6] != b'.' {
        return None;
    }
    let digits = field[start..6].iter().chain(&field[7..]);
    let mut size = 0;
    for &byte in digits {
        let digit = byte.wrapping_sub(b'0');
        if digit > 9 {
            return None;
        }
        size = 10 * size + i32::from(digit);
    }
    Some(if minus { -size } else { size })
}

fn system(line: &[u8]) -> Option<u8> {
    match line[3] {
        b'G' | b' ' => Some(b'G'),
        b'R' => Some(b'R'),
        _ => None,
    }
}

impl Found {
    /// 3X,A1,I2,2F10.3,34X
    fn satellite(&mut self, line: &[u8]) -> Option<()> {
        let [bias, rms] = numbers(line, 6)?;
        let (system, number) = (system(line)?, fields::integer(&line[4..6])? as i32);
        let twice = |given: &[i32]| given[..2] == [i32::from(system), number];
        let good = is_blank(&line[..3])
            && (1..=99).contains(&number)
            && !self.satellites.chunks_exact(4).any(twice);
        self.satellites
            .extend([i32::from(system), number, bias, rms]);
        good.then_some(())
    }

    /// 3X,A1,2X,A20,2F10.3,14X
    fn station(&mut self, line: &[u8]) -> Option<()> {
        let [bias, rms] = numbers(line, 26)?;
        let system = system(line)?;
        let mut key = [system; 21];
        key[1..].copy_from_slice(&line[6..26]);
        self.stations.extend([i32::from(system), bias, rms]);
        self.names.extend(&line[6..26]);
        let good = is_blank(&line[..3]) && is_blank(&line[4..6]) && self.seen.insert(key);
        good.then_some(())
    }
}
