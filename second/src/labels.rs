//! The labels of columns 61 to 80 and the layout of columns 1 to 60 of each
//! record, used by the reader and the writer alike.

use crate::fields;
use crate::lines::Card;

/// One part of a layout, with its width.
#[derive(Clone, Copy, Debug, PartialEq, Eq)]
pub enum Part {
    /// "Columns marked X must be blank."
    X(usize),
    /// An A field, "taken as it stands".
    A(usize),
    /// In.
    I(usize),
    /// Fn.1, held in tenths.
    F(usize),
    /// Fn.3, held in thousandths; in the records of code biases only.
    D(usize),
    /// Columns 22 to 40 and 44 to 60 of the version record, "not looked at".
    Free(usize),
}

#[derive(Clone, Copy, Debug, PartialEq, Eq)]
pub enum Label {
    Version,
    Program,
    Description,
    Comment,
    FirstEpoch,
    LastEpoch,
    Interval,
    MapCount,
    MappingFunction,
    ElevationCutoff,
    Observables,
    Stations,
    Satellites,
    System,
    BaseRadius,
    Dimension,
    Heights,
    Latitudes,
    Longitudes,
    Exponent,
    StartAux,
    EndAux,
    EndHeader,
    StartTec,
    StartRms,
    StartHeight,
    CurrentEpoch,
    Block,
    EndTec,
    EndRms,
    EndHeight,
    EndFile,
}

use Label as L;
use Part::{Free, A, D, F, I, X};

const TEXT: &[Part] = &[A(60)];
const NOTHING: &[Part] = &[X(60)];
const WHOLE: &[Part] = &[I(6), X(54)];
const DECIMAL: &[Part] = &[F(8), X(52)];
const EPOCH: &[Part] = &[I(6), I(6), I(6), I(6), I(6), I(6), X(24)];
const AXIS: &[Part] = &[X(2), F(6), F(6), F(6), X(40)];
const BLOCK: &[Part] = &[X(2), F(6), F(6), F(6), F(6), F(6), X(28)];
const VERSION: &[Part] = &[F(8), X(12), A(1), Free(19), A(3), Free(17)];
const MAPPING: &[Part] = &[X(2), A(4), X(54)];
const SYSTEM: &[Part] = &[X(5), A(1), I(6), I(6), X(42)];

/// Number of labels.
pub const LABELS: usize = 32;

/// Every label in the order of `Label`, with its layout.
const TABLE: [(Label, &str, &[Part]); LABELS] = [
    (L::Version, "IONEX VERSION / TYPE", VERSION),
    (L::Program, "PGM / RUN BY / DATE", &[A(20), A(20), A(20)]),
    (L::Description, "DESCRIPTION", TEXT),
    (L::Comment, "COMMENT", TEXT),
    (L::FirstEpoch, "EPOCH OF FIRST MAP", EPOCH),
    (L::LastEpoch, "EPOCH OF LAST MAP", EPOCH),
    (L::Interval, "INTERVAL", WHOLE),
    (L::MapCount, "# OF MAPS IN FILE", WHOLE),
    (L::MappingFunction, "MAPPING FUNCTION", MAPPING),
    (L::ElevationCutoff, "ELEVATION CUTOFF", DECIMAL),
    (L::Observables, "OBSERVABLES USED", TEXT),
    (L::Stations, "# OF STATIONS", WHOLE),
    (L::Satellites, "# OF SATELLITES", WHOLE),
    (L::System, "SYS / #STA / #SAT", SYSTEM),
    (L::BaseRadius, "BASE RADIUS", DECIMAL),
    (L::Dimension, "MAP DIMENSION", WHOLE),
    (L::Heights, "HGT1 / HGT2 / DHGT", AXIS),
    (L::Latitudes, "LAT1 / LAT2 / DLAT", AXIS),
    (L::Longitudes, "LON1 / LON2 / DLON", AXIS),
    (L::Exponent, "EXPONENT", WHOLE),
    (L::StartAux, "START OF AUX DATA", TEXT),
    (L::EndAux, "END OF AUX DATA", TEXT),
    (L::EndHeader, "END OF HEADER", NOTHING),
    (L::StartTec, "START OF TEC MAP", WHOLE),
    (L::StartRms, "START OF RMS MAP", WHOLE),
    (L::StartHeight, "START OF HEIGHT MAP", WHOLE),
    (L::CurrentEpoch, "EPOCH OF CURRENT MAP", EPOCH),
    (L::Block, "LAT/LON1/LON2/DLON/H", BLOCK),
    (L::EndTec, "END OF TEC MAP", WHOLE),
    (L::EndRms, "END OF RMS MAP", WHOLE),
    (L::EndHeight, "END OF HEIGHT MAP", WHOLE),
    (L::EndFile, "END OF FILE", NOTHING),
];

/// The label of a line: "left-justified, blank-padded and compared byte by byte".
pub fn label_of(card: &Card) -> Option<Label> {
    let row = TABLE.iter().find(|(_, text, _)| has_label(card, text));
    row.map(|row| row.0)
}

pub fn has_label(card: &Card, label: &str) -> bool {
    is_padded(&card[60..80], label)
}

/// Whether columns hold a text and then blanks.
pub fn is_padded(columns: &[u8], text: &str) -> bool {
    let (name, padding) = columns.split_at(text.len());
    name == text.as_bytes() && padding.iter().all(|&b| b == b' ')
}

pub fn layout(label: Label) -> &'static [Part] {
    TABLE[label as usize].2
}

pub fn label_text(label: Label) -> &'static str {
    TABLE[label as usize].1
}

/// All labels, in the order of `Label`.
pub fn all() -> impl Iterator<Item = Label> {
    TABLE.iter().map(|row| row.0)
}

/// The numbers of a record in their order (at most six), or the column for
/// refusal 6: that of the leftmost ill-formed field or non-blank X column.
pub fn numbers(label: Label, card: &Card) -> Result<[i64; 6], u64> {
    numbers_in(layout(label), card)
}

/// The same by a layout.
pub fn numbers_in(layout: &[Part], card: &Card) -> Result<[i64; 6], u64> {
    let mut found = [0; 6];
    let mut count = 0;
    let mut at = 0;
    for &part in layout {
        let field = &card[at..at + width(part)];
        let number = match part {
            X(width) => {
                blank(card, at, at + width)?;
                None
            }
            A(_) | Free(_) => None,
            I(_) => Some(fields::integer(field)),
            F(_) => Some(fields::tenths(field)),
            D(_) => Some(fields::thousandths(field)),
        };
        if let Some(number) = number {
            found[count] = number.ok_or(at as u64 + 1)?;
            count += 1;
        }
        at += width(part);
    }
    Ok(found)
}

/// The column of the first non-blank byte from place `start` (from 0) to `end`.
pub fn blank(card: &Card, start: usize, end: usize) -> Result<(), u64> {
    match card[start..end].iter().position(|&b| b != b' ') {
        Some(k) => Err((start + k) as u64 + 1),
        None => Ok(()),
    }
}

/// The number fields of a record: the place of each, from 0, and its part.
pub fn number_fields(label: Label) -> impl Iterator<Item = (usize, Part)> {
    let mut end = 0;
    layout(label).iter().filter_map(move |&part| {
        let start = end;
        end += width(part);
        matches!(part, I(_) | F(_) | D(_)).then_some((start, part))
    })
}

pub fn width(part: Part) -> usize {
    match part {
        X(width) | A(width) | I(width) | F(width) | D(width) | Free(width) => width,
    }
}

/// The first column of the k-th number (from 0) of a record.
pub fn number_column(label: Label, k: usize) -> u64 {
    let field = number_fields(label).nth(k);
    field.map_or(0, |(at, _)| at as u64 + 1)
}

/// A record as a line of text with its LF: numbers for the I and F parts, texts
/// for the A and Free parts. "Lines end at their last non-blank byte, then LF."
pub fn record(label: Label, numbers: &[i64], texts: &[&[u8]]) -> Vec<u8> {
    let mut line = Vec::with_capacity(81);
    let mut numbers = numbers.iter();
    let mut texts = texts.iter();
    for part in layout(label) {
        match *part {
            X(width) => line.resize(line.len() + width, b' '),
            I(width) => {
                let value = numbers.next().copied().unwrap_or(0);
                line.extend(fields::integer_text(value, width).bytes());
            }
            // No record that is written has D.
            F(width) | D(width) => {
                let value = numbers.next().copied().unwrap_or(0);
                line.extend(fields::tenths_text(value, width).bytes());
            }
            A(width) | Free(width) => {
                let end = line.len() + width;
                line.extend(texts.next().copied().unwrap_or(b""));
                line.resize(end, b' ');
            }
        }
    }
    line.extend(label_text(label).bytes());
    end_line(&mut line);
    line
}

/// Drops trailing blanks and adds the LF.
pub fn end_line(line: &mut Vec<u8>) {
    while line.last() == Some(&b' ') {
        line.pop();
    }
    line.push(b'\n');
}

#[cfg(test)]
mod tests {
    use super::*;

    fn card(body: &str, label: &str) -> Card {
        let mut card = [b' '; 80];
        card[..body.len()].copy_from_slice(body.as_bytes());
        card[60..60 + label.len()].copy_from_slice(label.as_bytes());
        card
    }

    #[test]
    fn table_is_in_order_and_60_wide() {
        for (k, (label, text, parts)) in TABLE.iter().enumerate() {
            assert_eq!(*label as usize, k);
            assert!(text.len() <= 20);
            let wide: usize = parts.iter().map(|&part| width(part)).sum();
            assert_eq!(wide, 60, "{text}");
        }
    }

    #[test]
    fn labels_byte_by_byte() {
        assert_eq!(label_of(&card("", "COMMENT")), Some(Label::Comment));
        assert_eq!(label_of(&card("", " COMMENT")), None);
        assert_eq!(label_of(&card("", "comment")), None);
        assert_eq!(label_of(&card("", "COMMENT            x")), None);
        assert_eq!(label_of(&card("", "")), None);
        assert_eq!(
            label_of(&card("", "IONEX VERSION / TYPE")),
            Some(Label::Version)
        );
    }

    #[test]
    fn leftmost_of_six() {
        let all = |body: &str| numbers(Label::Latitudes, &card(body, ""));
        assert_eq!(all("    87.5 -87.5  -2.5"), Ok([875, -875, -25, 0, 0, 0]));
        assert_eq!(all(" x  87.5 -87.5  -2.5"), Err(2));
        assert_eq!(all("    87.5 -87.5  -2.5 y"), Err(22));
        assert_eq!(all("    87,5 -87.5  -2.5 y"), Err(3));
        assert_eq!(all("    87.5 -87.5   2.5-"), Err(21));
        assert_eq!(all("    87.5  -2.5"), Err(15));
        assert_eq!(number_column(Label::Latitudes, 2), 15);
        assert_eq!(number_column(Label::Block, 4), 27);
        assert_eq!(number_column(Label::System, 0), 7);
        assert_eq!(number_column(Label::FirstEpoch, 5), 31);
    }

    #[test]
    fn records_as_text() {
        let line = record(Label::Interval, &[21600], &[]);
        let text = " 21600                                                      INTERVAL\n";
        assert_eq!(line, text.as_bytes());
        let line = record(Label::System, &[80, 24], &[b"G"]);
        let text =
            "     G    80    24                                          SYS / #STA / #SAT\n";
        assert_eq!(line, text.as_bytes());
    }
}
