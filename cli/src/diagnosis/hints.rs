//! What a refused file is likely to be, and what to do with it.

use super::biases;
use super::labels;
use super::missing::values_due;
use super::records::{bias_record_of, label_of};
use super::state::Stage;
use super::Place;
use crate::mend::next_day;
use crate::text;

/// Files that are no text of IONEX, by their first bytes.
const MAGIC: [(&[u8], &str); 10] = [
    (
        b"\x1f\x8b",
        "this is a gzip file: unpack it with `gunzip` first",
    ),
    (
        b"\x1f\x9d",
        "this is a file of `compress` (.Z): unpack it with `uncompress` or `gzip -d` first",
    ),
    (
        b"BZh",
        "this is a bzip2 file: unpack it with `bunzip2` first",
    ),
    (
        b"PK\x03\x04",
        "this is a zip file: unpack it with `unzip` first",
    ),
    (
        b"\xfd7zXZ",
        "this is an xz file: unpack it with `unxz` first",
    ),
    (
        b"\x28\xb5\x2f\xfd",
        "this is a Zstandard file (.zst): unpack it with `unzstd` first",
    ),
    (
        b"\xef\xbb\xbf",
        "the file begins with a byte-order mark: remove its first three bytes, as by `tail -c +4`",
    ),
    (
        b"\xff\xfe",
        "this is UTF-16 text: convert it to ASCII, as by `iconv -f UTF-16 -t ASCII`",
    ),
    (
        b"\xfe\xff",
        "this is UTF-16 text: convert it to ASCII, as by `iconv -f UTF-16 -t ASCII`",
    ),
    (b"%PDF", "this is a PDF file"),
];

/// The first hint that fits, for the more general ones would only distract from it.
pub fn hints(place: &Place) -> Vec<String> {
    let first = [
        magic,
        html,
        binary,
        version,
        carriage_return,
        end_mark,
        two_files,
        no_ascii,
        end_of_file,
        cut,
        stars,
        shifted,
        blanks_behind,
        tab,
        outside_block,
        biases::other_systems,
        hour_24,
        early_map,
        descriptions,
        label,
    ];
    let found = first.iter().find_map(|hint| hint(place));
    found.into_iter().collect()
}

fn magic(place: &Place) -> Option<String> {
    let found = MAGIC
        .iter()
        .find(|(bytes, _)| place.text.starts_with(bytes));
    found.map(|(_, words)| words.to_string())
}

fn html(place: &Place) -> Option<String> {
    let start: Vec<u8> = place
        .text
        .iter()
        .take(1000)
        .map(u8::to_ascii_lowercase)
        .collect();
    let start = start.trim_ascii_start();
    let is_page = start.starts_with(b"<!doctype html") || start.starts_with(b"<html");
    let is_xml = start.starts_with(b"<?xml") && start.windows(5).any(|part| part == b"<html");
    (is_page || is_xml).then(|| {
        "this is an HTML page, not a file of maps: a server sends one for an error or a login"
            .to_string()
    })
}

/// Bytes that no text has among the first, whatever its line ends and its letters are.
fn binary(place: &Place) -> Option<String> {
    let no_letter = |&byte: &u8| byte < 32 && !b"\t\n\x0c\r\x1a".contains(&byte);
    let count = place
        .text
        .iter()
        .take(1000)
        .copied()
        .filter(|byte| no_letter(byte))
        .count();
    (count > 1).then(|| "this is a binary file, no text".to_string())
}

fn version(place: &Place) -> Option<String> {
    if place.number != 3 {
        return None;
    }
    match place.column {
        21 => Some(
            "other types are other files: `O` observations, `N` navigation messages".to_string(),
        ),
        41 if matches!(&place.card[40..43], b"GPS" | b"GLO") => Some(
            "GPS and GLO are codes of version 1.0; in version 1.1 GNS stands for both".to_string(),
        ),
        _ => None,
    }
}

fn carriage_return(place: &Place) -> Option<String> {
    let is_return = place.bytes.get(place.column.wrapping_sub(1)) == Some(&b'\r');
    let is_text = |&byte: &u8| byte == b'\r' || (32..127).contains(&byte);
    let many = place.bytes.iter().filter(|&&byte| byte == b'\r').count() > 1
        && place.bytes.iter().all(is_text);
    let words = match place.number {
        1 | 2 if many => "lines end in CR alone here: turn them into LF, as by `tr '\\r' '\\n'`",
        2 if is_return => "a line ends in LF or CR LF, and here is a CR too many: delete it",
        _ => return None,
    };
    Some(words.to_string())
}

/// Byte 26 behind the last line.
fn end_mark(place: &Place) -> Option<String> {
    let mark = place.number == 2 && place.bytes.get(place.column.wrapping_sub(1)) == Some(&26);
    let rest = place
        .text
        .iter()
        .rev()
        .take_while(|byte| b"\r\n \x1a".contains(byte));
    (mark && rest.filter(|&&byte| byte == 26).count() > 0).then(|| {
        "old systems put byte 26 at the end of a file: `ionex mend` removes it".to_string()
    })
}

/// A version record in mid-text: a second file was put behind the first.
fn two_files(place: &Place) -> Option<String> {
    let doubled = place.state.stage == Stage::Header && place.state.given.is_empty();
    let second = place.number == 5 && place.label() == "IONEX VERSION / TYPE" && !doubled;
    let before = place.line - 1;
    second.then(|| match place.state.stage {
        Stage::After => format!("two files one after the other: the first is lines 1 to {before}, as by `head -n {before}`"),
        _ => format!("two files one after the other, and the first breaks off on line {before}"),
    })
}

fn no_ascii(place: &Place) -> Option<String> {
    let bytes = place.bytes.get(place.column.wrapping_sub(1)..)?;
    if place.number != 2 || bytes.first().is_none_or(|&byte| byte <= 127) {
        return None;
    }
    let letter = match bytes
        .utf8_chunks()
        .next()
        .and_then(|chunk| chunk.valid().chars().next())
    {
        Some(letter) => format!("the letter `{letter}` of UTF-8"),
        None => format!("byte {}, a letter of Latin-1 perhaps,", bytes[0]),
    };
    let label = shifted_label(place.bytes);
    match label {
        "COMMENT" | "DESCRIPTION" | "PGM / RUN BY / DATE" | "OBSERVABLES USED" => Some(format!(
            "{letter} stands in a remark ({label}): write it in ASCII, the maps do not change"
        )),
        _ if place.state.stage == Stage::Aux => Some(format!(
            "{letter} stands in an aux block: write it in ASCII, the maps do not change"
        )),
        _ => Some(format!(
            "{letter} has no place in a line of IONEX, which is ASCII"
        )),
    }
}

/// The label of a line, also where letters of two bytes have moved it to the right.
fn shifted_label(bytes: &[u8]) -> &'static str {
    let extra = bytes.iter().filter(|&&byte| byte & 0xc0 == 0x80).count();
    let label = label_of(&text::card(bytes));
    if !label.is_empty() || extra > 60 {
        return label;
    }
    let straight: Vec<u8> = bytes
        .iter()
        .copied()
        .filter(|byte| byte & 0xc0 != 0x80)
        .collect();
    label_of(&text::card(&straight))
}

/// All TEC maps stand. Where another kind was begun and has not come to its end, the file is cut; else END OF FILE alone may
/// be missing.
fn end_of_file(place: &Place) -> Option<String> {
    if place.number != 10 || !place.state.tec_maps_stand() {
        return None;
    }
    Some(match place.state.broken_off() {
        Some((kind, last)) => format!(
            "{kind} maps end at {last} of {}: the file was probably cut off, so fetch it again",
            place.state.maps
        ),
        None => {
            "some centres leave END OF FILE out; if nothing else is missing, add it: `printf '%60sEND OF FILE\\n' '' >>FILE`"
                .to_string()
        }
    })
}

fn cut(place: &Place) -> Option<String> {
    let last = text::line(place.text, place.line + 1).is_none();
    let begun = match place.number {
        4 => labels::begins(&text::columns(&place.card, 61, 20)),
        _ => values_due(&place.state) > 0 && place.label().is_empty(),
    };
    let in_mid_line = begun && last && !place.text.ends_with(b"\n");
    let in_block = values_due(&place.state) > 0 && !place.label().is_empty();
    let words = match place.number {
        10 if place.text.is_empty() => "nothing was written into this file: fetch it again",
        10 if matches!(place.state.stage, Stage::Header | Stage::Maps) => {
            "the file was cut off, on its way or while it was written: fetch it again"
        }
        4 | 6 if in_mid_line => {
            "the text ends in mid-line: the file was cut off, so fetch it again"
        }
        6 if in_block => "lines are missing here, or a line lost values",
        _ => return None,
    };
    Some(words.to_string())
}

/// Fortran's sign for a number too wide for its field.
fn stars(place: &Place) -> Option<String> {
    let field = place.bytes.get(place.column.wrapping_sub(1)..)?;
    let stars = place.number == 6 && field.starts_with(b"*");
    stars.then(|| "stars are written where a number is too wide for its field".to_string())
}

/// A line that is too long because its label stands too far to the right.
fn shifted(place: &Place) -> Option<String> {
    let (label, column) = labels::found(place.bytes)?;
    (place.number == 1 && column > 61).then(|| labels::elsewhere(label, column))
}

fn blanks_behind(place: &Place) -> Option<String> {
    let behind = place.bytes.get(80..)?;
    let only = place.number == 1 && text::blank(behind);
    only.then(|| {
        "only blanks stand behind column 80: remove them, as by `sed 's/ *$//'`".to_string()
    })
}

fn tab(place: &Place) -> Option<String> {
    let byte = place.bytes.get(place.column.wrapping_sub(1));
    let is_tab = place.number == 2 && byte == Some(&b'\t');
    is_tab.then(|| "write blanks in the place of the tab, as by `expand`".to_string())
}

/// A bias where no aux block is open.
fn outside_block(place: &Place) -> Option<String> {
    let record = bias_record_of(&place.card)?;
    (place.number == 4).then(|| {
        let label = record.label;
        format!("{label} belongs between START OF AUX DATA and END OF AUX DATA, in the header")
    })
}

/// The end of a day, which is written as the start of the next.
fn hour_24(place: &Place) -> Option<String> {
    let is_hour = place.number == 7 && place.column == 19 && place.label().starts_with("EPOCH OF ");
    (is_hour && next_day(&place.card).is_some())
        .then(|| "24:00:00 is 00:00:00 of the next day: `ionex mend` writes it so".to_string())
}

/// A map that stands before the TEC map it belongs to.
fn early_map(place: &Place) -> Option<String> {
    let (label, state) = (place.label(), &place.state);
    let starts = matches!(label, "START OF RMS MAP" | "START OF HEIGHT MAP");
    let number = text::number(&place.card, 1, 6)?;
    let early = (state.ended[0] + 1..=state.maps).contains(&number);
    (place.number == 8 && starts && early).then(|| {
        "it stands before its TEC map: if all maps are there, `ionex mend` puts them in order"
            .to_string()
    })
}

/// One DESCRIPTION too many.
fn descriptions(place: &Place) -> Option<String> {
    let many =
        place.number == 5 && place.label() == "DESCRIPTION" && place.state.stage == Stage::Header;
    many.then(|| {
        "there may be any number of COMMENT lines, which are skipped: make COMMENT of those that are too many"
            .to_string()
    })
}

fn label(place: &Place) -> Option<String> {
    let unknown = place.number == 4 || place.number == 3 && place.label().is_empty();
    unknown.then(|| labels::meant(place)).flatten()
}
