//! Remarks rewritten at random: columns 1 to 60 of COMMENT lines where document 01 allows them, and of lines inside aux
//! blocks. What is known here of a text are the words of document 02's ninth request and those of 01 that it needs; no
//! reader takes part. A library must read both texts alike.

use crate::faults::{Fault, Faulty};
use crate::jobs::{self, Job};
use crate::rng::Rng;
use crate::run::{self, Outcome};
use crate::tally;
use second::{Buffers, Reading, Refusal};

/// The text with its remarks rewritten, every byte that differs printable in both.
pub fn rewritten(rng: &mut Rng, text: &[u8]) -> Vec<u8> {
    let mut changed = text.to_vec();
    let mut place = Place::default();
    let style = rng.below(4);
    for line in changed.split_inclusive_mut(|&b| b == b'\n') {
        if place.is_remark(line) {
            let remark = line.len().min(60);
            rewrite(rng, style, &mut line[..remark]);
        }
    }
    changed
}

/// Other printable bytes for those that are printable.
fn rewrite(rng: &mut Rng, style: usize, remark: &mut [u8]) {
    let only = rng.below(remark.len().max(1));
    let words = b"END OF AUX DATA   COMMENT    -1     9999     1.1            I";
    for (at, byte) in remark.iter_mut().enumerate() {
        let new = match style {
            0 => b' ',
            1 => words[at],
            2 if at != only => *byte,
            _ => rng.printable(),
        };
        if (32..=126).contains(byte) {
            *byte = new;
        }
    }
}

/// Where the next line stands, as far as remarks go.
#[derive(Default)]
struct Place {
    /// The version record has come; then END OF HEADER; then END OF FILE.
    started: bool,
    maps: bool,
    over: bool,
    aux: bool,
    /// Value lines that are still to come in a block.
    due: usize,
}

impl Place {
    /// Whether columns 1 to 60 of the line are a remark; goes on to the next line.
    fn is_remark(&mut self, line: &[u8]) -> bool {
        let line = line.strip_suffix(b"\n").unwrap_or(line);
        let line = line.strip_suffix(b"\r").unwrap_or(line);
        let label = line.get(60..).unwrap_or(b"").trim_ascii_end();
        if self.aux {
            // "lines inside aux blocks", blank ones too; the END line is not inside.
            self.aux = label != b"END OF AUX DATA";
            return self.aux;
        }
        if line.iter().all(|&b| b == b' ') || self.over {
            return false;
        }
        if self.due > 0 {
            self.due -= 1;
            return false;
        }
        match label {
            b"IONEX VERSION / TYPE" => self.started = true,
            b"START OF AUX DATA" => self.aux = !self.maps,
            b"END OF HEADER" => self.maps = true,
            b"END OF FILE" => self.over = true,
            b"LAT/LON1/LON2/DLON/H" => self.due = value_lines(line),
            _ => {}
        }
        label == b"COMMENT" && self.started
    }
}

/// "C values follow, I5, 16 to a line": C by the opening line's own LON1, LON2 and DLON. A line that does not say it is
/// refused, and then nothing behind it matters.
fn value_lines(opening: &[u8]) -> usize {
    let number = |from: usize| -> Option<f64> {
        let field = opening.get(from..from + 6)?;
        std::str::from_utf8(field).ok()?.trim().parse().ok()
    };
    let axis = [number(8), number(14), number(20)];
    let [Some(first), Some(last), Some(step)] = axis else {
        return 0;
    };
    let steps = ((last - first) / step).round() as usize;
    let columns = steps.saturating_add(1);
    columns.div_ceil(16)
}

/// In what the readings of a text and of its twin differ, if they do.
pub fn differs(outcome: &Outcome) -> Option<String> {
    match outcome {
        Outcome::Twins { text, twin, needs } => run::difference(text, twin)
            .or_else(|| (needs[0] != needs[1]).then(|| format!("needs: {needs:?}"))),
        _ => Some("a panic".to_string()),
    }
}

// ---- planted faults ----

listed! {
    /// A reader that lets one byte of a remark through.
    pub enum Leak {
        /// A COMMENT's byte into a text, a description, a value, or the column of a refusal.
        CommentText,
        CommentDescription,
        CommentValue,
        CommentColumn,
        /// A byte of an aux block into the header, the line of a refusal, or what is needed.
        AuxHeader,
        AuxLine,
        AuxNeeds,
    }
}

/// The seed at which rewritten remarks show a leak, and how, within `count` seeds.
pub fn find(leak: Leak, count: u64, seed: u64) -> Option<(u64, String)> {
    let leaky = Faulty(Fault::Leak(leak));
    tally::first(count, seed, |seed| {
        let jobs = jobs::jobs(seed);
        let mut twins = jobs.iter().filter(|job| matches!(job, Job::Twins { .. }));
        twins.find_map(|job| differs(&run::run(&leaky, job)))
    })
}

impl Leak {
    /// Column 31 of the last remark that leaks.
    fn byte(self, text: &[u8]) -> Option<u8> {
        let aux = matches!(self, Leak::AuxHeader | Leak::AuxLine | Leak::AuxNeeds);
        let mut place = Place::default();
        let mut found = None;
        for line in text.split_inclusive(|&b| b == b'\n') {
            if place.is_remark(line) && place.aux == aux {
                found = line.get(30).copied().or(found);
            }
        }
        found
    }

    /// Changes a reading, and its areas, by that byte.
    pub fn into_reading(self, text: &[u8], answer: &mut Reading, areas: &mut Buffers) {
        let byte = self.byte(text).unwrap_or(0);
        let odd = byte & 1;
        match (self, answer) {
            (Leak::CommentText, Reading::Accepted { texts, .. }) => texts.date[19] = byte,
            (Leak::CommentDescription, Reading::Accepted { texts, .. }) => {
                texts.descriptions[0][30] = byte
            }
            (Leak::CommentValue, Reading::Accepted { .. }) => areas.tec[0] ^= i32::from(odd),
            (Leak::AuxHeader, Reading::Accepted { header, .. }) => {
                header.interval ^= i64::from(odd)
            }
            (Leak::CommentColumn, Reading::Refused(Refusal::Place { column, .. })) => {
                *column ^= u64::from(odd)
            }
            (Leak::AuxLine, Reading::Refused(Refusal::Place { line, .. })) => {
                *line ^= u64::from(odd)
            }
            _ => {}
        }
    }

    pub fn into_needs(self, text: &[u8], needs: &mut [usize; 6]) {
        if self == Leak::AuxNeeds {
            needs[0] ^= usize::from(self.byte(text).unwrap_or(0) & 1);
        }
    }
}

#[cfg(test)]
mod tests {
    use super::*;
    use crate::gen::record;

    fn remarks(lines: &[Vec<u8>]) -> Vec<bool> {
        let mut place = Place::default();
        lines.iter().map(|line| place.is_remark(line)).collect()
    }

    #[test]
    fn what_is_a_remark() {
        let line = |label: &str, remark: bool| (record(b"", label), remark);
        let bare = |bytes: &[u8], remark: bool| (bytes.to_vec(), remark);
        let opening = record(b"    10.0   0.0 160.0  10.0 450.0", "LAT/LON1/LON2/DLON/H");
        let table = [
            line("COMMENT", false),
            line("IONEX VERSION / TYPE", false),
            line("COMMENT", true),
            line("comment", false),
            line("DESCRIPTION", false),
            line("START OF AUX DATA", false),
            line("START OF AUX DATA", true),
            line("END OF HEADER", true),
            bare(b"", true),
            bare(b"any", true),
            line("END OF AUX DATA", false),
            line("COMMENT", true),
            line("END OF HEADER", false),
            line("START OF TEC MAP", false),
            line("COMMENT", true),
            (opening, false),
            // 17 values: two lines, blank ones apart, and a COMMENT would be taken for one.
            line("COMMENT", false),
            bare(b"   ", false),
            bare(b"    1\r\n", false),
            line("COMMENT", true),
            line("START OF AUX DATA", false),
            bare(b"    1", false),
            line("END OF FILE", false),
            line("COMMENT", false),
        ];
        let (lines, expected): (Vec<Vec<u8>>, Vec<bool>) = table.into_iter().unzip();
        assert_eq!(remarks(&lines), expected);
    }

    /// The same length; what differs is printable in both, and in columns 1 to 60 of a COMMENT or aux line.
    #[test]
    fn what_is_rewritten() {
        let mut differing = 0;
        for seed in 1..300 {
            for job in jobs::jobs(seed) {
                let Job::Twins { text, twin, .. } = job else {
                    continue;
                };
                assert_eq!(text.len(), twin.len());
                let starts = (0..text.len()).filter(|&at| at == 0 || text[at - 1] == b'\n');
                let starts: Vec<usize> = starts.collect();
                let mut aux = false;
                for (k, &start) in starts.iter().enumerate() {
                    let end = starts.get(k + 1).copied().unwrap_or(text.len());
                    let label = text[start..end].get(60..).unwrap_or(b"").trim_ascii_end();
                    let may = label == b"COMMENT" || (aux && label != b"END OF AUX DATA");
                    aux = (aux || label == b"START OF AUX DATA") && label != b"END OF AUX DATA";
                    for at in (start..end).filter(|&at| text[at] != twin[at]) {
                        assert!(may && at - start < 60, "seed {seed}");
                        assert!((32..=126).contains(&text[at]) && (32..=126).contains(&twin[at]));
                        differing += 1;
                    }
                }
            }
        }
        assert!(differing > 10_000);
    }

    /// The border is real: a byte of a label, of a value or of a description is no remark.
    #[test]
    fn what_is_no_remark() {
        let mut described = 0;
        for seed in 1..30 {
            let Some(Job::Read { text, lent, .. }) = jobs::jobs(seed).into_iter().next() else {
                panic!("a reading comes first");
            };
            let answer = |text: &[u8]| {
                let mut areas = lent.clone();
                let answer = second::read(text, &mut areas.lent());
                (answer, areas)
            };
            // The first one may stand inside an aux block.
            let label = text
                .windows(13)
                .rposition(|bytes| bytes == b"END OF HEADER");
            let label = label.expect("the record");
            let mut changed = text.clone();
            changed[label] = b'?';
            assert_ne!(answer(&text), answer(&changed));
            let opening = text[label..]
                .windows(20)
                .position(|bytes| bytes == b"LAT/LON1/LON2/DLON/H");
            let from = label + opening.expect("a block") + 20;
            let digit = (from..text.len()).find(|&at| text[at].is_ascii_digit());
            let digit = digit.expect("a value");
            let mut changed = text.clone();
            changed[digit] = if text[digit] == b'7' { b'8' } else { b'7' };
            assert_ne!(answer(&text), answer(&changed));
            // The first one may stand inside an aux block, where it is one.
            let Reading::Accepted { header, .. } = answer(&text).0 else {
                panic!("a good text comes first");
            };
            let mut lines = text.split_inclusive(|&b| b == b'\n');
            let description = lines.position(|line| line.get(60..71) == Some(b"DESCRIPTION"));
            if let (Some(line), 1..) = (description, header.descriptions) {
                let before = text.split_inclusive(|&b| b == b'\n').take(line);
                let start: usize = before.map(<[u8]>::len).sum();
                let mut changed = text.clone();
                changed[start] ^= 1;
                described += u64::from(answer(&text) != answer(&changed));
            }
        }
        assert!(described >= 5, "{described}");
    }
}
