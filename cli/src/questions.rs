//! Questions for a place and a time: one from the options, or many from standard input, one to a line.

use crate::args::Args;
use crate::files;
use crate::form::{quoted, Form};
use crate::json::Object;
use crate::output::{tell, Output};
use crate::place;
use crate::progress::Progress;
use crate::refused;
use crate::status::{usage, Status, Stop};
use crate::time;
use ionex::{Epoch, Place, Refusal};
use std::ffi::OsStr;
use std::io::{self, BufRead, BufReader, IsTerminal, Read};

/// A place and a time, and whether the place was rounded to hundredths.
#[derive(Clone, Copy, Debug, PartialEq, Eq)]
pub struct Asked {
    pub place: Place,
    pub time: Epoch,
    pub rounded: bool,
}

/// The question of the options, or none where standard input has them.
pub fn of(args: &Args, file: &OsStr) -> Result<Option<Asked>, Stop> {
    match given(args)? {
        None if file == "-" => {
            usage("FILE is standard input, so the question needs --at and --time")
        }
        asked => Ok(asked),
    }
}

/// The question of the options, where there is one.
pub fn given(args: &Args) -> Result<Option<Asked>, Stop> {
    match (args.word("--at"), args.word("--time")) {
        (Some(at), Some(time)) => {
            let (place, rounded) = place::parse(&at, args.has("--round"))
                .map_err(|fault| Stop::Usage(format!("--at {fault}")))?;
            let time =
                time::parse(&time).map_err(|fault| Stop::Usage(format!("--time {fault}")))?;
            Ok(Some(Asked {
                place,
                time,
                rounded,
            }))
        }
        (None, None) => Ok(None),
        (Some(_), None) => usage("--at needs --time"),
        (None, Some(_)) => usage("--time needs --at"),
    }
}

/// How a command answers, and what is printed of an answer.
pub trait Answers {
    type Found;
    /// The names of what `csv` tells, each with a comma behind it.
    const COLUMNS: &'static str;

    /// The answer to each, in their order.
    fn find(&self, asked: &[(Place, Epoch)]) -> Vec<Result<Self::Found, Refusal>>;
    /// Why a question is refused.
    fn reason(&self, place: Place, time: Epoch, refusal: &Refusal) -> String;
    fn words(&self, found: &Self::Found) -> String;
    /// What was asked, for machines.
    fn asked(&self, place: Place, time: Epoch) -> Object;
    /// What was asked, and the answer behind it.
    fn json(&self, asked: Object, found: &Self::Found) -> Object;
    /// What `COLUMNS` names, each with a comma behind it.
    fn csv(&self, found: &Self::Found) -> String;
}

/// How many lines are answered at once, where so many are there already.
const BLOCK: usize = 1000;

/// A line of standard input.
enum Line {
    Question(Asked),
    /// No question: what is printed of it, if anything.
    Words(Status, Option<String>),
}

/// Answers in a form.
pub struct Answering<'a, A> {
    pub answers: &'a A,
    pub form: Form,
    /// Whether places are rounded to hundredths.
    pub round: bool,
}

impl<A: Answers> Answering<'_, A> {
    /// Answers the question of the options, or those of standard input.
    pub fn all(&self, asked: Option<Asked>, out: &mut Output) -> Result<Status, Stop> {
        if self.form == Form::Csv {
            out.line(&format!("lat,lon,time,{}refused,reason", A::COLUMNS))?;
        }
        match asked {
            Some(asked) => self.one(asked, out),
            None => self.many(out),
        }
    }

    fn one(&self, asked: Asked, out: &mut Output) -> Result<Status, Stop> {
        let Some(found) = self.answers.find(&[(asked.place, asked.time)]).pop() else {
            return Ok(Status::Done);
        };
        let (status, words) = self.told(asked, found);
        if status == Status::Refused && self.form == Form::Table {
            return Err(Stop::refused(format!("ionex: {words}")));
        }
        out.line(&words)?;
        Ok(status)
    }

    /// What is printed of a question.
    fn told(&self, asked: Asked, found: Result<A::Found, Refusal>) -> (Status, String) {
        let Asked {
            place,
            time,
            rounded,
        } = asked;
        let asked_json = || {
            let object = self.answers.asked(place, time);
            if rounded {
                object.raw("rounded", true)
            } else {
                object
            }
        };
        match (found, self.form) {
            (Ok(found), Form::Table) if rounded => (
                Status::Done,
                format!("{} at {place}", self.answers.words(&found)),
            ),
            (Ok(found), Form::Table) => (Status::Done, self.answers.words(&found)),
            (Ok(found), Form::Json) => {
                let object = self.answers.json(asked_json(), &found);
                (Status::Done, object.to_string())
            }
            (Ok(found), Form::Csv) => {
                let found = self.answers.csv(&found);
                (Status::Done, format!("{place},{time},{found},"))
            }
            (Err(refusal), Form::Csv) => {
                let reason = quoted(&self.answers.reason(place, time, &refusal));
                let empty = ",".repeat(A::COLUMNS.matches(',').count());
                let number = refusal.number();
                (
                    Status::Refused,
                    format!("{place},{time},{empty}{number},{reason}"),
                )
            }
            (Err(refusal), form) => {
                let reason = self.answers.reason(place, time, &refusal);
                let asked = (form == Form::Json).then(asked_json);
                refused::question(asked, refusal.number(), &reason)
            }
        }
    }

    /// Questions from standard input, block by block. What can be answered is, and goes out, before more is waited for.
    fn many(&self, out: &mut Output) -> Result<Status, Stop> {
        if io::stdin().is_terminal() {
            tell("ionex: questions, one to a line: LAT LON TIME");
        }
        let mut source = BufReader::with_capacity(1 << 16, io::stdin());
        let mut progress = Progress::new("answered", 64);
        let mut block = Vec::new();
        let mut first = true;
        while let Some(line) = next_line(&mut source)? {
            if !(first && names(&line)) {
                block.push(self.line(&line));
            }
            first = false;
            // Where no whole line is there, the next one may be long in coming.
            let last = !source.buffer().contains(&b'\n');
            if last || block.len() == BLOCK {
                self.answer_block(&mut block, &mut progress, out)?;
            }
            if last {
                out.flush()?;
            }
        }
        Ok(out.reached)
    }

    fn answer_block(
        &self,
        block: &mut Vec<Line>,
        progress: &mut Progress,
        out: &mut Output,
    ) -> Result<(), Stop> {
        let question = |line: &Line| match line {
            Line::Question(asked) => Some((asked.place, asked.time)),
            Line::Words(..) => None,
        };
        let asked: Vec<(Place, Epoch)> = block.iter().filter_map(question).collect();
        let mut found = self.answers.find(&asked).into_iter();
        for line in block.drain(..) {
            let (status, words) = match line {
                Line::Question(asked) => match found.next() {
                    Some(found) => self.told(asked, found),
                    None => continue,
                },
                Line::Words(status, Some(words)) => (status, words),
                Line::Words(_, None) => continue,
            };
            out.reached = out.reached.max(status);
            out.line(&words)?;
            progress.step();
        }
        Ok(())
    }

    fn line(&self, line: &str) -> Line {
        if line.trim().is_empty() {
            let nothing = match self.form {
                Form::Table => Some(String::new()),
                Form::Json => Some("null".to_string()),
                Form::Csv => None,
            };
            return Line::Words(Status::Done, nothing);
        }
        let fault = match question(line, self.round) {
            Ok(asked) => return Line::Question(asked),
            Err(fault) => fault,
        };
        let words = match self.form {
            Form::Table => format!("not understood: {fault}"),
            Form::Json => {
                let object = Object::new().text("line", line).text("error", &fault);
                object.to_string()
            }
            Form::Csv => {
                let empty = ",".repeat(4 + A::COLUMNS.matches(',').count());
                format!("{empty}{}", quoted(&format!("not understood: {fault}")))
            }
        };
        Line::Words(Status::Failed, Some(words))
    }
}

/// Whether a first line gives the names of what stands below it.
fn names(line: &str) -> bool {
    let start = line.trim_start_matches(['"', ' ', '\u{feff}']).get(..3);
    start.is_some_and(|start| start.eq_ignore_ascii_case("lat"))
}

/// The question of a line, its place rounded to hundredths where that was asked for.
fn question(line: &str, round: bool) -> Result<Asked, String> {
    if !round {
        let (place, time) = parse_line(line)?;
        return Ok(Asked {
            place,
            time,
            rounded: false,
        });
    }
    let (lat, lon, time) = parts(line)?;
    let (place, rounded) = place::of_degrees(lat, lon, true).map_err(|fault| fault.to_string())?;
    Ok(Asked {
        place,
        time: time::parse(&time)?,
        rounded,
    })
}

/// `LAT LON TIME`, with blanks or commas between them.
fn parse_line(line: &str) -> Result<(Place, Epoch), String> {
    let (lat, lon, time) = parts(line)?;
    let place = Place::from_degrees(lat, lon).map_err(|fault| fault.to_string())?;
    Ok((place, time::parse(&time)?))
}

/// The words of a question; a time may be of two.
fn parts(line: &str) -> Result<(&str, &str, String), String> {
    let mut words = line
        .split([' ', '\t', ',', '\r'])
        .filter(|word| !word.is_empty());
    let (Some(lat), Some(lon)) = (words.next(), words.next()) else {
        return Err(format!("{:?}: expected LAT LON TIME", line.trim()));
    };
    let rest: Vec<&str> = words.collect();
    Ok((lat, lon, rest.join(" ")))
}

/// No question is longer, so a line without an end does not fill the memory.
const LONGEST: u64 = 1000;

/// The next line without its end. Of a line that is too long its first bytes, which are no question.
fn next_line(source: &mut impl BufRead) -> Result<Option<String>, Stop> {
    let told = |fault: io::Error| Stop::File(format!("standard input: {}", files::words(&fault)));
    let mut line = Vec::new();
    source
        .by_ref()
        .take(LONGEST)
        .read_until(b'\n', &mut line)
        .map_err(told)?;
    if line.is_empty() {
        return Ok(None);
    }
    if line.last() == Some(&b'\n') {
        line.pop();
    } else if line.len() as u64 == LONGEST {
        source.skip_until(b'\n').map_err(told)?;
        line.truncate(60);
    }
    Ok(Some(String::from_utf8_lossy(&line).into_owned()))
}

#[cfg(test)]
mod tests {
    use super::*;

    #[test]
    fn lines_of_questions() {
        let asked = (
            Place::new(4725, -850),
            time::parse("2010-12-04T06:30:00").unwrap(),
        );
        for line in [
            "47.25 -8.5 2010-12-04T06:30:00",
            "  47.25\t-8.50  2010-12-04 06:30:00\r",
            "47.25,-8.5,2010-12-04T06:30:00",
        ] {
            assert_eq!(parse_line(line), Ok(asked), "{line}");
        }
        for line in [
            "47.25",
            "47.255 8.5 2010-12-04",
            "47.25 8.5",
            "47.25 8.5 noon",
            "a b 2010-12-04",
        ] {
            assert!(parse_line(line).is_err(), "{line}");
        }
    }

    #[test]
    fn lines_of_names() {
        for line in ["lat,lon,time", "\"Latitude\" lon", "LAT LON TIME\r"] {
            assert!(names(line), "{line}");
        }
        for line in ["", "1 2 2010-12-04", "lo", "time,lat,lon"] {
            assert!(!names(line), "{line}");
        }
    }

    #[test]
    fn long_lines_are_cut() {
        let mut text = vec![b'x'; 5000];
        text.extend(b"\nend");
        let mut source = &text[..];
        assert_eq!(next_line(&mut source).unwrap().unwrap(), "x".repeat(60));
        assert_eq!(next_line(&mut source).unwrap().unwrap(), "end");
        assert!(next_line(&mut source).unwrap().is_none());
    }
}
