//! `ionex choose FILE|FOLDER... --for TIME [--prefer CENTRES] [-o IN-USE] [--json]`

use super::Command;
use crate::args::{Args, Options};
use crate::json::Object;
use crate::naming::{centre, is_ionex};
use crate::output::{tell, Output, Style};
use crate::status::{unread, usage, Status, Stop};
use crate::{files, refused, time};
use ionex::station::{InForce, Station};
use ionex::{Epoch, NO_VALUE};
use std::cmp::{Ordering, Reverse};
use std::ffi::{OsStr, OsString};
use std::fs;
use std::path::Path;
use std::sync::Arc;

pub const COMMAND: Command = Command {
    name: "choose",
    does: "judges files and chooses the best for a time, in place of the one in use",
    help: HELP,
    options: Options {
        flags: &["--json"],
        values: &["--for", "--prefer", "-o"],
    },
    run,
};

const HELP: &str = "\
Usage: ionex choose FILE|FOLDER... --for TIME [--prefer CENTRES] [-o IN-USE] [--json]

Judges every file, of a folder those that are named as files of maps, and prints them by rank with the reason for it: first
those that cover TIME, of these the preferred ones, then those whose maps stand closer in time, then those with fewer nodes
without a value, then those that reach further. The spacing is that of the epochs, whatever INTERVAL says. Refused files have
no rank and are told behind.

  --for TIME         the time that is to be answered for
  --prefer CENTRES   centres in order of preference, as cod,igs: the first three letters of a file's name
  -o IN-USE          the file that is replaced by the chosen one's bytes as they were judged; else it stays as it is
  --json             one JSON object to a line, for each file one

Exit status: 0 chosen, 1 chosen and some refused or not read, 2 a wrong command or IN-USE cannot be written, 3 nothing
chosen: none is accepted and covers TIME, and IN-USE stays.
";

/// An accepted file.
struct Candidate {
    name: String,
    centre: String,
    text: Vec<u8>,
    maps: Arc<InForce>,
    covers: bool,
    /// Its place among the preferred centres, behind them where it is none.
    preference: usize,
    /// The most seconds between two maps; nothing where there is one.
    spacing: Option<u64>,
    nodes: usize,
    lacking: usize,
}

/// What the files are judged for, and what is told of those that are not accepted.
struct Judging {
    station: Station,
    time: Epoch,
    preferred: Vec<String>,
    json: bool,
    accepted: Vec<Candidate>,
    others: Vec<String>,
    style: Style,
}

fn run(args: &Args, out: &mut Output) -> Result<Status, Stop> {
    let Some(word) = args.word("--for") else {
        return usage("--for TIME is missing");
    };
    let time = time::parse(&word).or_else(|fault| usage(format!("--for {fault}")))?;
    let preferred = args.word("--prefer").unwrap_or_default();
    let mut judging = Judging {
        station: Station::new([""; 0]),
        time,
        preferred: preferred.split(',').map(str::to_ascii_lowercase).collect(),
        json: args.has("--json"),
        accepted: Vec::new(),
        others: Vec::new(),
        style: out.style,
    };
    for file in listed(args.many_files()?)? {
        judging.judge(&file, args.read(&file));
    }
    judging.accepted.sort_by(rank);
    let chosen = judging.accepted.first().filter(|best| best.covers);
    if let (Some(chosen), Some(path)) = (chosen, args.value("-o")) {
        files::replace(path, &chosen.text)?;
    }
    judging.print(out)?;
    if chosen.is_none() {
        out.flush()?;
        tell(&format!(
            "ionex: no file is accepted and covers {}",
            time::words(time)
        ));
        return Ok(Status::Nothing);
    }
    Ok(match judging.others.is_empty() {
        true => Status::Done,
        false => Status::Refused,
    })
}

/// The files, and those of folders by their names.
fn listed(given: &[OsString]) -> Result<Vec<OsString>, Stop> {
    let mut all = Vec::new();
    for file in given {
        if file == "-" || !Path::new(file).is_dir() {
            all.push(file.clone());
            continue;
        }
        let entries = fs::read_dir(file);
        let entries = entries.map_err(|fault| {
            Stop::File(format!("{}: {}", files::name(file), files::words(&fault)))
        })?;
        let paths = entries.filter_map(|entry| entry.ok().map(|entry| entry.path()));
        let mut found: Vec<OsString> = paths
            .filter(|path| path.is_file() && is_ionex(&last(path.as_os_str())))
            .map(OsString::from)
            .collect();
        found.sort();
        all.extend(found);
    }
    Ok(all)
}

/// The last part of a path.
fn last(file: &OsStr) -> String {
    let name = Path::new(file).file_name().unwrap_or(file);
    name.to_string_lossy().into_owned()
}

impl Judging {
    fn judge(&mut self, file: &OsStr, read: Result<Vec<u8>, Stop>) {
        let name = files::name(file);
        let text = match read {
            Ok(text) => text,
            Err(stop) => return self.others.push(self.unread(&name, stop)),
        };
        // Each file is a source of its own: none takes another's place.
        let place = format!("{} {name}", self.accepted.len() + self.others.len());
        match self.station.offer(&place, &name, &text) {
            Err(refusal) if self.json => self
                .others
                .push(refused::json(&name, &text, &refusal).to_string()),
            Err(refusal) => self
                .others
                .push(refused::words(&name, &text, &refusal, self.style)),
            Ok(accepted) => {
                let candidate = accepted
                    .in_force
                    .map(|maps| self.candidate(name, &last(file), text, maps));
                self.accepted.extend(candidate);
            }
        }
    }

    fn unread(&self, name: &str, stop: Stop) -> String {
        let words = match stop {
            Stop::Unread { words, .. } => words,
            _ => "not read".to_string(),
        };
        match self.json {
            true => unread(name, &words).to_string(),
            false => format!("ionex: {}: {words}", files::shown(name)),
        }
    }

    fn candidate(&self, name: String, last: &str, text: Vec<u8>, maps: Arc<InForce>) -> Candidate {
        let centre = centre(last);
        let preferred = self.preferred.iter().position(|other| *other == centre);
        let epochs = maps.maps.epochs();
        let gaps = epochs
            .windows(2)
            .map(|pair| pair[1].seconds() - pair[0].seconds());
        let numbers = &maps.maps.as_areas().tec;
        Candidate {
            covers: maps.covers(self.time),
            preference: preferred.unwrap_or(self.preferred.len()),
            spacing: gaps.max(),
            nodes: numbers.len(),
            lacking: numbers.iter().filter(|number| **number == NO_VALUE).count(),
            name,
            centre,
            text,
            maps,
        }
    }

    /// The ranking, and behind it what has no rank.
    fn print(&self, out: &mut Output) -> Result<(), Stop> {
        for (at, candidate) in self.accepted.iter().enumerate() {
            let line = match self.json {
                true => self.object(at, candidate).to_string(),
                false => self.line(at, candidate),
            };
            out.line(&line)?;
        }
        self.others.iter().try_for_each(|words| out.line(words))
    }

    /// A file of the ranking, counted from 0.
    fn object(&self, at: usize, of: &Candidate) -> Object {
        let header = of.maps.maps.header();
        let chosen = at == 0 && of.covers;
        Object::new()
            .text("file", &of.name)
            .text("status", if chosen { "chosen" } else { "accepted" })
            .raw("rank", at + 1)
            .text("centre", &of.centre)
            .raw("preferred", of.preference < self.preferred.len())
            .raw("covers", of.covers)
            .text("first", &header.first.to_string())
            .text("last", &header.last.to_string())
            .maybe("spacing", of.spacing)
            .raw("nodes", of.nodes)
            .raw("lacking", of.lacking)
    }

    /// The same for people.
    fn line(&self, at: usize, of: &Candidate) -> String {
        let header = of.maps.maps.header();
        let chosen = if at == 0 && of.covers { ": chosen" } else { "" };
        let name = self.style.bold(&format!("{}{chosen}", of.name));
        let covers = if of.covers {
            "covers"
        } else {
            "does not cover"
        };
        let time = time::words(self.time);
        let (first, last) = (time::words(header.first), time::words(header.last));
        let preferred = match of.preference < self.preferred.len() {
            true => format!(", preferred {}", of.preference + 1),
            false => String::new(),
        };
        let spacing = match of.spacing {
            Some(seconds) => format!("maps {seconds} s apart"),
            None => "one map".to_string(),
        };
        let Candidate {
            centre,
            lacking,
            nodes,
            ..
        } = of;
        format!(
            "{} {name}: {covers} {time} ({first} to {last}), {centre}{preferred}, {spacing}, \
             {lacking} of {nodes} nodes without a value",
            at + 1
        )
    }
}

/// Which of two is better, told by the help.
fn rank(one: &Candidate, other: &Candidate) -> Ordering {
    // One map alone is the widest spacing.
    let spacing = |of: &Candidate| of.spacing.unwrap_or(u64::MAX);
    let first = |of: &Candidate| (!of.covers, of.preference, spacing(of));
    let share = |of: &Candidate, whole: &Candidate| of.lacking as u128 * whole.nodes as u128;
    let reach = |of: &Candidate| Reverse(of.maps.maps.header().last);
    first(one)
        .cmp(&first(other))
        .then_with(|| share(one, other).cmp(&share(other, one)))
        .then_with(|| reach(one).cmp(&reach(other)))
}
