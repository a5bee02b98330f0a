//! `ionex check FILE...`

use super::Command;
use crate::args::{Args, Options};
use crate::json::Object;
use crate::numbers::counted;
use crate::output::{tell, Output, Style};
use crate::progress::Progress;
use crate::status::{Status, Stop};
use crate::{files, jobs, refused, status, time};
use ionex::{Kind, MapSet};
use std::ffi::OsString;

pub const COMMAND: Command = Command {
    name: "check",
    does: "tells of each file whether it is accepted, or where and why it is refused",
    help: HELP,
    options: Options {
        flags: &["--json"],
        values: &["--jobs"],
    },
    run,
};

const HELP: &str = "\
Usage: ionex check FILE... [--jobs N] [--json]

Reads each file and prints a line: `FILE: ok` and what it holds, or `FILE:LINE:COLUMN: refused N:` and why, the line
itself with a mark under the column, and what was expected there. Column 0 is a rule over several fields or records.
Several files are read at once, and told in the order in which they are given.

  --jobs N how many files are read at once (if nothing is said, as many as the machine has cores)
  --json   one JSON object to a line, for each file one
  -        as FILE: standard input

Exit status: 0 all are accepted, 1 one is refused, 2 one cannot be read.
";

fn run(args: &Args, out: &mut Output) -> Result<Status, Stop> {
    let files = args.many_files()?;
    let jobs = args.number("--jobs", 1)?;
    let jobs = jobs.map_or_else(jobs::cores, |jobs| {
        usize::try_from(jobs).unwrap_or(usize::MAX)
    });
    let (json, style) = (args.has("--json"), out.style);
    let mut progress = Progress::new(format!("of {}", counted(files.len(), "file")), 1);
    let look = |file: &OsString| {
        let name = files::name(file);
        let text = args.read(file)?;
        Ok(answer(&name, &text, json, style))
    };
    jobs::in_order(files, jobs, look, |looked| {
        progress.step();
        told(looked, json, out)
    })?;
    Ok(out.reached)
}

/// Tells of a file that was looked at.
fn told(looked: Result<(Status, String), Stop>, json: bool, out: &mut Output) -> Result<(), Stop> {
    let (status, words) = match looked {
        Ok(looked) => looked,
        Err(Stop::Unread { name, words }) => return unread(&name, &words, json, out),
        Err(other) => return Err(other),
    };
    out.reached = out.reached.max(status);
    out.line(&words)?;
    out.flush()
}

/// A file that cannot be read; the files behind it are looked at all the same.
pub fn unread(name: &str, words: &str, json: bool, out: &mut Output) -> Result<(), Stop> {
    out.reached = Status::Failed;
    if json {
        return out.line(&status::unread(name, words).to_string());
    }
    out.flush()?;
    tell(&format!("ionex: {}: {words}", files::shown(name)));
    Ok(())
}

/// What is printed of a text, without the last line end.
pub fn answer(name: &str, text: &[u8], json: bool, style: Style) -> (Status, String) {
    match (MapSet::read(text), json) {
        (Ok(maps), false) => (
            Status::Done,
            format!(
                "{} {}",
                style.bold(&format!("{}:", files::shown(name))),
                accepted(&maps)
            ),
        ),
        (Ok(maps), true) => (Status::Done, accepted_json(name, &maps).to_string()),
        (Err(refusal), false) => (Status::Refused, refused::words(name, text, &refusal, style)),
        (Err(refusal), true) => (
            Status::Refused,
            refused::json(name, text, &refusal).to_string(),
        ),
    }
}

/// How many maps of each kind stand.
pub fn standing(maps: &MapSet) -> [usize; 3] {
    Kind::ALL.map(|kind| (0..maps.maps()).filter(|&map| maps.has(kind, map)).count())
}

/// `ok, 25 TEC and 25 RMS maps, 71 × 73, 2010-12-04 00:00:00 to 2010-12-05 00:00:00`
pub fn accepted(maps: &MapSet) -> String {
    let layers = match maps.layers() {
        1 => String::new(),
        layers => format!("{} of ", counted(layers, "layer")),
    };
    format!(
        "ok, {}, {layers}{} × {}, {} to {}",
        map_counts(standing(maps)),
        maps.rows(),
        maps.columns(),
        time::words(maps.header().first),
        time::words(maps.header().last)
    )
}

/// `5 TEC, 5 RMS and 2 height maps`
fn map_counts(standing: [usize; 3]) -> String {
    let counts: Vec<String> = Kind::ALL
        .iter()
        .zip(standing)
        .filter(|(_, count)| *count > 0)
        .map(|(kind, count)| format!("{count} {kind}"))
        .collect();
    let maps = if standing == [1, 0, 0] { "map" } else { "maps" };
    match counts.split_last() {
        Some((last, [])) => format!("{last} {maps}"),
        Some((last, first)) => format!("{} and {last} {maps}", first.join(", ")),
        None => String::new(),
    }
}

fn accepted_json(name: &str, maps: &MapSet) -> Object {
    let [tec, rms, height] = standing(maps);
    Object::new()
        .text("file", name)
        .text("status", "ok")
        .raw("tec_maps", tec)
        .raw("rms_maps", rms)
        .raw("height_maps", height)
        .raw("layers", maps.layers())
        .raw("rows", maps.rows())
        .raw("columns", maps.columns())
        .text("first", &maps.header().first.to_string())
        .text("last", &maps.header().last.to_string())
}

#[cfg(test)]
mod tests {
    use super::*;

    #[test]
    fn counts_in_words() {
        assert_eq!(map_counts([1, 0, 0]), "1 TEC map");
        assert_eq!(map_counts([2, 0, 0]), "2 TEC maps");
        assert_eq!(map_counts([25, 25, 0]), "25 TEC and 25 RMS maps");
        assert_eq!(map_counts([5, 1, 2]), "5 TEC, 1 RMS and 2 height maps");
    }
}
