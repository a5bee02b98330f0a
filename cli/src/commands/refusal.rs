//! `ionex refusal [NUMBER..]`

use super::Command;
use crate::args::{Args, Options};
use crate::output::Output;
use crate::status::{usage, Status, Stop};

pub const COMMAND: Command = Command {
    name: "refusal",
    does: "says what a refusal's number means, and what to do",
    help: HELP,
    options: Options {
        flags: &[],
        values: &[],
    },
    run,
};

const HELP: &str = "\
Usage: ionex refusal [NUMBER..]

Says what the number of a refusal means, what to do, and gives an example; without a number, all of them in a line each. The
rows are those of docs/REFUSALS.md.

Exit status: 0 shown, 2 there is no refusal of that number.
";

/// The page that people read has the rows.
const PAGE: &str = include_str!("../../../docs/REFUSALS.md");

/// A row of the page: number, meaning, what to do, example.
fn rows() -> impl Iterator<Item = [&'static str; 4]> {
    let cells = |line: &'static str| -> Option<[&'static str; 4]> {
        let row: Vec<&str> = line.split('|').map(str::trim).collect();
        let [_, number, meaning, to_do, example, _] = row[..] else {
            return None;
        };
        number.parse::<u64>().ok()?;
        Some([number, meaning, to_do, example])
    };
    PAGE.lines().filter_map(cells)
}

fn run(args: &Args, out: &mut Output) -> Result<Status, Stop> {
    if args.files.is_empty() {
        for [number, meaning, ..] in rows() {
            out.line(&format!("{number:>3}  {meaning}"))?;
        }
        return Ok(Status::Done);
    }
    for word in &args.files {
        let word = word.to_string_lossy();
        let Some([number, meaning, to_do, example]) = rows().find(|row| row[0] == word) else {
            return usage(format!("{word:?}: there is no such refusal"));
        };
        out.line(&format!("{number}: {meaning}"))?;
        out.line(&format!("    What to do: {to_do}"))?;
        out.line(&format!("    Example: {example}"))?;
    }
    Ok(Status::Done)
}
