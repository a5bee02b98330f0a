//! The program `ionex`: IONEX 1.0 and 1.1 files from the command line.

#![forbid(unsafe_code)]

mod args;
mod carrier;
pub mod commands;
mod crc;
pub mod diagnosis;
mod files;
mod form;
mod index_file;
mod jobs;
mod json;
pub mod mend;
pub mod naming;
mod nodes;
mod numbers;
mod output;
mod place;
pub mod plot;
mod progress;
mod question;
mod questions;
mod refused;
mod status;
mod text;
mod time;

pub use output::Style;
pub use status::{Status, Stop};

use args::Args;
use commands::{Command, COMMANDS};
use files::shown;
use output::{tell, Output};
use status::usage;
use std::ffi::OsString;

const INTRODUCTION: &str = "\
ionex: ionosphere maps of IONEX 1.0 and 1.1, checked, shown and asked

Usage: ionex COMMAND FILE... [OPTIONS]

Commands:
";

const CLOSING: &str = "
  ionex COMMAND --help   what a command takes
  ionex --version        the version

  --max-bytes N          with every command: texts of up to N bytes are read (if nothing is said 1500000000: only
                         remarks make a text longer that is accepted)

A FILE that is - is standard input. All times are universal time (UT).
Exit status: 0 done, 1 a file or a question was refused, 2 a wrong command or a file that cannot be read or written;
of several the highest. 3 of choose: nothing was chosen.
";

/// Runs the program with the words behind its name.
pub fn run(words: Vec<OsString>) -> Status {
    let mut out = Output::new();
    let done = dispatch(words, &mut out).and_then(|status| out.flush().map(|()| status));
    match done {
        Ok(status) => status,
        Err(Stop::ClosedPipe) => out.reached,
        Err(Stop::Refused { words, .. }) => {
            tell(&words);
            Status::Refused
        }
        Err(Stop::Unread { name, words }) => {
            tell(&format!("ionex: {}: {words}", shown(&name)));
            Status::Failed
        }
        Err(Stop::File(words) | Stop::Usage(words)) => {
            tell(&format!("ionex: {}", shown(&words)));
            Status::Failed
        }
    }
}

fn dispatch(words: Vec<OsString>, out: &mut Output) -> Result<Status, Stop> {
    let mut words = words.into_iter();
    let Some(first) = words.next() else {
        tell(introduction().trim_end());
        return Ok(Status::Failed);
    };
    let rest: Vec<OsString> = words.collect();
    let name = first.to_string_lossy();
    match name.as_ref() {
        "--help" | "-h" | "help" => help(&rest, out),
        "--version" | "-V" => out
            .line(concat!("ionex ", env!("CARGO_PKG_VERSION")))
            .map(|()| Status::Done),
        _ => match commands::find(&name) {
            Some(command) => run_command(command, rest, out),
            None => usage(format!(
                "no command {name}{}; see ionex --help",
                meant(&name)
            )),
        },
    }
}

fn run_command(command: &Command, words: Vec<OsString>, out: &mut Output) -> Result<Status, Stop> {
    let before_end = words.iter().take_while(|word| *word != "--");
    if before_end
        .into_iter()
        .any(|word| word == "--help" || word == "-h")
    {
        return out.put(command.help).map(|()| Status::Done);
    }
    let ran = Args::parse(words, &command.options).and_then(|args| run_with(command, &args, out));
    ran.map_err(|stop| match stop {
        Stop::Usage(words) => {
            Stop::Usage(format!("{0}: {words}; see ionex {0} --help", command.name))
        }
        other => other,
    })
}

/// What ends a command too soon is told in the form that was asked for, where it has that form.
fn run_with(command: &Command, args: &Args, out: &mut Output) -> Result<Status, Stop> {
    let stop = match (command.run)(args, out) {
        Err(stop) if args.has("--json") => stop,
        ran => return ran,
    };
    let Some((status, json)) = stop.json() else {
        return Err(stop);
    };
    out.line(&json)?;
    Ok(status)
}

fn help(words: &[OsString], out: &mut Output) -> Result<Status, Stop> {
    let Some(word) = words.first() else {
        return out.put(introduction()).map(|()| Status::Done);
    };
    let name = word.to_string_lossy();
    match commands::find(&name) {
        Some(command) => out.put(command.help).map(|()| Status::Done),
        None => usage(format!(
            "no command {name}{}; see ionex --help",
            meant(&name)
        )),
    }
}

fn introduction() -> String {
    let row = |command: &&Command| format!("  {:<10} {}\n", command.name, command.does);
    let rows: String = COMMANDS.iter().map(row).collect();
    format!("{INTRODUCTION}{rows}{CLOSING}")
}

/// The command that a slip was made in.
fn meant(name: &str) -> String {
    let near = COMMANDS
        .iter()
        .map(|command| (diagnosis::distance(command.name, name), command.name))
        .min();
    match near {
        Some((slips, command)) if slips <= 2 && slips < name.len() => format!(" ({command}?)"),
        _ => String::new(),
    }
}
