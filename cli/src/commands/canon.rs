//! `ionex canon FILE [-o OUT]`

use super::Command;
use crate::args::{Args, Options};
use crate::output::Output;
use crate::status::{Status, Stop};
use crate::{files, refused};

pub const COMMAND: Command = Command {
    name: "canon",
    does: "writes the canonical text: the same maps in a fixed order and spacing",
    help: HELP,
    options: Options {
        flags: &[],
        values: &["-o"],
    },
    run,
};

const HELP: &str = "\
Usage: ionex canon FILE [-o OUT]

Writes the canonical text of a file: the one text that says the same in a fixed order and spacing. DESCRIPTION lines are
part of it; COMMENT records and aux blocks are not.

  -o OUT   the file to write, in place of standard output; it is replaced only when the text is whole
  -        as FILE: standard input, as OUT: standard output

Exit status: 0 written, 1 the file is refused, 2 it cannot be read or OUT cannot be written.
";

fn run(args: &Args, out: &mut Output) -> Result<Status, Stop> {
    let file = args.one_file()?;
    let text = canonical(&files::name(file), &args.read(file)?)?;
    match args.value("-o") {
        Some(path) if path != "-" => files::replace(path, &text)?,
        _ => out.put(&text)?,
    }
    Ok(Status::Done)
}

/// The canonical text of a text.
pub fn canonical(name: &str, text: &[u8]) -> Result<Vec<u8>, Stop> {
    let maps = refused::read(name, text)?;
    maps.write()
        .map_err(|refusal| Stop::refused(format!("{}: {refusal}", files::shown(name))))
}
