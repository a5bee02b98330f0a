//! `ionex mend FILE -o OUT`

use super::{check, Command};
use crate::args::{Args, Options};
use crate::files::{self, shown};
use crate::mend::{mend, Mended};
use crate::numbers::counted;
use crate::output::{tell, Output, Style};
use crate::refused;
use crate::status::{usage, Status, Stop};

pub const COMMAND: Command = Command {
    name: "mend",
    does: "repairs what some centres write beside the form, and tells each repair",
    help: HELP,
    options: Options {
        flags: &[],
        values: &["-o"],
    },
    run,
};

const HELP: &str = "\
Usage: ionex mend FILE -o OUT

Repairs a file that is refused for what some centres write beside the form. Each repair is told as `FILE:LINE: mended: WHAT`,
the mended text is read as every other, and OUT is written only where it is accepted then. These repairs there are:

  END OF FILE added, where every kind of map that was begun has come to its last map; else the file is cut
  byte 26 removed at the end
  hour 24 made hour 0 of the next day, in the EPOCH records
  the twenty-first DESCRIPTION and those behind it made COMMENT
  RMS and height maps that stand before their TEC maps put behind all TEC maps, with the EXPONENT that was in force
  CR made LF, where it alone ends the lines

A file that is accepted as it is is written as it is.

  -o OUT   the file to write; it is replaced only when the text is whole
  -        as FILE: standard input, as OUT: standard output, and the repairs are told on standard error

Exit status: 0 written, 1 the file is refused all the same, 2 it cannot be read or OUT cannot be written.
";

fn run(args: &Args, out: &mut Output) -> Result<Status, Stop> {
    let file = args.one_file()?;
    let Some(path) = args.value("-o") else {
        return usage("no -o OUT is given");
    };
    let (name, out_name) = (files::name(file), files::out_name(path));
    let mended = mend(args.read(file)?);
    let told = told(&mended, &name, &out_name, out.style)?;
    if path == "-" {
        out.put(&mended.text)?;
        out.flush()?;
        tell(&told);
    } else {
        files::replace(path, &mended.text)?;
        out.line(&told)?;
    }
    Ok(Status::Done)
}

/// Each repair with its line, and what is written; or why nothing is.
fn told(mended: &Mended, name: &str, out_name: &str, style: Style) -> Result<String, Stop> {
    let (name, out_name) = (shown(name), shown(out_name));
    let repairs = mended.repairs.iter();
    let mut told: Vec<String> = repairs
        .map(|repair| format!("{name}:{}: mended: {}", repair.line, repair.words))
        .collect();
    match &mended.maps {
        Ok(maps) => {
            if told.is_empty() {
                told.push(format!("{name}: accepted as it is"));
            }
            told.push(format!("{out_name}: {}", check::accepted(maps)));
            Ok(told.join("\n"))
        }
        Err(refusal) => {
            let made = counted(told.len(), "repair");
            told.push(refused::words(&name, &mended.text, refusal, style));
            told.push(format!("{out_name}: not written: refused after {made}"));
            Err(Stop::refused(told.join("\n")))
        }
    }
}
