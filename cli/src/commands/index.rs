//! `ionex index FILE -o FILE.index`

use super::Command;
use crate::args::{Args, Options};
use crate::output::Output;
use crate::status::{usage, Status, Stop};
use crate::{files, index_file, refused};
use ionex::Index;

pub const COMMAND: Command = Command {
    name: "index",
    does: "writes an index beside a file, by which `ionex node` finds one node",
    help: HELP,
    options: Options {
        flags: &[],
        values: &["-o"],
    },
    run,
};

const HELP: &str = "\
Usage: ionex index FILE -o OUT

Writes an index file: the header, which maps stand, and for each row of each map where it stands in the file and its
exponent. By both `ionex node` answers for one node without reading the whole file into maps.

  -o OUT   the index file to write, as FILE.index; it is replaced only when the index is whole
  -        as FILE: standard input, as OUT: standard output

Exit status: 0 written, 1 the file is refused, 2 it cannot be read or OUT cannot be written.
";

fn run(args: &Args, out: &mut Output) -> Result<Status, Stop> {
    let file = args.one_file()?;
    let Some(path) = args.value("-o") else {
        return usage("no -o OUT is given");
    };
    if path != "-" && file != "-" && files::same(file, path) {
        return usage("OUT is FILE itself, which the index is made of");
    }
    let (name, text) = (files::name(file), args.read(file)?);
    let index = Index::make(&text).map_err(|refusal| refused::text_stop(&name, &text, &refusal))?;
    let bytes = index_file::bytes(&index);
    match path {
        path if path != "-" => files::replace(path, &bytes)?,
        _ => out.put(&bytes)?,
    }
    Ok(Status::Done)
}
