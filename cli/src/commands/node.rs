//! `ionex node FILE.index FILE KIND MAP LAYER ROW COLUMN [--block] [--json]`

use super::Command;
use crate::args::{whole, Args, Options};
use crate::json::Object;
use crate::numbers::thousandths;
use crate::output::Output;
use crate::question::{kind_name, KINDS};
use crate::status::{usage, Status, Stop};
use crate::{files, index_file, nodes, refused};
use ionex::{Header, Index, Kind, Refusal, Written};
use std::ffi::OsString;

pub const COMMAND: Command = Command {
    name: "node",
    does: "tells one node of a file by its index, or shows the node's block of lines",
    help: HELP,
    options: Options {
        flags: &["--block", "--json"],
        values: &[],
    },
    run,
};

const HELP: &str = "\
Usage: ionex node FILE.index FILE KIND MAP LAYER ROW COLUMN [--block] [--json]

Tells the number of one node as the file has it, with its exponent and its value, as `116 exponent -1: 11.600 TECU`, or
`9999 exponent -1: no value`. FILE.index is what `ionex index FILE` wrote. Of FILE only the node's row is looked at, and
it is checked: where no such row stands as the index says, as in another file, or where it is damaged, that is refused (50).
The exponent is the index's, so make a new index of a new file.

  KIND     tec, rms or height
  MAP      the map, counted from 1, as the file numbers it
  LAYER ROW COLUMN
           counted from 0; row 0 is at LAT1, column 0 at LON1
  --block  the row's lines as they stand in FILE, in place of the number
  --json   one JSON object; with --block the lines are one of its members
  -        as FILE.index or as FILE: standard input

Exit status: 0 answered, 1 refused, 2 a file cannot be read, or FILE.index is no index file, cut or damaged.
";

/// What is asked for.
struct Asked {
    kind: Kind,
    map: u64,
    layer: u64,
    row: u64,
    column: u64,
}

fn run(args: &Args, out: &mut Output) -> Result<Status, Stop> {
    let [index, file, asked @ ..] = args.many_files()? else {
        return usage(EXPECTED);
    };
    let asked = Asked::of(asked)?;
    let index = index_file::index(&files::name(index), &args.read(index)?)?;
    let text = args.read(file)?;
    let json = args.has("--json");
    let lines = if args.has("--block") {
        asked.block(&index, &text)
    } else {
        None
    };
    match asked.node(&index, &text) {
        Ok(written) if json => {
            let object = asked.answer_json(written, lines);
            out.line(&object.to_string())?;
        }
        Ok(written) => match lines {
            Some(lines) => {
                out.put(lines)?;
                out.put("\n")?;
            }
            None => out.line(&asked.answer(written))?,
        },
        Err(refusal) => return asked.refused(index.header(), &refusal, json, out),
    }
    Ok(Status::Done)
}

const EXPECTED: &str = "expected FILE.index FILE KIND MAP LAYER ROW COLUMN";

impl Asked {
    fn of(words: &[OsString]) -> Result<Asked, Stop> {
        let [kind, numbers @ ..] = words else {
            return usage(EXPECTED);
        };
        let Ok([map, layer, row, column]) = <&[OsString; 4]>::try_from(numbers) else {
            return usage(EXPECTED);
        };
        let kind = kind.to_string_lossy();
        let Some((_, kind)) = KINDS.iter().find(|(name, _)| *name == kind) else {
            let names = KINDS.map(|(name, _)| name).join(", ");
            return usage(format!("KIND {kind}: expected one of {names}"));
        };
        let whole = |name, word: &OsString| whole(name, &word.to_string_lossy(), 0);
        Ok(Asked {
            kind: *kind,
            map: whole("MAP", map)?,
            layer: whole("LAYER", layer)?,
            row: whole("ROW", row)?,
            column: whole("COLUMN", column)?,
        })
    }

    fn node(&self, index: &Index, text: &[u8]) -> Result<Written, Refusal> {
        let &Asked { kind, map, .. } = self;
        index.node(text, kind, map, self.layer, self.row, self.column)
    }

    fn block<'a>(&self, index: &Index, text: &'a [u8]) -> Option<&'a [u8]> {
        let &Asked { kind, map, .. } = self;
        index.block(text, kind, map, self.layer, self.row, self.column)
    }

    /// For people.
    fn answer(&self, written: Written) -> String {
        let value = written
            .value(self.kind)
            .map_or("no value".to_string(), |value| value.to_string());
        format!("{} exponent {}: {value}", written.number, written.exponent)
    }

    /// What was asked, for machines.
    fn json(&self) -> Object {
        Object::new()
            .text("kind", kind_name(self.kind))
            .raw("map", self.map)
            .raw("layer", self.layer)
            .raw("row", self.row)
            .raw("column", self.column)
    }

    fn answer_json(&self, written: Written, lines: Option<&[u8]>) -> Object {
        let value = written.value(self.kind);
        let object = self
            .json()
            .raw("number", written.number)
            .raw("exponent", written.exponent)
            .maybe("value", value.map(|value| thousandths(value.thousandths())))
            .text("unit", nodes::unit(self.kind));
        match lines {
            Some(lines) => object.text("block", &String::from_utf8_lossy(lines)),
            None => object,
        }
    }

    fn refused(
        &self,
        header: &Header,
        refusal: &Refusal,
        json: bool,
        out: &mut Output,
    ) -> Result<Status, Stop> {
        let reason = self.reason(header, refusal);
        let asked = json.then(|| self.json());
        let (status, words) = refused::question(asked, refusal.number(), &reason);
        if !json {
            return Err(Stop::refused(format!("ionex: {words}")));
        }
        out.line(&words)?;
        Ok(status)
    }

    /// What a refusal says, and what in the index stands against it.
    fn reason(&self, header: &Header, refusal: &Refusal) -> String {
        let cause = match refusal.number() {
            21 => self.outside(header),
            22 => Some(format!("there is no {} map {}", self.kind, self.map)),
            31 => Some("header, lengths or marks of the index".to_string()),
            50 => Some(format!(
                "no row {} of layer {} where the index says; it may be of another file",
                self.row, self.layer
            )),
            _ => None,
        };
        match cause {
            Some(cause) => format!("{}: {cause}", refusal.meaning()),
            None => refusal.meaning().to_string(),
        }
    }

    /// The first number that is too large, or map 0.
    fn outside(&self, header: &Header) -> Option<String> {
        if self.map == 0 || self.map > header.maps as u64 {
            return Some(format!(
                "map {} of {}, counted from 1",
                self.map, header.maps
            ));
        }
        let places = [
            ("layer", self.layer, header.heights.nodes()),
            ("row", self.row, header.latitudes.nodes()),
            ("column", self.column, header.longitudes.nodes()),
        ];
        let found = places.iter().find(|(_, at, count)| *at >= *count as u64);
        found.map(|(name, at, count)| format!("{name} {at} of {count}, counted from 0"))
    }
}
