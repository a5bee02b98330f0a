//! `ionex plot FILE [--map N | --time T] -o OUT.svg`

use super::Command;
use crate::args::{Args, Options};
use crate::numbers::tenths;
use crate::output::Output;
use crate::plot::{animated, draw, png, svg, Field, Picture, Range};
use crate::question::Question;
use crate::status::{usage, Status, Stop};
use crate::{files, nodes, refused, time};
use ionex::{Epoch, Kind, MapSet};
use std::ffi::OsStr;
use std::path::Path;

pub const COMMAND: Command = Command {
    name: "plot",
    does: "draws a map with its graticule and colour scale, as SVG or PNG",
    help: HELP,
    options: Options {
        flags: &["--animate", "--coasts"],
        values: &[
            "--map", "--time", "--kind", "--method", "--layer", "--max", "-o",
        ],
    },
    run,
};

const HELP: &str = concat!(
    "\
Usage: ionex plot FILE [--map N | --time T [--method M] | --animate] [--kind K] [--layer L] [--max X] [--coasts]
       -o OUT.svg|OUT.png

Draws one map: the nodes as coloured cells, with degrees, a colour scale and its unit, and the epoch as title. Nodes
without a value are striped. The file's DESCRIPTION lines stand below the map.

  --map N       the map of this number, counted from 1 (if nothing is said 1)
",
    crate::time_help!(),
    "                What is drawn then are the values at that time, as `ionex ask` gives them for each node.
  --animate     all maps of the kind one after the other, in one SVG; its scale goes round the values of all
  --kind K      tec (if nothing is said), rms or height
  --method M    with --time, as `ionex ask --help` says
  --layer L     the layer, counted from 0 (if nothing is said 0)
  --max X       the scale goes from 0 to X TECU or km, a whole number, so that pictures can be compared; what is larger
                has the colour of X
  --coasts      the coasts too, as white lines
  -o OUT        the picture, replaced only when it is whole; its ending says which form it has
  -             as FILE: standard input, as OUT: standard output, where the picture is SVG

Exit status: 0 drawn, 1 the file or the question is refused, 2 a file cannot be read or written.
"
);

fn run(args: &Args, output: &mut Output) -> Result<Status, Stop> {
    let file = args.one_file()?;
    let question = Question::of(args)?;
    let Some(out) = args.value("-o") else {
        return usage("no -o OUT.svg or OUT.png is given");
    };
    let (as_png, chosen) = (as_png(out)?, Chosen::of(args)?);
    if as_png && args.has("--animate") {
        return usage("--animate makes an SVG");
    }
    let most = args.number("--max", 1)?;
    let name = files::name(file);
    let maps = refused::read(&name, &args.read(file)?)?;
    let mut fields = chosen.fields(&name, &maps, &question)?;
    for field in &mut fields {
        field.coasts = args.has("--coasts");
        if let Some(most) = most {
            // No value of a map is larger than 99,999.000.
            field.range = Range::UpTo(1000 * most.min(100_000) as i64);
        }
    }
    let picture = written(&fields, as_png);
    if out == "-" {
        output.put(&picture)?;
    } else {
        files::replace(out, &picture)?;
    }
    Ok(Status::Done)
}

fn written(fields: &[Field], as_png: bool) -> Vec<u8> {
    let pictures: Vec<Picture> = fields.iter().map(draw).collect();
    match pictures.as_slice() {
        [picture] if as_png => png(picture),
        [picture] => svg(picture).into_bytes(),
        pictures => animated(pictures).into_bytes(),
    }
}

/// Whether the name of the picture asks for a PNG.
fn as_png(out: &OsStr) -> Result<bool, Stop> {
    let ending = Path::new(out).extension();
    let ending = ending.map(|ending| ending.to_ascii_lowercase());
    match ending.as_ref().and_then(|ending| ending.to_str()) {
        _ if out == "-" => Ok(false),
        Some("svg") => Ok(false),
        Some("png") => Ok(true),
        _ => usage(format!(
            "-o {}: expected a name that ends in .svg or .png",
            files::name(out)
        )),
    }
}

/// Which map is drawn.
enum Chosen {
    /// Counted from 1.
    Map(u64),
    Time(Epoch),
    All,
}

impl Chosen {
    fn of(args: &Args) -> Result<Chosen, Stop> {
        let map = args.number("--map", 1)?;
        let time = args.word("--time");
        if args.word("--method").is_some() && time.is_none() {
            return usage("--method needs --time");
        }
        match (time, map, args.has("--animate")) {
            (Some(_), Some(_), _) => usage("--map and --time are given, but one map is drawn"),
            (Some(_), _, true) | (_, Some(_), true) => {
                usage("--animate draws all maps, and takes no --map and no --time")
            }
            (Some(word), None, false) => match time::parse(&word) {
                Ok(epoch) => Ok(Chosen::Time(epoch)),
                Err(fault) => usage(format!("--time {fault}")),
            },
            (None, None, true) => Ok(Chosen::All),
            (None, map, false) => Ok(Chosen::Map(map.unwrap_or(1))),
        }
    }

    /// One field, or one for each map.
    fn fields<'a>(
        &self,
        name: &str,
        maps: &'a MapSet,
        question: &Question,
    ) -> Result<Vec<Field<'a>>, Stop> {
        let field = |epoch, note, values| field(name, maps, question, epoch, note, values);
        let of_map = |map: usize, note: String| {
            let values = nodes::of_map(maps, question, map);
            field(maps.epochs()[map], note, values)
        };
        match *self {
            Chosen::Map(number) => {
                let map = standing(maps, question, number)?;
                Ok(vec![of_map(
                    map,
                    format!("map {number} of {}", maps.maps()),
                )])
            }
            Chosen::Time(epoch) => {
                let note = format!("method {}", question.method_name());
                let values = nodes::at_time(maps, question, epoch)?;
                Ok(vec![field(epoch, note, values)])
            }
            Chosen::All => {
                let all: Vec<usize> = (0..maps.maps())
                    .filter(|&map| maps.has(question.kind, map))
                    .collect();
                standing(maps, question, all.first().map_or(1, |&map| map as u64 + 1))?;
                let note = format!("{} maps", all.len());
                let fields = all.into_iter().map(|map| of_map(map, note.clone()));
                Ok(with_one_scale(fields.collect()))
            }
        }
    }
}

fn field<'a>(
    name: &str,
    maps: &'a MapSet,
    question: &Question,
    epoch: Epoch,
    note: String,
    values: Vec<Option<i32>>,
) -> Field<'a> {
    let header = maps.header();
    Field {
        latitudes: &header.latitudes,
        longitudes: &header.longitudes,
        values,
        unit: nodes::unit(question.kind),
        title: format!("{}, {} UT", title(question.kind), time::words(epoch)),
        range: Range::Own,
        coasts: false,
        notes: vec![
            format!("{note}{}", layer(maps, question.layer)),
            origin(name, maps),
        ],
        descriptions: maps.descriptions().map(str::to_string).collect(),
    }
}

/// The scale of each goes round the values of all.
fn with_one_scale(mut fields: Vec<Field>) -> Vec<Field> {
    let values = || {
        fields
            .iter()
            .flat_map(|field| field.values.iter().flatten())
    };
    if let (Some(&low), Some(&high)) = (values().min(), values().max()) {
        for field in &mut fields {
            field.range = Range::Shared(low, high);
        }
    }
    fields
}

/// The layer by its height, and by its number where there are several.
fn layer(maps: &MapSet, layer: u64) -> String {
    let axis = &maps.header().heights;
    let height = axis.at(layer as usize).unwrap_or(axis.first);
    let number = match maps.layers() {
        1 => String::new(),
        _ => format!(", layer {layer}"),
    };
    format!("{number}, {} km", tenths(height))
}

/// The file, and who made it.
fn origin(name: &str, maps: &MapSet) -> String {
    let parts = [name, maps.program(), maps.run_by(), maps.date()].map(str::trim);
    let parts: Vec<&str> = parts.into_iter().filter(|part| !part.is_empty()).collect();
    parts.join(", ")
}

fn title(kind: Kind) -> &'static str {
    match kind {
        Kind::Tec => "Electron content (TEC)",
        Kind::Rms => "RMS error of TEC",
        Kind::Height => "Height of the layer",
    }
}

/// The place of a map, counted from 0, or why it cannot be drawn, by the numbers of a question.
pub fn standing(maps: &MapSet, question: &Question, number: u64) -> Result<usize, Stop> {
    let refused = |words: String| Err(Stop::refused(format!("ionex: refused {words}")));
    if number > maps.maps() as u64 {
        return refused(format!(
            "21: there is no map {number}, the last is {}",
            maps.maps()
        ));
    }
    if question.layer >= maps.layers() as u64 {
        let last = maps.layers() - 1;
        return refused(format!(
            "21: there is no layer {}, the last is {last}",
            question.layer
        ));
    }
    let map = number as usize - 1;
    if !maps.has(question.kind, map) {
        return refused(format!("22: there is no {} map {number}", question.kind));
    }
    Ok(map)
}
