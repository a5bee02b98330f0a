//! `ionex why FILE --at LAT,LON --time T`

use super::Command;
use crate::args::{Args, Options};
use crate::json::{array, Object};
use crate::numbers::{tenths, thousandths};
use crate::output::Output;
use crate::question::Question;
use crate::status::{usage, Status, Stop};
use crate::{files, questions, refused, time};
use ionex::{Epoch, Explanation, Lacking, MapSet, Node, Place, Refusal};

pub const COMMAND: Command = Command {
    name: "why",
    does: "shows where an answer came from: each node, its value and its weight",
    help: HELP,
    options: Options {
        flags: &["--json", "--round"],
        values: &["--at", "--time", "--kind", "--method", "--layer"],
    },
    run,
};

const HELP: &str = concat!(
    "\
Usage: ionex why FILE --at LAT,LON --time T [--kind K] [--method M] [--layer L] [--round] [--json]

Shows where the answer of `ionex ask` to the same question came from: each node that it needs, by map, row and column,
with its epoch, latitude and longitude, its value, its weight and its share of all weights; then the sum of value times
weight over the sum of the weights, and the answer, which is that sum rounded once. Where a needed node has no value
(22) the first of them is named, and why it has none. Maps are counted from 1, layers, rows and columns from 0, as `ionex
node` counts them.

The weights are whole numbers: parts of DLAT and DLON in hundredths of a degree (for sun and nearest-sun DLON in 1/1200
of a degree), times parts of the seconds between two maps where the answer lies between them.

",
    crate::at_help!(),
    crate::time_help!(),
    "  --kind K      tec (if nothing is said), rms or height
  --method M    between (if nothing is said), nearest, sun or nearest-sun, as `ionex ask --help` has them
  --layer L     the layer, counted from 0 (if nothing is said 0)
  --json        one JSON object
  -             as FILE: standard input

Exit status: 0 shown, 1 the file or the question is refused, 2 the question is not understood, or the file cannot be
read.
"
);

fn run(args: &Args, out: &mut Output) -> Result<Status, Stop> {
    let file = args.one_file()?;
    let question = Question::of(args)?;
    let Some(questions::Asked { place, time, .. }) = questions::given(args)? else {
        return usage("no --at and --time are given");
    };
    let name = files::name(file);
    let maps = refused::read(&name, &args.read(file)?)?;
    let asked = Asked {
        maps,
        question,
        place,
        time,
    };
    match (asked.explained(), args.has("--json")) {
        (Ok(found), true) => out.line(&asked.answer_json(&found).to_string())?,
        (Ok(found), false) => out.line(&asked.words(&name, &found))?,
        (Err(refusal), true) => {
            out.line(&asked.refused_json(&refusal))?;
            return Ok(Status::Refused);
        }
        (Err(refusal), false) => {
            let (_, words) = refused::question(None, refusal.number(), &asked.reason(&refusal));
            return Err(Stop::refused(format!("ionex: {words}")));
        }
    }
    Ok(Status::Done)
}

/// A file that is asked.
struct Asked {
    maps: MapSet,
    question: Question,
    place: Place,
    time: Epoch,
}

impl Asked {
    fn explained(&self) -> Result<Explanation, Refusal> {
        let Question {
            kind,
            method,
            layer,
        } = self.question;
        self.maps
            .explain(kind, method, layer, self.place, self.time)
    }

    /// For people, without the last line end: what was asked and answered, and the table.
    fn words(&self, name: &str, found: &Explanation) -> String {
        let Question { kind, layer, .. } = self.question;
        format!(
            "{}: {} is the {kind} at {}, {}, by {}, layer {layer}\n{found}",
            files::shown(name),
            found.answer,
            self.place,
            time::words(self.time),
            self.question.method_name(),
        )
    }

    fn reason(&self, refusal: &Refusal) -> String {
        match refusal.lacking() {
            Some(lacking) => format!("{}: {lacking}", refusal.meaning()),
            None => self
                .question
                .reason(&self.maps, self.place, self.time, refusal),
        }
    }

    fn answer_json(&self, found: &Explanation) -> Object {
        let weighted = found.nodes.iter().map(|weighted| {
            node_json(&weighted.node)
                .raw("value", thousandths(weighted.value.thousandths()))
                .raw("weight", weighted.weight)
        });
        self.question
            .json(self.place, self.time)
            .raw("value", thousandths(found.answer.thousandths()))
            .text("unit", found.answer.unit())
            .raw("sum", found.sum())
            .raw("denominator", found.denominator)
            .raw("nodes", array(weighted))
    }

    fn refused_json(&self, refusal: &Refusal) -> String {
        let asked = self.question.json(self.place, self.time);
        let asked = match refusal.lacking() {
            Some(lacking) => asked.raw("lacking", lacking_json(&lacking)),
            None => asked,
        };
        let (_, words) = refused::question(Some(asked), refusal.number(), &self.reason(refusal));
        words
    }
}

fn node_json(node: &Node) -> Object {
    Object::new()
        .raw("map", node.map)
        .text("epoch", &node.epoch.to_string())
        .raw("layer", node.layer)
        .raw("row", node.row)
        .raw("lat", tenths(node.lat))
        .raw("column", node.column)
        .raw("lon", tenths(node.lon))
}

fn lacking_json(lacking: &Lacking) -> Object {
    node_json(&lacking.node).text("cause", lacking.cause.as_str())
}
