//! `ionex ask FILE --at LAT,LON --time T`, and questions from standard input

use super::Command;
use crate::args::{Args, Options};
use crate::form::Form;
use crate::json::Object;
use crate::numbers::thousandths;
use crate::output::Output;
use crate::question::Question;
use crate::questions::{self, Answering, Answers};
use crate::status::{Status, Stop};
use crate::{files, refused};
use ionex::{Answer, Epoch, MapSet, Place, Refusal};

pub const COMMAND: Command = Command {
    name: "ask",
    does: "answers for the value at a place and time, or at many from standard input",
    help: HELP,
    options: Options {
        flags: &["--json", "--csv", "--round"],
        values: &["--at", "--time", "--kind", "--method", "--layer"],
    },
    run,
};

const HELP: &str = concat!(
    "\
Usage: ionex ask FILE --at LAT,LON --time T [--kind K] [--method M] [--layer L] [--round] [--json | --csv]
       ionex ask FILE [--kind K] [--method M] [--layer L] [--round] [--json | --csv] <QUESTIONS

Answers for the value at a place and time, as `11.659 TECU`, between the four nodes around the place; the exact fraction
is rounded once. Without --at, questions are read from standard input, one `LAT LON TIME` to a line, and answered one
to a line in the same order; a refused one is answered by `refused` and why, a blank one by a blank line (with --json by
`null`, with --csv not at all). A first line of names, which begins with lat, is passed over.

",
    crate::at_help!(),
    crate::time_help!(),
    "  --kind K      tec (if nothing is said), rms or height
  --method M    between: between the two maps around the time (if nothing is said)
                nearest: the map nearest in time, the earlier of two
                sun: as between, each map turned with the Sun; nearest-sun: as nearest, turned
  --layer L     the layer, counted from 0 (if nothing is said 0)
  --json        one JSON object to a line, for each question one
  --csv         under a line of names a line for each question: what was asked, the value, or why it is refused
  -             as FILE: standard input, with --at

Exit status: 0 all are answered, 1 the file or a question is refused, 2 a question is not understood, or the file cannot
be read.
"
);

fn run(args: &Args, out: &mut Output) -> Result<Status, Stop> {
    let (file, form) = (args.one_file()?, Form::of(args)?);
    let question = Question::of(args)?;
    let asked = questions::of(args, file)?;
    let maps = refused::read(&files::name(file), &args.read(file)?)?;
    let answering = Answering {
        answers: &Asker { maps, question },
        form,
        round: args.has("--round"),
    };
    answering.all(asked, out)
}

/// A file that is asked.
struct Asker {
    maps: MapSet,
    question: Question,
}

impl Answers for Asker {
    type Found = Answer;
    const COLUMNS: &'static str = "value,unit,";

    fn find(&self, asked: &[(Place, Epoch)]) -> Vec<Result<Answer, Refusal>> {
        self.question.ask_all(&self.maps, asked)
    }

    fn reason(&self, place: Place, time: Epoch, refusal: &Refusal) -> String {
        self.question.reason(&self.maps, place, time, refusal)
    }

    fn words(&self, found: &Answer) -> String {
        found.to_string()
    }

    fn asked(&self, place: Place, time: Epoch) -> Object {
        self.question.json(place, time)
    }

    fn json(&self, asked: Object, found: &Answer) -> Object {
        asked
            .raw("value", thousandths(found.thousandths()))
            .text("unit", found.unit())
    }

    fn csv(&self, found: &Answer) -> String {
        format!("{},{},", thousandths(found.thousandths()), found.unit())
    }
}
