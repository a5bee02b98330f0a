//! `ionex delay FILE --at LAT,LON --time T --carrier C`, and questions from standard input

use super::Command;
use crate::args::{Args, Options};
use crate::form::Form;
use crate::json::Object;
use crate::output::Output;
use crate::question::{Question, KINDS};
use crate::questions::{self, Answering, Answers};
use crate::status::{usage, Status, Stop};
use crate::{carrier, files, refused};
use ionex::{Carrier, Delay, Epoch, MapSet, Place, Refusal};

pub const COMMAND: Command = Command {
    name: "delay",
    does: "answers for the delay of a carrier in metres, at one place and time or at many",
    help: HELP,
    options: Options {
        flags: &["--json", "--csv", "--round"],
        values: &[
            "--at",
            "--time",
            "--carrier",
            "--kind",
            "--method",
            "--layer",
        ],
    },
    run,
};

const HELP: &str = concat!(
    "\
Usage: ionex delay FILE --at LAT,LON --time T --carrier C [--kind K] [--method M] [--layer L] [--round] [--json | --csv]
       ionex delay FILE --carrier C [--kind K] [--method M] [--layer L] [--round] [--json | --csv] <QUESTIONS

Answers for the vertical group delay of a carrier at a place and time, as `1.8931 m (11.659 TECU at 1575420000 Hz)`: the
TECU that `ionex ask` answers, times 4.03e17, by the square of the frequency. Without --at, questions are read from
standard input and answered as `ionex ask --help` says.

",
    crate::at_help!(),
    crate::time_help!(),
    "  --carrier C   hertz from 1.0e9 to 2.0e9, or a name: L1, L2, L5 of GPS; E1, E5a, E5b, E6 of Galileo; B1I, B1C, B2a, B3 of
                BeiDou; G1:K, G2:K of GLONASS with the channel K, -7 to 6; in large letters or small ones
  --kind K      tec (if nothing is said), or rms for the error of the delay
  --method M    between (if nothing is said), nearest, sun or nearest-sun, as `ionex ask --help` has them
  --layer L     the layer, counted from 0 (if nothing is said 0)
  --json        one JSON object to a line, for each question one; the delay with all its digits
  --csv         under a line of names a line for each question: what was asked, carrier, TECU and metres, or why it is
                refused
  -             as FILE: standard input, with --at

Exit status: 0 all are answered, 1 the file or a question is refused, 2 a question is not understood, or the file cannot
be read.
"
);

fn run(args: &Args, out: &mut Output) -> Result<Status, Stop> {
    let (file, form) = (args.one_file()?, Form::of(args)?);
    let question = Question {
        // A height has no delay.
        kind: args.choice("--kind", &KINDS[..2])?,
        ..Question::of(args)?
    };
    let Some(word) = args.word("--carrier") else {
        return usage("no --carrier is given: L1, L2, L5 or hertz");
    };
    let carrier =
        carrier::parse(&word).map_err(|fault| Stop::Usage(format!("--carrier {fault}")))?;
    let asked = questions::of(args, file)?;
    let maps = refused::read(&files::name(file), &args.read(file)?)?;
    let answering = Answering {
        answers: &Asker {
            maps,
            question,
            carrier,
        },
        form,
        round: args.has("--round"),
    };
    answering.all(asked, out)
}

/// A file that is asked.
struct Asker {
    maps: MapSet,
    question: Question,
    carrier: Carrier,
}

impl Answers for Asker {
    type Found = Delay;
    const COLUMNS: &'static str = "carrier,tecu,metres,";

    fn find(&self, asked: &[(Place, Epoch)]) -> Vec<Result<Delay, Refusal>> {
        let Question {
            kind,
            method,
            layer,
        } = self.question;
        let delay = |&(place, time): &(Place, Epoch)| {
            self.maps
                .delay(kind, method, layer, place, time, self.carrier)
        };
        asked.iter().map(delay).collect()
    }

    fn reason(&self, place: Place, time: Epoch, refusal: &Refusal) -> String {
        match refusal.number() {
            25 => format!("{}: {}", refusal.meaning(), self.carrier),
            _ => self.question.reason(&self.maps, place, time, refusal),
        }
    }

    fn words(&self, found: &Delay) -> String {
        found.to_string()
    }

    fn asked(&self, place: Place, time: Epoch) -> Object {
        let object = self.question.json(place, time);
        object.raw("carrier", self.carrier.hertz())
    }

    fn json(&self, asked: Object, found: &Delay) -> Object {
        asked
            .raw("tecu", found.tecu.0)
            .raw("metres", found.metres.0)
    }

    fn csv(&self, found: &Delay) -> String {
        let hertz = found.carrier.hertz();
        format!("{hertz},{},{},", tecu(found), found.metres.0)
    }
}

/// With three decimals, as the CSV of `ionex ask` has them.
fn tecu(found: &Delay) -> String {
    format!("{:.3}", found.tecu.0)
}
