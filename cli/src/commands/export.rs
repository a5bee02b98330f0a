//! `ionex export FILE --csv|--json`: nodes of maps, or the values at a place from time to time

use super::plot::standing;
use super::Command;
use crate::args::{whole, Args, Options};
use crate::form::Form;
use crate::json::Object;
use crate::nodes::{self, Region};
use crate::numbers::{tenths, thousandths};
use crate::output::Output;
use crate::place;
use crate::question::{kind_name, Question};
use crate::status::{usage, Status, Stop};
use crate::{files, refused, time};
use ionex::{Epoch, Kind, MapSet, Place};

pub const COMMAND: Command = Command {
    name: "export",
    does: "writes the nodes of maps, or the values at a place over time, as CSV or JSON",
    help: HELP,
    options: Options {
        flags: &["--csv", "--json", "--round"],
        values: &[
            "--map", "--time", "--region", "--at", "--every", "--kind", "--method", "--layer",
        ],
    },
    run,
};

const HELP: &str = concat!(
    "\
Usage: ionex export FILE --csv|--json [--map N | --time T] [--region S,W,N,E] [--kind K] [--method M] [--layer L]
       ionex export FILE --csv|--json --at LAT,LON [--every S] [--kind K] [--method M] [--layer L] [--round]

Writes a line for each node: the time, latitude, longitude and value, in TECU or km. A node without a value has none there
(null in JSON). Without --map and --time those of all maps of the kind are written, one map after the other. With --at the
values at a place are written instead, one for each map, or every S seconds from the first map to the last.

  --csv         a line for each under a line of names
  --json        one JSON object to a line
  --map N       the map of this number, counted from 1
",
    crate::time_help!(),
    "                What is written then are the values at that time, as `ionex ask` gives them for each node.
  --region S,W,N,E
                the nodes from latitude S to N and from longitude W eastward to E alone, in degrees
  --at LAT,LON  degrees north and east with at most two decimals, as 47.25,-8.50; more are an error
  --round       with --at: more decimals are rounded to hundredths, halves away from zero
  --every S     with --at: a value every S seconds
  --kind K      tec (if nothing is said), rms or height
  --method M    with --time or --at, as `ionex ask --help` says
  --layer L     the layer, counted from 0 (if nothing is said 0)
  -             as FILE: standard input

Exit status: 0 written, 1 the file or the question is refused, 2 a file cannot be read.
"
);

fn run(args: &Args, out: &mut Output) -> Result<Status, Stop> {
    let (file, form) = (args.one_file()?, Form::of(args)?);
    if form == Form::Table {
        return usage("neither --csv nor --json is given");
    }
    let (question, wanted) = (Question::of(args)?, Wanted::of(args)?);
    let maps = refused::read(&files::name(file), &args.read(file)?)?;
    let mut writer = Writer {
        form,
        kind: question.kind,
        out,
    };
    writer.names()?;
    match wanted {
        Wanted::Maps(number, region) => of_maps(&maps, &question, number, &region, &mut writer)?,
        Wanted::Time(time, region) => {
            let values = nodes::at_time(&maps, &question, time)?;
            writer.nodes(&maps, time, &region, &values)?;
        }
        Wanted::Place(place, every) => series(&maps, &question, place, every, &mut writer)?,
    }
    Ok(Status::Done)
}

/// What is written.
enum Wanted {
    /// One map by its number, or all.
    Maps(Option<u64>, Region),
    Time(Epoch, Region),
    /// Every so many seconds, or at each map.
    Place(Place, Option<u64>),
}

impl Wanted {
    fn of(args: &Args) -> Result<Wanted, Stop> {
        let region = match args.word("--region") {
            Some(word) => {
                Region::parse(&word).map_err(|fault| Stop::Usage(format!("--region {fault}")))?
            }
            None => Region::ALL,
        };
        let (map, at) = (args.number("--map", 1)?, args.word("--at"));
        let every = args.word("--every");
        match (at, map, args.word("--time")) {
            (Some(_), Some(_), _) | (Some(_), _, Some(_)) | (_, Some(_), Some(_)) => {
                usage("of --map, --time and --at one can be given")
            }
            (Some(_), ..) if args.word("--region").is_some() => {
                usage("--at is one place, and takes no --region")
            }
            (None, ..) if every.is_some() => usage("--every needs --at"),
            (Some(at), ..) => {
                let (place, _) = place::parse(&at, args.has("--round"))
                    .map_err(|fault| Stop::Usage(format!("--at {fault}")))?;
                let every = every.map(|word| whole("--every", &word, 1)).transpose()?;
                Ok(Wanted::Place(place, every))
            }
            (None, map, None) => {
                if args.word("--method").is_some() {
                    return usage("--method needs --time or --at");
                }
                Ok(Wanted::Maps(map, region))
            }
            (None, _, Some(word)) => match time::parse(&word) {
                Ok(time) => Ok(Wanted::Time(time, region)),
                Err(fault) => usage(format!("--time {fault}")),
            },
        }
    }
}

fn of_maps(
    maps: &MapSet,
    question: &Question,
    number: Option<u64>,
    region: &Region,
    writer: &mut Writer,
) -> Result<(), Stop> {
    let epochs = maps.epochs();
    let chosen: Vec<usize> = match number {
        Some(number) => vec![standing(maps, question, number)?],
        None => {
            let first = (0..maps.maps()).find(|&map| maps.has(question.kind, map));
            standing(maps, question, first.unwrap_or(0) as u64 + 1)?;
            (0..maps.maps())
                .filter(|&map| maps.has(question.kind, map))
                .collect()
        }
    };
    for map in chosen {
        let values = nodes::of_map(maps, question, map);
        writer.nodes(maps, epochs[map], region, &values)?;
    }
    Ok(())
}

/// The values at a place, from the first map to the last.
fn series(
    maps: &MapSet,
    question: &Question,
    place: Place,
    every: Option<u64>,
    writer: &mut Writer,
) -> Result<(), Stop> {
    let (first, last) = (maps.header().first.seconds(), maps.header().last.seconds());
    let times: Vec<Epoch> = match every {
        Some(every) => (first..=last)
            .step_by(usize::try_from(every).unwrap_or(usize::MAX))
            .map(Epoch::from_seconds)
            .collect(),
        None => maps.epochs(),
    };
    let asked: Vec<(Place, Epoch)> = times.iter().map(|&time| (place, time)).collect();
    let (lat, lon) = degrees(place);
    for (value, time) in nodes::asked(maps, question, &asked)?.into_iter().zip(times) {
        writer.row(time, &lat, &lon, value)?;
    }
    Ok(())
}

fn degrees(place: Place) -> (String, String) {
    let words = place.to_string();
    let (lat, lon) = words.split_once(',').unwrap_or((&words, ""));
    (lat.to_string(), lon.to_string())
}

struct Writer<'a> {
    form: Form,
    kind: Kind,
    out: &'a mut Output,
}

impl Writer<'_> {
    fn names(&mut self) -> Result<(), Stop> {
        match self.form {
            Form::Csv => self.out.line("time,lat,lon,kind,value,unit"),
            _ => Ok(()),
        }
    }

    fn nodes(
        &mut self,
        maps: &MapSet,
        time: Epoch,
        region: &Region,
        values: &[Option<i32>],
    ) -> Result<(), Stop> {
        let places = nodes::places(maps);
        for (&(lat, lon), value) in places.iter().zip(values) {
            if region.holds(lat, lon) {
                self.row(time, &tenths(lat), &tenths(lon), *value)?;
            }
        }
        Ok(())
    }

    fn row(&mut self, time: Epoch, lat: &str, lon: &str, value: Option<i32>) -> Result<(), Stop> {
        let (kind, value) = (kind_name(self.kind), value.map(thousandths));
        let unit = nodes::unit(self.kind);
        if self.form == Form::Csv {
            let value = value.unwrap_or_default();
            return self
                .out
                .line(&format!("{time},{lat},{lon},{kind},{value},{unit}"));
        }
        let object = Object::new()
            .text("time", &time.to_string())
            .raw("lat", lat)
            .raw("lon", lon)
            .text("kind", kind)
            .maybe("value", value)
            .text("unit", unit);
        self.out.line(&object.to_string())
    }
}
