//! `ionex biases FILE [--json | --csv]`

use super::Command;
use crate::args::{Args, Options};
use crate::form::{quoted, Form};
use crate::json::{array, Object};
use crate::numbers::{counted, thousandths};
use crate::output::{Output, Style};
use crate::status::{Status, Stop};
use crate::{files, refused};
use ionex::{Biases, MilliNs, Satellite, Station};

pub const COMMAND: Command = Command {
    name: "biases",
    does: "shows the code biases of satellites and stations that stand in a file's header",
    help: HELP,
    options: Options {
        flags: &["--json", "--csv"],
        values: &[],
    },
    run,
};

const HELP: &str = "\
Usage: ionex biases FILE [--json | --csv]

Shows the differential code biases (P1-P2) and their RMS, in nanoseconds, of the blocks DIFFERENTIAL CODE BIASES in the
header, satellites and stations each in the file's order. G is GPS, R is GLONASS. A file without such a block has none. A
file that `ionex check` refuses is refused here too; else a block's line that is ill-formed (6), has another letter or a
number outside 1 to 99 (7), or gives a satellite, or a station with the same system, a second time (5).

  --json   one JSON object
  --csv    a line for each under a line of names
  -        as FILE: standard input

Exit status: 0 shown, 1 the file is refused, 2 it cannot be read.
";

fn run(args: &Args, out: &mut Output) -> Result<Status, Stop> {
    let form = Form::of(args)?;
    let file = args.one_file()?;
    let name = files::name(file);
    let text = args.read(file)?;
    let biases =
        Biases::read(&text).map_err(|refusal| refused::text_stop(&name, &text, &refusal))?;
    match form {
        Form::Table => out.put(table(&name, &biases, out.style))?,
        Form::Json => out.line(&json(&name, &biases).to_string())?,
        Form::Csv => out.put(csv(&biases))?,
    }
    Ok(Status::Done)
}

/// Nanoseconds without their unit.
fn ns(value: MilliNs) -> String {
    thousandths(value.0)
}

fn table(name: &str, biases: &Biases, style: Style) -> String {
    let Biases {
        satellites,
        stations,
    } = biases;
    let title = format!(
        "{}: biases of {} and {}",
        files::shown(name),
        counted(satellites.len(), "satellite"),
        counted(stations.len(), "station")
    );
    let mut lines = vec![style.bold(&title)];
    let row = |system: &str, name: &str, bias: &str, rms: &str| {
        format!("  {system:<6}  {name:<20}  {bias:>10}  {rms:>10}")
    };
    if !satellites.is_empty() {
        lines.push(row("system", "satellite", "bias in ns", "RMS in ns"));
        lines.extend(satellites.iter().map(|satellite| {
            let Satellite {
                system, bias, rms, ..
            } = *satellite;
            row(
                &system.to_string(),
                &satellite.to_string(),
                &ns(bias),
                &ns(rms),
            )
        }));
    }
    if !stations.is_empty() {
        lines.push(row("system", "station", "bias in ns", "RMS in ns"));
        lines.extend(stations.iter().map(|station| {
            let Station {
                system,
                name,
                bias,
                rms,
            } = station;
            row(&system.to_string(), name, &ns(*bias), &ns(*rms))
        }));
    }
    lines.join("\n") + "\n"
}

fn json(name: &str, biases: &Biases) -> Object {
    let satellites = biases.satellites.iter().map(|satellite| {
        Object::new()
            .text("system", &satellite.system.to_string())
            .raw("number", satellite.number)
            .raw("bias", ns(satellite.bias))
            .raw("rms", ns(satellite.rms))
    });
    let stations = biases.stations.iter().map(|station| {
        Object::new()
            .text("system", &station.system.to_string())
            .text("name", &station.name)
            .raw("bias", ns(station.bias))
            .raw("rms", ns(station.rms))
    });
    Object::new()
        .text("file", name)
        .text("unit", "ns")
        .raw("satellites", array(satellites))
        .raw("stations", array(stations))
}

const NAMES: &str = "kind,system,name,bias_ns,rms_ns";

fn csv(biases: &Biases) -> String {
    let mut lines = vec![NAMES.to_string()];
    lines.extend(biases.satellites.iter().map(|satellite| {
        let Satellite {
            system, bias, rms, ..
        } = satellite;
        format!("satellite,{system},{satellite},{},{}", ns(*bias), ns(*rms))
    }));
    lines.extend(biases.stations.iter().map(|station| {
        let Station {
            system,
            name,
            bias,
            rms,
        } = station;
        format!(
            "station,{system},{},{},{}",
            quoted(name),
            ns(*bias),
            ns(*rms)
        )
    }));
    lines.join("\n") + "\n"
}
