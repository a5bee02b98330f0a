//! `ionex info FILE`

use super::Command;
use crate::args::{Args, Options};
use crate::json::{array, string, Object};
use crate::numbers::{counted, share, tenths, thousandths};
use crate::output::Output;
use crate::status::{Status, Stop};
use crate::{files, refused, time};
use ionex::{Answer, Axis, Epoch, Kind, MapSet, SetFigures, Week};

pub const COMMAND: Command = Command {
    name: "info",
    does: "shows a file's header, grid and epochs, and its smallest and largest values",
    help: HELP,
    options: Options {
        flags: &["--json"],
        values: &[],
    },
    run,
};

const HELP: &str = "\
Usage: ionex info FILE [--json]

Shows the header with its DESCRIPTION lines, the grid, the epochs with the maps that stand at each, and for each kind of
map how many nodes are without a value, the smallest and the largest value. Epochs are in universal time (UT).

  --json   one JSON object
  -        as FILE: standard input

Exit status: 0 shown, 1 the file is refused, 2 it cannot be read.
";

fn run(args: &Args, out: &mut Output) -> Result<Status, Stop> {
    let file = args.one_file()?;
    let name = files::name(file);
    let maps = refused::read(&name, &args.read(file)?)?;
    let figures = Week::new()
        .add(&maps)
        .map_err(|refusal| Stop::refused(format!("{}: {refusal}", files::shown(&name))))?;
    let figures = Kind::ALL.map(|kind| Figures::of(&maps, &figures, kind));
    if args.has("--json") {
        out.line(&json(&name, &maps, &figures).to_string())?;
    } else {
        out.put(words(&name, &maps, &figures))?;
    }
    Ok(Status::Done)
}

/// What is counted over all maps of a kind.
struct Figures {
    kind: Kind,
    maps: usize,
    nodes: usize,
    without: usize,
    range: Option<(Answer, Answer)>,
}

impl Figures {
    /// Of a set's figures, which count the nodes of absent maps as without a value too.
    fn of(maps: &MapSet, set: &SetFigures, kind: Kind) -> Figures {
        let (standing, figures) = (maps.standing(kind), set.kind(kind));
        let nodes = standing * maps.layers() * maps.rows() * maps.columns();
        Figures {
            kind,
            maps: standing,
            nodes,
            without: nodes.saturating_sub(figures.with as usize),
            range: figures.smallest.zip(figures.largest),
        }
    }

    fn words(&self) -> String {
        if self.maps == 0 {
            return "no map".to_string();
        }
        let range = match self.range {
            Some((least, most)) => format!("{} to {most}", thousandths(least.thousandths())),
            None => "no value at all".to_string(),
        };
        format!(
            "{}, {range}; {} of {} nodes without a value ({} %)",
            counted(self.maps, "map"),
            self.without,
            self.nodes,
            share(self.without, self.nodes)
        )
    }

    fn json(&self) -> Object {
        let ends = self
            .range
            .map(|(least, most)| [least, most].map(|end| thousandths(end.thousandths())));
        let [least, most] = ends.map_or([None, None], |ends| ends.map(Some));
        Object::new()
            .raw("maps", self.maps)
            .raw("nodes", self.nodes)
            .raw("without_value", self.without)
            .maybe("smallest", least)
            .maybe("largest", most)
            .text(
                "unit",
                if self.kind == Kind::Height {
                    "km"
                } else {
                    "TECU"
                },
            )
    }
}

fn axis(axis: &Axis, unit: &str, node: &str) -> String {
    let count = counted(axis.nodes(), node);
    if axis.step == 0 {
        return format!("{} {unit}, {count}", tenths(axis.first));
    }
    let [first, last, step] = [axis.first, axis.last, axis.step].map(tenths);
    format!("{first} to {last} by {step} {unit}, {count}")
}

/// The systems of the SYS records.
fn systems(maps: &MapSet) -> Vec<(char, u32, u32)> {
    let stands = |(letter, counts): &(char, Option<(u32, u32)>)| {
        counts.map(|(stations, satellites)| (*letter, stations, satellites))
    };
    maps.header().systems.iter().filter_map(stands).collect()
}

fn words(name: &str, maps: &MapSet, figures: &[Figures]) -> String {
    let mut out = format!("{}\n", files::shown(name));
    for (title, value) in rows(maps, figures) {
        out.push_str(format!("  {title:<17} {value}").trim_end());
        out.push('\n');
    }
    for (map, epoch) in maps.epochs().into_iter().enumerate() {
        let kinds: Vec<String> = kinds(maps, map).map(|kind| kind.to_string()).collect();
        let line = format!(
            "  {:>17} {}  {}\n",
            map + 1,
            time::words(epoch),
            kinds.join(", ")
        );
        out.push_str(&line);
    }
    out
}

/// The kinds that stand at an epoch.
fn kinds(maps: &MapSet, map: usize) -> impl Iterator<Item = Kind> + '_ {
    Kind::ALL
        .into_iter()
        .filter(move |&kind| maps.has(kind, map))
}

fn rows(maps: &MapSet, figures: &[Figures]) -> Vec<(String, String)> {
    let header = maps.header();
    let mut rows: Vec<(&str, String)> = vec![
        (
            "version",
            format!("{}, code {}", header.version, header.code),
        ),
        ("program", maps.program().to_string()),
        ("run by", maps.run_by().to_string()),
        ("date", maps.date().to_string()),
    ];
    rows.extend(
        maps.descriptions()
            .map(|line| ("description", line.to_string())),
    );
    rows.extend([
        ("mapping function", maps.mapping().to_string()),
        (
            "elevation cutoff",
            format!("{} degrees", tenths(header.cutoff)),
        ),
        ("observables", maps.observables().to_string()),
    ]);
    rows.extend(header.stations.map(|count| ("stations", count.to_string())));
    rows.extend(
        header
            .satellites
            .map(|count| ("satellites", count.to_string())),
    );
    for (letter, stations, satellites) in systems(maps) {
        let stations = counted(stations as usize, "station");
        let satellites = counted(satellites as usize, "satellite");
        rows.push(("system", format!("{letter}, {stations}, {satellites}")));
    }
    rows.extend([
        ("base radius", format!("{} km", tenths(header.radius))),
        ("dimension", header.dimension.to_string()),
        ("heights", axis(&header.heights, "km", "layer")),
        ("latitudes", axis(&header.latitudes, "degrees", "row")),
        ("longitudes", axis(&header.longitudes, "degrees", "column")),
    ]);
    let mut rows: Vec<(String, String)> = rows
        .into_iter()
        .map(|(title, value)| (title.to_string(), value))
        .collect();
    rows.extend(
        figures
            .iter()
            .map(|figures| (figures.kind.to_string(), figures.words())),
    );
    let interval = match header.interval {
        0 => "at varying intervals".to_string(),
        interval => format!("every {interval} s"),
    };
    rows.push((
        "epochs".to_string(),
        format!("{}, {interval}, UT", maps.maps()),
    ));
    rows
}

fn axis_json(axis: &Axis) -> Object {
    Object::new()
        .raw("first", tenths(axis.first))
        .raw("last", tenths(axis.last))
        .raw("step", tenths(axis.step))
        .raw("nodes", axis.nodes())
}

fn systems_json(maps: &MapSet) -> String {
    let system = |(letter, stations, satellites): (char, u32, u32)| {
        Object::new()
            .text("letter", &letter.to_string())
            .raw("stations", stations)
            .raw("satellites", satellites)
    };
    array(systems(maps).into_iter().map(system))
}

fn epochs_json(maps: &MapSet) -> String {
    let epoch = |(map, epoch): (usize, Epoch)| {
        let kinds = kinds(maps, map).map(|kind| string(&kind.to_string().to_lowercase()));
        Object::new()
            .text("time", &epoch.to_string())
            .raw("maps", array(kinds))
    };
    array(maps.epochs().into_iter().enumerate().map(epoch))
}

fn json(name: &str, maps: &MapSet, figures: &[Figures]) -> Object {
    let header = maps.header();
    let object = Object::new()
        .text("file", name)
        .raw("version", header.version)
        .text("code", header.code.as_str())
        .text("program", maps.program())
        .text("run_by", maps.run_by())
        .text("date", maps.date())
        .raw("descriptions", array(maps.descriptions().map(string)))
        .text("mapping_function", maps.mapping())
        .raw("elevation_cutoff", tenths(header.cutoff))
        .text("observables", maps.observables())
        .maybe("stations", header.stations)
        .maybe("satellites", header.satellites)
        .raw("systems", systems_json(maps))
        .raw("base_radius", tenths(header.radius))
        .raw("dimension", header.dimension)
        .raw("heights", axis_json(&header.heights))
        .raw("latitudes", axis_json(&header.latitudes))
        .raw("longitudes", axis_json(&header.longitudes))
        .raw("interval", header.interval)
        .raw("epochs", epochs_json(maps));
    figures.iter().fold(object, |object, figures| {
        let name = figures.kind.to_string().to_lowercase();
        object.raw(&name, figures.json())
    })
}
