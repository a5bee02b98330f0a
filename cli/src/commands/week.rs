//! `ionex week FILE... [--json | --csv]`

use super::{check, Command};
use crate::args::{Args, Options};
use crate::form::{quoted, Form};
use crate::json::{array, Object};
use crate::numbers::counted;
use crate::output::{tell, Output, Style};
use crate::progress::Progress;
use crate::status::{Status, Stop};
use crate::{files, refused};
use ionex::{Answer, Figures, Kind, MapSet, Refusal, SetFigures, Week};
use std::ffi::OsStr;

pub const COMMAND: Command = Command {
    name: "week",
    does:
        "counts nodes and tells smallest, largest and mean, for each map and over up to 100 files",
    help: HELP,
    options: Options {
        flags: &["--json", "--csv"],
        values: &[],
    },
    run,
};

const HELP: &str = "\
Usage: ionex week FILE... [--json | --csv]

Prints for each file, map and kind how many nodes have a value (count) and how many have none (without), the smallest and
the largest value, and the mean as sum/count, two whole numbers: the same over all maps of a kind, and at the end over all
files. Values are in thousandths of a TECU, those of heights in thousandths of a kilometre; `-` stands where there is none.
A map that is absent has nodes without a value only. A refused file is told as `ionex check` does and left out, and so is
each after the hundredth (60). The order of the files makes no difference to the figures over all.

  --json   one JSON object to a line: for each file one, then one over all
  --csv    a line for each row under a line of names, without map and epoch over all maps of a file, without file over all
           files; refused files are told on standard error
  -        as FILE: standard input

Exit status: 0 all files are in, 1 one is refused, 2 one cannot be read.
";

fn run(args: &Args, out: &mut Output) -> Result<Status, Stop> {
    let form = Form::of(args)?;
    let files = args.many_files()?;
    let mut progress = Progress::new(format!("of {}", counted(files.len(), "file")), 1);
    let mut week = Week::new();
    if form == Form::Csv {
        out.line(NAMES)?;
    }
    for file in files {
        add_file(&mut week, file, args, form, out)?;
        out.flush()?;
        progress.step();
    }
    totals(&week, files.len(), form, out)?;
    Ok(out.reached)
}

/// A file into the week, or why it is left out.
fn add_file(
    week: &mut Week,
    file: &OsStr,
    args: &Args,
    form: Form,
    out: &mut Output,
) -> Result<(), Stop> {
    let name = files::name(file);
    let text = match args.read(file) {
        Ok(text) => text,
        Err(Stop::Unread { words, .. }) => {
            return check::unread(&name, &words, form == Form::Json, out)
        }
        Err(other) => return Err(other),
    };
    let added = MapSet::read(&text).and_then(|maps| week.add(&maps).map(|figures| (maps, figures)));
    match added {
        Ok((maps, figures)) => match form {
            Form::Table => out.put(table(&name, &maps, &figures, out.style)),
            Form::Json => out.line(&json(&name, &maps, &figures).to_string()),
            Form::Csv => out.put(csv(&name, &maps, &figures)),
        },
        Err(refusal) => left_out(&name, &text, &refusal, form, out),
    }
}

fn left_out(
    name: &str,
    text: &[u8],
    refusal: &Refusal,
    form: Form,
    out: &mut Output,
) -> Result<(), Stop> {
    out.reached = out.reached.max(Status::Refused);
    match form {
        Form::Table => out.line(&words(name, text, refusal, out.style)),
        Form::Json if refusal.line().is_some() => {
            out.line(&refused::json(name, text, refusal).to_string())
        }
        Form::Json => {
            let object = Object::new().text("file", name).text("status", "refused");
            let object = object.raw("number", refusal.number());
            out.line(&object.text("reason", refusal.meaning()).to_string())
        }
        Form::Csv => {
            out.flush()?;
            tell(&words(name, text, refusal, Style::of_errors()));
            Ok(())
        }
    }
}

/// A refused text with its line; a set too many has none.
fn words(name: &str, text: &[u8], refusal: &Refusal, style: Style) -> String {
    if refusal.line().is_some() {
        return refused::words(name, text, refusal, style);
    }
    let refused = style.red(&format!("refused {}:", refusal.number()));
    let place = style.bold(&format!("{}:", files::shown(name)));
    format!("{place} {refused} {}", refusal.meaning())
}

fn totals(week: &Week, files: usize, form: Form, out: &mut Output) -> Result<(), Stop> {
    let sets = week.sets() as usize;
    let kinds = Kind::ALL.map(|kind| (kind, week.figures(kind)));
    match form {
        Form::Table => {
            let left = match files - sets {
                0 => String::new(),
                left => format!(", {left} left out"),
            };
            let title = format!("all of {}{left}:", counted(sets, "file"));
            out.line(&out.style.bold(&title))?;
            out.line(TITLES)?;
            for (kind, figures) in kinds {
                out.line(&row("", "all files", kind, &figures))?;
            }
            Ok(())
        }
        Form::Json => {
            let object = Object::new()
                .raw("files", sets)
                .raw("left_out", files - sets);
            out.line(&with_kinds(object, kinds).to_string())
        }
        Form::Csv => {
            for (kind, figures) in kinds {
                out.line(&csv_row("", "", "", kind, &figures))?;
            }
            Ok(())
        }
    }
}

/// The epochs of the maps, in words, and their figures kind by kind.
fn by_map<'a>(
    maps: &'a MapSet,
    figures: &'a SetFigures,
) -> impl Iterator<Item = (usize, String, [(Kind, Figures); 3])> + 'a {
    let epochs = maps.epochs().into_iter().enumerate();
    epochs.filter_map(|(map, epoch)| {
        let [tec, rms, height] = Kind::ALL.map(|kind| Some((kind, figures.map(kind, map)?)));
        Some((map + 1, epoch.to_string(), [tec?, rms?, height?]))
    })
}

fn of_kinds(figures: &SetFigures) -> [(Kind, Figures); 3] {
    Kind::ALL.map(|kind| (kind, figures.kind(kind)))
}

/// What the thousandths are of.
fn unit(figures: &Figures) -> String {
    format!("0.001 {}", figures.sum.unit())
}

fn ends(figures: &Figures) -> [Option<i32>; 2] {
    [figures.smallest, figures.largest].map(|end| end.map(Answer::thousandths))
}

// ---- For people

const TITLES: &str =
    "   map  epoch                kind    unit            count    without   smallest    largest  mean";

fn table(name: &str, maps: &MapSet, figures: &SetFigures, style: Style) -> String {
    let nodes = maps.layers() * maps.rows() * maps.columns();
    let title = format!(
        "{}: {} of {}",
        files::shown(name),
        counted(maps.maps(), "map"),
        counted(nodes, "node")
    );
    let mut lines = vec![style.bold(&title), TITLES.to_string()];
    for (map, epoch, kinds) in by_map(maps, figures) {
        let epoch = epoch.replace('T', " ");
        lines.extend(kinds.map(|(kind, figures)| row(&map.to_string(), &epoch, kind, &figures)));
    }
    lines.extend(of_kinds(figures).map(|(kind, figures)| row("", "all maps", kind, &figures)));
    lines.join("\n") + "\n"
}

fn row(map: &str, epoch: &str, kind: Kind, figures: &Figures) -> String {
    let [smallest, largest] =
        ends(figures).map(|end| end.map_or("-".to_string(), |end| end.to_string()));
    format!(
        "{map:>6}  {epoch:<19}  {kind:<6}  {:<10}  {:>9}  {:>9}  {smallest:>9}  {largest:>9}  {}/{}",
        unit(figures),
        figures.with,
        figures.without,
        figures.sum.thousandths(),
        figures.with
    )
}

// ---- For machines

fn json(name: &str, maps: &MapSet, figures: &SetFigures) -> Object {
    let rows = by_map(maps, figures).map(|(map, epoch, kinds)| {
        let object = Object::new().raw("map", map).text("epoch", &epoch);
        with_kinds(object, kinds)
    });
    let object = Object::new()
        .text("file", name)
        .text("status", "ok")
        .raw("maps", array(rows));
    with_kinds(object, of_kinds(figures))
}

fn with_kinds(object: Object, kinds: [(Kind, Figures); 3]) -> Object {
    kinds.into_iter().fold(object, |object, (kind, figures)| {
        let [smallest, largest] = ends(&figures);
        let row = Object::new()
            .text("unit", &unit(&figures))
            .raw("count", figures.with)
            .raw("without", figures.without)
            .maybe("smallest", smallest)
            .maybe("largest", largest)
            .raw("sum", figures.sum.thousandths());
        object.raw(&kind.to_string().to_lowercase(), row)
    })
}

const NAMES: &str = "file,map,epoch,kind,unit,count,without,smallest,largest,sum";

fn csv(name: &str, maps: &MapSet, figures: &SetFigures) -> String {
    let name = quoted(&files::shown(name));
    let mut lines = Vec::new();
    for (map, epoch, kinds) in by_map(maps, figures) {
        let map = map.to_string();
        lines.extend(kinds.map(|(kind, figures)| csv_row(&name, &map, &epoch, kind, &figures)));
    }
    lines.extend(of_kinds(figures).map(|(kind, figures)| csv_row(&name, "", "", kind, &figures)));
    lines.join("\n") + "\n"
}

fn csv_row(file: &str, map: &str, epoch: &str, kind: Kind, figures: &Figures) -> String {
    let [smallest, largest] =
        ends(figures).map(|end| end.map_or(String::new(), |end| end.to_string()));
    format!(
        "{file},{map},{epoch},{kind},{},{},{},{smallest},{largest},{}",
        unit(figures),
        figures.with,
        figures.without,
        figures.sum.thousandths()
    )
}
