//! `ionex join FILE FILE... [-o OUT]`

use super::Command;
use crate::args::{Args, Options};
use crate::numbers::tenths;
use crate::output::{Output, Style};
use crate::status::{usage, Status, Stop};
use crate::{files, refused, time};
use ionex::{Axis, MapSet, Refusal};

pub const COMMAND: Command = Command {
    name: "join",
    does: "joins files, each of which begins where the one before it ends, into one",
    help: HELP,
    options: Options {
        flags: &[],
        values: &["-o"],
    },
    run,
};

const HELP: &str = "\
Usage: ionex join FILE FILE... [-o OUT]

Joins files of maps into one, and writes its canonical text. Each file begins at the epoch where the one before it ends,
as the days of a week do. The map that two files share is the later one's, with its RMS and height maps, and so are
header and texts; INTERVAL is 0 where theirs differ. It makes no difference which of three files are joined first.

  -o OUT   the file to write, in place of standard output; it is replaced only when the text is whole
  -        as FILE: standard input, as OUT: standard output

Exit status: 0 written, 1 a file is refused or two do not fit, 2 one cannot be read or OUT cannot be written.
";

fn run(args: &Args, out: &mut Output) -> Result<Status, Stop> {
    let files = args.many_files()?;
    let (first, others) = (&files[0], &files[1..]);
    if others.is_empty() {
        return usage("one FILE is given, but two or more are joined");
    }
    let mut names = vec![files::name(first)];
    let mut joined = refused::read(&names[0], &args.read(first)?)?;
    for file in others {
        names.push(files::name(file));
        let later = refused::read(&files::name(file), &args.read(file)?)?;
        joined = joined
            .join(&later)
            .map_err(|refusal| Stop::refused(words(&names, &joined, &later, &refusal)))?;
    }
    let text = joined
        .write()
        .map_err(|refusal| Stop::refused(format!("ionex: {refusal}")))?;
    match args.value("-o") {
        Some(path) if path != "-" => files::replace(path, &text)?,
        _ => out.put(&text)?,
    }
    Ok(Status::Done)
}

/// Which files do not fit, and why. Grids and epochs are those of the last two, too many maps are those of all.
fn words(names: &[String], early: &MapSet, late: &MapSet, refusal: &Refusal) -> String {
    let (cause, from) = match refusal.number() {
        40 => (difference(early, late), names.len() - 2),
        41 => (gap(early, late), names.len() - 2),
        42 => (excess(early, late), 0),
        _ => (String::new(), 0),
    };
    let style = Style::of_errors();
    let place = style.bold(&format!("{}:", listed(&names[from..])));
    let refused = style.red(&format!("refused {}:", refusal.number()));
    format!("{place} {refused} {}{cause}", refusal.meaning())
}

/// `a and b`, `a, b and c`
fn listed(names: &[String]) -> String {
    let words = match names.split_last() {
        Some((last, [])) => last.clone(),
        Some((last, first)) => format!("{} and {last}", first.join(", ")),
        None => String::new(),
    };
    files::shown(&words).into_owned()
}

/// The first of the header's numbers that differ, in both.
fn difference(early: &MapSet, late: &MapSet) -> String {
    let (early, late) = (early.header(), late.header());
    let axis = |axis: &Axis| {
        let [first, last, step] = [axis.first, axis.last, axis.step].map(tenths);
        format!("{first} to {last} by {step}")
    };
    let both = [
        ("latitudes", axis(&early.latitudes), axis(&late.latitudes)),
        (
            "longitudes",
            axis(&early.longitudes),
            axis(&late.longitudes),
        ),
        (
            "dimension",
            early.dimension.to_string(),
            late.dimension.to_string(),
        ),
        ("heights", axis(&early.heights), axis(&late.heights)),
        ("base radius", tenths(early.radius), tenths(late.radius)),
    ];
    let found = both.iter().find(|(_, early, late)| early != late);
    found.map_or(String::new(), |(name, early, late)| {
        format!(": {name} {early} and {late}")
    })
}

fn gap(early: &MapSet, late: &MapSet) -> String {
    let turned = late.header().last == early.header().first;
    let hint = if turned {
        "; the other way round they meet"
    } else {
        ""
    };
    let [last, first] = [early.header().last, late.header().first].map(time::words);
    format!(": {last} and {first}{hint}")
}

fn excess(early: &MapSet, late: &MapSet) -> String {
    let maps = early.maps() + late.maps() - 1;
    if maps > 300 {
        return format!(": {maps} maps of at most 300");
    }
    let values = maps * late.layers() * late.rows() * late.columns();
    format!(": {values} values of at most 2000000")
}
