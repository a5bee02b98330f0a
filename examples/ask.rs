//! ask FILE LAT,LON TIME OUT: reads an IONEX file, prints the TEC at a place and time, and writes the file's canonical text.
//! Exit status: 0 done, 1 refused, 2 a word or a file is wrong.

use ionex::{Epoch, Kind, MapSet, Method, Place, Refusal};
use std::ffi::{OsStr, OsString};
use std::process::ExitCode;
use std::{fs, io};

/// Why nothing comes of it.
enum Fault {
    Usage,
    File(OsString, io::Error),
    Refused(Refusal),
}

impl From<Refusal> for Fault {
    fn from(refusal: Refusal) -> Fault {
        Fault::Refused(refusal)
    }
}

fn main() -> ExitCode {
    let words: Vec<OsString> = std::env::args_os().skip(1).collect();
    match run(&words) {
        Ok(()) => ExitCode::SUCCESS,
        Err(Fault::Refused(refusal)) => {
            eprintln!("{refusal}");
            ExitCode::from(1)
        }
        Err(Fault::File(name, fault)) => {
            eprintln!("{}: {fault}", name.to_string_lossy());
            ExitCode::from(2)
        }
        Err(Fault::Usage) => {
            eprintln!(
                "usage: ask FILE LAT,LON TIME OUT, as: ask maps.inx 47.25,8.50 2010-12-04T06:30:00 canonical.inx"
            );
            ExitCode::from(2)
        }
    }
}

fn run(words: &[OsString]) -> Result<(), Fault> {
    let [file, place, time, out] = words else {
        return Err(Fault::Usage);
    };
    let place: Place = parsed(place)?;
    let time: Epoch = parsed(time)?;
    let text = fs::read(file).map_err(|fault| Fault::File(file.clone(), fault))?;
    let maps = MapSet::read(&text)?;
    println!("{}", maps.ask(Kind::Tec, Method::Between, 0, place, time)?);
    let canonical = maps.write()?;
    fs::write(out, &canonical).map_err(|fault| Fault::File(out.clone(), fault))?;
    println!("{} bytes written", canonical.len());
    Ok(())
}

/// A word as what it stands for.
fn parsed<T: std::str::FromStr>(word: &OsStr) -> Result<T, Fault> {
    let word = word.to_str().ok_or(Fault::Usage)?;
    word.parse().map_err(|_| Fault::Usage)
}
