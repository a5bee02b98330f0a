//! compare self-check COUNT SEED   the library judged by what is known of each job
//! compare libraries COUNT SEED    the second program and the library, byte for byte
//! compare boundary COUNT SEED     both at the C boundary: own areas of every length, numbers too wide
//! compare faults COUNT SEED       every planted fault must be found
//! compare delays SEED             delays of a week's log and of any carriers, by both, bit for bit
//! compare explains COUNT SEED     where answers came from, by both, and what is listed judged
//! compare many COUNT SEED         many questions in one call, by both, and each as if it were alone
//! compare histories COUNT SEED    days of texts read into the same areas: the last that was accepted answers
//! compare weeks COUNT SEED        weeks in figures, by both, and the reports judged
//! compare indexes COUNT SEED      indexes, nodes and blocks, by both, and the indexes judged
//! compare biases COUNT SEED       code biases, by both, and those of good texts judged
//! compare places COUNT SEED       where the damaged texts are refused, for reading
//! compare program FILE            an executable on every example, against the second program
//! compare guards                  every export with its areas at forbidden pages (on x86-64)
//! compare touch EXPORT SIDE AREA HOW   a call that such a page must end
//! compare linked                  the functions that are linked, one to a line
//!
//! A function of the library that is not linked is answered by the second program, and a line says so.
//! The last line is `N passed, M failed`; the exit status is non-zero if M > 0.

#![forbid(unsafe_code)]

use compare::archive::{self, Archive, FUNCTIONS};
use compare::check;
use compare::library::{self, Second};
use compare::tally::Tally;
use compare::{
    biases, calls, delays, explains, faults, histories, indexes, many, program, remarks, weeks,
};
use std::fmt::Debug;
use std::path::Path;
use std::process::ExitCode;

fn main() -> ExitCode {
    let arguments: Vec<String> = std::env::args().skip(1).collect();
    let words: Vec<&str> = arguments.iter().map(String::as_str).collect();
    let tally = match words[..] {
        ["program", file] => program::examples(Path::new(file)),
        #[cfg(all(target_arch = "x86_64", feature = "ionex"))]
        ["guards"] => compare::guards::compare(),
        #[cfg(all(target_arch = "x86_64", feature = "ionex"))]
        ["touch", export, side, area, how] => {
            match compare::guards::touch(export, side, area, how) {
                Some(0) => return ExitCode::SUCCESS,
                _ => return usage(),
            }
        }
        ["linked"] => {
            for (name, _) in FUNCTIONS.iter().filter(|(_, linked)| *linked) {
                println!("{}", name.trim_start_matches("ionex_"));
            }
            return ExitCode::SUCCESS;
        }
        ["delays", seed] => match seed.parse() {
            Ok(seed) if linked() => delays::log(&Archive, seed),
            _ => return usage(),
        },
        [mode, count, seed] => {
            let (Ok(count), Ok(seed)) = (count.parse(), seed.parse()) else {
                return usage();
            };
            if mode == "places" {
                check::places(library::judged().as_ref(), count, seed);
                return ExitCode::SUCCESS;
            }
            match seeded(mode, count, seed) {
                Some(tally) => tally,
                None => return usage(),
            }
        }
        _ => return usage(),
    };
    println!("{} passed, {} failed", tally.passed, tally.failed);
    if tally.failed > 0 {
        ExitCode::FAILURE
    } else {
        ExitCode::SUCCESS
    }
}

fn usage() -> ExitCode {
    eprintln!(
        "usage: compare self-check|libraries|boundary|explains|many|histories|weeks|indexes|biases|faults|places COUNT SEED"
    );
    eprintln!("       compare delays SEED");
    eprintln!("       compare program FILE");
    eprintln!("       compare linked | guards");
    eprintln!("libraries, boundary, delays and guards need a function that is linked");
    ExitCode::from(2)
}

fn seeded(mode: &str, count: u64, seed: u64) -> Option<Tally> {
    say_what_is_linked();
    let library = library::judged();
    Some(match mode {
        "self-check" => check::self_check(library.as_ref(), count, seed),
        "libraries" if linked() => check::compare(&Second, library.as_ref(), count, seed),
        "boundary" if linked() => calls::compare(&archive::fenced(), count, seed),
        "explains" => explains::compare(&archive::fenced(), count, seed),
        "many" => many::compare(&archive::fenced(), count, seed),
        "histories" => histories::compare(&archive::fenced(), count, seed),
        "weeks" => weeks::compare(&archive::fenced(), count, seed),
        "indexes" => indexes::compare(&archive::fenced(), count, seed),
        "biases" => biases::compare(&archive::fenced(), count, seed),
        "faults" => planted_faults(count, seed),
        _ => return None,
    })
}

/// Whether there is anything to compare with the second program.
fn linked() -> bool {
    FUNCTIONS.iter().any(|(_, linked)| *linked)
}

fn say_what_is_linked() {
    for (name, linked) in FUNCTIONS {
        if !linked {
            println!("{name} is not linked: the second program stands in its place");
        }
    }
}

/// One wrong answer for each thing compared; the comparison must find it.
fn planted_faults(count: u64, seed: u64) -> Tally {
    let mut tally = Tally::default();
    let library = library::judged();
    let all = faults::Fault::all();
    plant(&mut tally, all, "", |fault| {
        faults::find(library.as_ref(), fault, count, seed)
    });
    let all = remarks::Leak::all();
    plant(&mut tally, all, " by its remarks", |leak| {
        remarks::find(leak, count, seed)
    });
    let all = calls::Fault::all();
    plant(&mut tally, all, " at the boundary", |fault| {
        calls::find(&Archive, fault, count, seed)
    });
    let all = explains::faults::Fault::all();
    plant(&mut tally, all, " of an explanation", |fault| {
        explains::faults::find(fault, count, seed)
    });
    let all = many::faults::Fault::all();
    plant(&mut tally, all, " of many questions", |fault| {
        many::faults::find(fault, count, seed)
    });
    let all = histories::faults::Fault::all();
    plant(&mut tally, all, " of a day's texts", |fault| {
        histories::faults::find(fault, count, seed)
    });
    let all = weeks::Fault::all();
    plant(&mut tally, all, " of a week", |fault| {
        weeks::find(fault, count, seed)
    });
    let all = indexes::faults::Fault::all();
    plant(&mut tally, all, " of an index", |fault| {
        indexes::faults::find(fault, count, seed)
    });
    let all = biases::faults::Fault::all();
    plant(&mut tally, all, " of biases", |fault| {
        biases::faults::find(fault, count, seed)
    });
    let all = tally.passed + tally.failed;
    println!("{all} faults planted, {} found", tally.passed);
    tally
}

/// The faults of one kind, each looked for over the seeds.
fn plant<F: Copy + Debug>(
    tally: &mut Tally,
    faults: Vec<F>,
    of: &str,
    find: impl Fn(F) -> Option<(u64, String)>,
) {
    for fault in faults {
        let found = find(fault);
        tally.note(found.is_some());
        match found {
            Some((seed, difference)) => {
                let short: String = difference.chars().take(60).collect();
                println!("found {fault:?}{of} at seed {seed}: {short}");
            }
            None => println!("NOT FOUND {fault:?}{of}"),
        }
    }
}
