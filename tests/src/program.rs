//! An executable that prints what the program `canon` should print, run on the examples.

use crate::tally::Tally;
use std::fs;
use std::io::{self, Write};
use std::path::{Path, PathBuf};
use std::process::{Command, Stdio};

pub fn folder() -> PathBuf {
    Path::new(env!("CARGO_MANIFEST_DIR")).join("examples")
}

/// The names of all examples, without their endings, in order.
pub fn names() -> Vec<String> {
    let entries = fs::read_dir(folder()).expect("the examples");
    let mut names: Vec<String> = entries
        .map(|entry| entry.expect("an example").path())
        .filter(|path| path.extension().is_some_and(|ending| ending == "inx"))
        .map(|path| path.file_stem().expect("a name").to_string_lossy().into())
        .collect();
    names.sort();
    names
}

/// Runs an x86-64 executable; on another machine the script runs it under the emulator.
pub fn command(file: &Path) -> Command {
    if cfg!(target_arch = "x86_64") {
        return Command::new(file);
    }
    let mut command = Command::new(concat!(env!("CARGO_MANIFEST_DIR"), "/x86-64"));
    command.arg("run").arg(file);
    command
}

/// What an executable prints for a text.
fn printed(file: &Path, text: &[u8]) -> io::Result<Vec<u8>> {
    let mut child = command(file)
        .stdin(Stdio::piped())
        .stdout(Stdio::piped())
        .spawn()?;
    let mut input = child.stdin.take().expect("a pipe");
    let text = text.to_vec();
    // The program may stop reading a text that is too big, so a broken pipe is no fault.
    let feeder = std::thread::spawn(move || drop(input.write_all(&text)));
    let output = child.wait_with_output()?;
    drop(feeder.join());
    Ok(output.stdout)
}

/// What is wrong with what the executable prints for an example, if anything is.
fn wrong(file: &Path, name: &str) -> Option<String> {
    let text = fs::read(folder().join(format!("{name}.inx"))).expect("the text");
    let found = match printed(file, &text) {
        Ok(found) => found,
        Err(error) => return Some(format!("does not run: {error}")),
    };
    if found != second::program::canon(&text) {
        return Some("not what the second program prints".to_string());
    }
    // The large examples have no answer beside them.
    let stored = fs::read(folder().join(format!("{name}.expected"))).ok()?;
    (found != stored).then(|| "not the stored answer".to_string())
}

pub fn examples(file: &Path) -> Tally {
    let mut tally = Tally::default();
    for name in names() {
        let wrong = wrong(file, &name);
        tally.note(wrong.is_none());
        if let Some(wrong) = wrong {
            println!("WRONG {name}: {wrong}");
        }
    }
    tally
}
