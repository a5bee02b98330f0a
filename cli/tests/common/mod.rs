//! Runs the program as a user does, and makes files for it.
#![allow(dead_code)]

use std::ffi::OsStr;
use std::fs;
use std::io::Write;
use std::path::{Path, PathBuf};
use std::process::{Command, Stdio};
use std::sync::atomic::{AtomicU32, Ordering};

pub mod global;
pub mod peer;

/// What the program did.
#[derive(Debug)]
pub struct Ran {
    pub status: i32,
    pub out: Vec<u8>,
    pub err: String,
}

impl Ran {
    pub fn text(&self) -> &str {
        std::str::from_utf8(&self.out).expect("UTF-8")
    }

    /// Done without a word beside the output, which is handed on.
    pub fn done(&self) -> &str {
        assert_eq!((self.status, self.err.as_str()), (0, ""), "{self:?}");
        self.text()
    }

    /// Ended with this status, and exactly these words on standard error.
    pub fn failed(&self, status: i32, words: &str) {
        assert_eq!(
            (self.status, self.err.as_str()),
            (status, words),
            "{}",
            self.text()
        );
    }
}

pub fn command() -> Command {
    let mut command = Command::new(env!("CARGO_BIN_EXE_ionex"));
    command.current_dir(repository()).stdin(Stdio::null());
    command
}

/// The folder that names such as tests/examples start from.
pub fn repository() -> &'static Path {
    Path::new(concat!(env!("CARGO_MANIFEST_DIR"), "/.."))
}

pub fn ionex<S: AsRef<OsStr>>(words: &[S]) -> Ran {
    ran(command().args(words).output().expect("the program runs"))
}

fn ran(output: std::process::Output) -> Ran {
    Ran {
        status: output.status.code().expect("an exit status"),
        out: output.stdout,
        err: String::from_utf8(output.stderr).expect("UTF-8"),
    }
}

/// With these bytes as standard input.
pub fn ionex_given(input: &[u8], words: &[&str]) -> Ran {
    let mut child = command()
        .args(words)
        .stdin(Stdio::piped())
        .stdout(Stdio::piped())
        .stderr(Stdio::piped())
        .spawn()
        .expect("the program runs");
    let mut stdin = child.stdin.take().expect("standard input");
    let input = input.to_vec();
    // The program may end before it has read all.
    let writer = std::thread::spawn(move || drop(stdin.write_all(&input)));
    let output = child.wait_with_output().expect("the program ends");
    writer.join().expect("a writer");
    ran(output)
}

/// A folder of the test's own, removed at its end.
pub struct Folder(PathBuf);

static FOLDERS: AtomicU32 = AtomicU32::new(0);

impl Folder {
    pub fn new() -> Folder {
        let name = format!(
            "ionex-cli-{}-{}",
            std::process::id(),
            FOLDERS.fetch_add(1, Ordering::Relaxed)
        );
        let path = std::env::temp_dir().join(name);
        fs::create_dir(&path).expect("a folder");
        Folder(path)
    }

    pub fn path(&self, name: &str) -> String {
        self.0.join(name).to_str().expect("UTF-8").to_string()
    }

    pub fn file(&self, name: &str, content: &[u8]) -> String {
        let path = self.path(name);
        fs::write(&path, content).expect("a file");
        path
    }

    /// The names of what lies in it.
    pub fn names(&self) -> Vec<String> {
        let names = fs::read_dir(&self.0).expect("a folder");
        let mut names: Vec<String> = names
            .map(|entry| {
                entry
                    .expect("an entry")
                    .file_name()
                    .into_string()
                    .expect("UTF-8")
            })
            .collect();
        names.sort();
        names
    }
}

impl Drop for Folder {
    fn drop(&mut self) {
        let _ = fs::remove_dir_all(&self.0);
    }
}

/// An example's bytes.
pub fn example(name: &str) -> Vec<u8> {
    fs::read(repository().join("tests/examples").join(name)).expect("an example")
}

/// The lines of accepted-canonical.inx, to be damaged: two TEC maps and RMS map 2, two rows, three columns.
pub fn lines() -> Vec<String> {
    let text = String::from_utf8(example("accepted-canonical.inx")).expect("ASCII");
    text.lines().map(str::to_string).collect()
}
