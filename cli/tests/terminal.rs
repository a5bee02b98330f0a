//! What is shown at a terminal only: colours, and how far a long run is. `script` makes a terminal.

mod common;

use common::{repository, Folder};
use std::process::{Command, Stdio};

/// What a shell command shows at a terminal.
fn at_terminal(command: &str, colours: bool) -> String {
    let output = Command::new("script")
        .args(["-qec", command, "/dev/null"])
        .current_dir(repository())
        .env("IONEX", env!("CARGO_BIN_EXE_ionex"))
        .env("TERM", "xterm")
        .env("NO_COLOR", if colours { "" } else { "1" })
        .stdin(Stdio::null())
        .output()
        .expect("a terminal");
    String::from_utf8(output.stdout).expect("UTF-8")
}

#[test]
fn colours() {
    let command = "$IONEX check tests/examples/refused-07.inx";
    let shown = at_terminal(command, true);
    assert!(
        shown.contains("\x1b[1;31mrefused 7:\x1b[0m a value"),
        "{shown:?}"
    );
    assert!(shown.contains("\x1b[1;32m^~~~~~\x1b[0m"), "{shown:?}");
    let plain = at_terminal(command, false);
    assert!(
        plain.contains("refused 7: a value") && !plain.contains('\x1b'),
        "{plain:?}"
    );
}

/// After a second the line counts, and it is gone at the end.
#[test]
fn progress() {
    let folder = Folder::new();
    let questions = folder.file("questions", "10 0 2000-01-01\n".repeat(64).as_bytes());
    let file = "tests/examples/accepted-canonical.inx";
    let slow = format!(
        "{{ cat {questions}; sleep 1.2; cat {questions}; }} | $IONEX ask {file} >/dev/null"
    );
    assert_eq!(at_terminal(&slow, false), "\r128 answered\r\x1b[K");
    let fast = format!("cat {questions} {questions} | $IONEX ask {file} >/dev/null");
    assert_eq!(at_terminal(&fast, false), "");
}

/// Files are few and slow, so each one counts.
#[test]
fn progress_of_files() {
    let file = "tests/examples/accepted-canonical.inx";
    let slow = format!("{{ sleep 1.2; cat {file}; }} | $IONEX week {file} - {file} >/dev/null");
    assert_eq!(at_terminal(&slow, false), "\r2 of 3 files\r\x1b[K");
}

/// The same of `check`, on one thread and on several.
#[test]
fn progress_of_checked_files() {
    let file = "tests/examples/accepted-canonical.inx";
    for jobs in [1, 3] {
        let slow = format!(
            "{{ sleep 1.2; cat {file}; }} | $IONEX check --jobs {jobs} {file} - {file} >/dev/null"
        );
        assert_eq!(
            at_terminal(&slow, false),
            "\r2 of 3 files\r\x1b[K",
            "{jobs}"
        );
    }
}
