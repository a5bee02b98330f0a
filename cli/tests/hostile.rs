//! Files that are none, far too large, random or damaged; pipes that close.

mod common;

use common::global::{self, joined};
use common::peer::{Chance, Peer};
use common::{command, example, ionex, ionex_given, lines, Folder};
use ionex_cli::commands::check;
use ionex_cli::mend;
use ionex_cli::{Status, Style};
use second::Refusal;
use std::io::Read;
use std::process::Stdio;

#[test]
fn no_such_file_a_folder_an_empty_file() {
    for name in ["check", "info", "canon"] {
        ionex(&[name, "no-such-file.inx"]).failed(2, "ionex: no-such-file.inx: no such file\n");
        ionex(&[name, "tests/examples"])
            .failed(2, "ionex: tests/examples: is a folder, not a file\n");
        ionex(&[name, "README.md/x"]).failed(2, "ionex: README.md/x: not a directory\n");
    }
    let ran = ionex(&["check", "tests/examples/empty.inx"]);
    let expected = "\
tests/examples/empty.inx:1:0: refused 10: the text ends before END OF FILE
      = expected a text, found an empty file
      = hint: nothing was written into this file: fetch it again
";
    assert_eq!((ran.status, ran.text()), (1, expected));
}

/// 100 MB in one line, and in lines that are blank each.
#[test]
fn a_hundred_megabytes_of_blanks() {
    let blanks = vec![b' '; 100_000_000];
    let ran = ionex_given(&blanks, &["check", "-"]);
    let start = "standard input:1:81: refused 1: a line of more than 80 bytes\n";
    assert!(ran.text().starts_with(start), "{}", &ran.text()[..200]);
    assert!(ran.text().len() < 1000, "the line is cut");
    assert!(ran
        .text()
        .contains("expected at most 80 columns, found 100000000\n"));
    assert_eq!(ran.status, 1);
    let mut line = vec![b' '; 80];
    line.push(b'\n');
    let ran = ionex_given(&line.repeat(1_234_567), &["check", "-"]);
    assert!(
        ran.text()
            .starts_with("standard input:1234568:0: refused 10: "),
        "{}",
        ran.text()
    );
    assert!(ran
        .text()
        .contains("expected a text, found blank lines only\n"));
}

#[test]
fn random_bytes() {
    for seed in 0..20 {
        let mut chance = Chance::new(seed);
        let bytes: Vec<u8> = (0..5000).map(|_| chance.below(256) as u8).collect();
        for name in ["check", "canon"] {
            let ran = ionex_given(&bytes, &[name, "-"]);
            assert_eq!(ran.status, 1);
            let told = if name == "check" {
                ran.text()
            } else {
                &ran.err
            };
            let first = told.lines().next().expect("a line");
            assert!(first.starts_with("standard input:1:"), "{first}");
        }
    }
}

/// Damaged texts in thousands: number, line and column are the second program's, each line of a refusal is one, and the
/// explanation never fails.
#[test]
fn damaged_texts() {
    let texts = [
        lines(),
        split("accepted-2d-freedoms.inx"),
        split("accepted-3d.inx"),
    ];
    let mut seen = [0; 11];
    for seed in 0..6000 {
        let mut chance = Chance::new(seed);
        let mut lines = texts[seed as usize % 3].clone();
        for _ in 0..=chance.below(2) {
            damage(&mut lines, &mut chance);
        }
        let text = joined(&lines);
        let (status, words) = check::answer("f", &text, false, Style::PLAIN);
        match Peer::read(&text) {
            Ok(_) => assert_eq!(status, Status::Done, "seed {seed}: {words}"),
            Err(Refusal::Place {
                number,
                line,
                column,
            }) => {
                let start = format!("f:{line}:{column}: refused {number}: ");
                assert!(words.starts_with(&start), "seed {seed}: {words}");
                assert!(
                    words.contains("\n      = expected "),
                    "seed {seed}: {words}"
                );
                assert!(
                    !words.contains("= expected \n") && !words.ends_with("= expected "),
                    "seed {seed}: {words}"
                );
                seen[usize::from(number)] += 1;
            }
            Err(other) => panic!("seed {seed}: {other}"),
        }
    }
    assert!(seen[1..].iter().all(|&count| count >= 10), "{seen:?}");
}

/// Damaged texts mended: what is then accepted the second program accepts, and where nothing was repaired nothing is changed.
#[test]
fn damaged_texts_mended() {
    let mut turned = lines();
    let rms: Vec<String> = turned.drain(29..35).collect();
    turned.splice(15..15, rms);
    let texts = [
        lines(),
        turned,
        split("accepted-descriptions.inx"),
        split("accepted-3d.inx"),
    ];
    let (mut repaired, mut accepted) = (0, 0);
    for seed in 0..4000 {
        let mut chance = Chance::new(seed);
        let mut lines = texts[seed as usize % 4].clone();
        if chance.below(2) == 0 {
            lines.pop();
        }
        damage(&mut lines, &mut chance);
        let text = joined(&lines);
        let mended = mend::mend(text.clone());
        if mended.repairs.is_empty() {
            assert_eq!(mended.text, text, "seed {seed}");
        } else {
            repaired += 1;
            accepted += u32::from(mended.maps.is_ok());
        }
        assert_eq!(
            mended.maps.is_ok(),
            Peer::read(&mended.text).is_ok(),
            "seed {seed}"
        );
    }
    assert!(repaired > 500 && accepted > 100, "{repaired} {accepted}");
}

fn split(name: &str) -> Vec<String> {
    let text = String::from_utf8(example(name)).expect("ASCII");
    text.lines().map(str::to_string).collect()
}

/// A line taken out, doubled, moved or cut, the text cut, or a byte changed.
fn damage(lines: &mut Vec<String>, chance: &mut Chance) {
    let at = chance.below(lines.len() as u64) as usize;
    match chance.below(12) {
        0 => drop(lines.remove(at)),
        1 => lines.insert(at, lines[at].clone()),
        2 => {
            let other = chance.below(lines.len() as u64) as usize;
            lines.swap(at, other);
        }
        3 => lines.truncate(at + 1),
        4 => {
            let end = chance.below(lines[at].len() as u64 + 1) as usize;
            lines[at].truncate(end);
        }
        5 => lines[at].push_str(&"x".repeat(chance.below(30) as usize)),
        _ => {
            let mut bytes = lines[at].clone().into_bytes();
            if !bytes.is_empty() {
                let place = chance.below(bytes.len() as u64) as usize;
                bytes[place] = b" 0129-.xI\t~"[chance.below(11) as usize];
            }
            lines[at] = String::from_utf8(bytes).expect("ASCII");
        }
    }
    if lines.is_empty() {
        lines.push(String::new());
    }
}

/// The reader of a pipe goes after the first bytes: no word, and no refusal.
#[test]
fn a_pipe_that_closes() {
    let folder = Folder::new();
    let day = folder.file("day.inx", &global::text(true));
    let questions = "0 0 2010-12-04\n".repeat(100_000);
    let many = folder.file("questions", questions.as_bytes());
    for words in [
        vec!["canon", &day],
        vec!["info", &day],
        vec!["ask", &day],
        vec!["check", &day],
        vec!["--help"],
    ] {
        let mut child = command()
            .args(&words)
            .stdin(std::fs::File::open(&many).expect("questions"))
            .stdout(Stdio::piped())
            .stderr(Stdio::piped())
            .spawn()
            .expect("the program runs");
        let mut out = child.stdout.take().expect("standard output");
        if words[0] != "check" {
            out.read_exact(&mut [0; 10]).expect("a few bytes");
        }
        drop(out);
        let output = child.wait_with_output().expect("an end");
        assert_eq!(output.status.code(), Some(0), "{words:?}");
        assert_eq!(String::from_utf8_lossy(&output.stderr), "", "{words:?}");
    }
    // What was refused before stays refused.
    let mut child = command()
        .args(["check", "tests/examples/refused-07.inx"])
        .stdout(Stdio::piped())
        .stderr(Stdio::piped())
        .spawn()
        .expect("the program runs");
    drop(child.stdout.take());
    let output = child.wait_with_output().expect("an end");
    assert_eq!((output.status.code(), output.stderr.len()), (Some(1), 0));
}
