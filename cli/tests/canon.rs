//! `ionex canon`: the canonical text, and a file that is replaced whole or not at all.

mod common;

use common::peer::Peer;
use common::{command, example, global, ionex, ionex_given, Folder};
use std::fs;
use std::os::unix::fs::{symlink, PermissionsExt};

/// Canonical texts that were written by hand.
#[test]
fn examples() {
    for name in [
        "accepted-2d-freedoms",
        "accepted-3d",
        "accepted-4000-values",
        "accepted-canonical",
        "accepted-descriptions",
        "size-32768",
    ] {
        let ran = ionex(&["canon", &format!("tests/examples/{name}.inx")]);
        assert_eq!(
            ran.done().as_bytes(),
            example(&format!("{name}.expected")),
            "{name}"
        );
    }
}

/// Larger files, by the second program.
#[test]
fn agrees_with_the_second_program() {
    for name in [
        "001-table-3.inx",
        "001-table-4.inx",
        "size-32769.inx",
        "refused-11.inx",
    ] {
        let text = example(name);
        let expected = Peer::read(&text).expect("accepted").canonical();
        assert!(!expected.is_empty());
        let ran = ionex(&["canon", &format!("tests/examples/{name}")]);
        assert!(ran.done().as_bytes() == expected, "{name}");
    }
}

/// A day of 25 TEC and 25 RMS maps, written in canonical form: nothing is changed, by whichever way it comes and goes.
#[test]
fn a_global_day() {
    let folder = Folder::new();
    let text = global::text(true);
    let (day, out) = (folder.file("day.inx", &text), folder.path("out.inx"));
    assert!(ionex(&["canon", &day]).out == text);
    assert!(ionex_given(&text, &["canon", "-"]).out == text);
    assert_eq!(ionex(&["canon", &day, "-o", &out]).done(), "");
    assert!(fs::read(&out).expect("OUT") == text);
    assert!(ionex(&["canon", &day, "-o", "-"]).out == text);
    assert_eq!(folder.names(), ["day.inx", "out.inx"]);
}

#[test]
fn a_refused_file_is_told_beside_the_output() {
    let ran = ionex(&["canon", "tests/examples/refused-07.inx"]);
    assert_eq!((ran.status, ran.text()), (1, ""));
    let all = include_str!("refused.txt");
    let start = all.find("tests/examples/refused-07").expect("its words");
    let end = all.find("tests/examples/refused-08").expect("the next");
    assert_eq!(ran.err, all[start..end]);
}

/// The old file stands where a text is refused, and nothing is left beside it.
#[test]
fn a_refused_file_replaces_nothing() {
    let folder = Folder::new();
    let out = folder.file("out.inx", b"old");
    let ran = ionex(&["canon", "tests/examples/refused-06.inx", "-o", &out]);
    assert_eq!(
        (ran.status, fs::read(&out).expect("OUT").as_slice()),
        (1, b"old".as_slice())
    );
    assert_eq!(folder.names(), ["out.inx"]);
}

#[test]
fn a_file_may_be_replaced_by_its_own_canonical_text() {
    let folder = Folder::new();
    let file = folder.file("a.inx", &example("accepted-2d-freedoms.inx"));
    fs::set_permissions(&file, fs::Permissions::from_mode(0o640)).expect("permissions");
    assert_eq!(ionex(&["canon", &file, "-o", &file]).done(), "");
    assert_eq!(
        fs::read(&file).expect("the file"),
        example("accepted-2d-freedoms.expected")
    );
    assert_eq!(
        fs::metadata(&file).expect("the file").permissions().mode() & 0o777,
        0o640
    );
}

/// A link stays a link, and the file that it leads to is replaced.
#[test]
fn through_a_link() {
    let folder = Folder::new();
    let file = folder.file("a.inx", b"old");
    let link = folder.path("link.inx");
    symlink(&file, &link).expect("a link");
    assert_eq!(
        ionex(&[
            "canon",
            "tests/examples/accepted-canonical.inx",
            "-o",
            &link
        ])
        .done(),
        ""
    );
    assert!(fs::symlink_metadata(&link).expect("the link").is_symlink());
    assert_eq!(
        fs::read(&file).expect("the file"),
        example("accepted-canonical.expected")
    );
}

/// Where OUT cannot be written this is told, and what stands there stays.
#[test]
fn out_that_cannot_be_written() {
    let folder = Folder::new();
    let good = "tests/examples/accepted-canonical.inx";
    let inside = folder.path("inside");
    fs::create_dir(&inside).expect("a folder");
    let ran = ionex(&["canon", good, "-o", &inside]);
    ran.failed(
        2,
        &format!("ionex: {inside}: not written: is a folder, not a file\n"),
    );
    let lost = folder.path("lost/out.inx");
    let ran = ionex(&["canon", good, "-o", &lost]);
    ran.failed(2, &format!("ionex: {lost}: not written: no such folder\n"));
    let ran = ionex(&["canon", good, "-o", "/dev/full"]);
    ran.failed(
        2,
        "ionex: /dev/full: not written: no space left on device\n",
    );
    assert_eq!(folder.names(), ["inside"]);
    assert!(fs::read_dir(&inside).expect("a folder").next().is_none());
}

/// Files may grow to a few kilobytes only: the draft is not whole, so the old file stands and the draft goes.
#[test]
fn the_old_file_stands_where_the_disk_is_full() {
    let folder = Folder::new();
    let (day, out) = (
        folder.file("day.inx", &global::text(false)),
        folder.file("out.inx", b"old"),
    );
    let shell = "trap '' XFSZ; ulimit -f 8; exec \"$0\" canon \"$1\" -o \"$2\"";
    let output = std::process::Command::new("sh")
        .args(["-c", shell, env!("CARGO_BIN_EXE_ionex"), &day, &out])
        .output()
        .expect("a shell");
    let told = String::from_utf8(output.stderr).expect("UTF-8");
    assert_eq!(output.status.code(), Some(2), "{told}");
    assert_eq!(told, format!("ionex: {out}: not written: file too large\n"));
    assert_eq!(fs::read(&out).expect("OUT"), b"old");
    assert_eq!(folder.names(), ["day.inx", "out.inx"]);
}

/// A file that may not be written is not replaced either, though its folder would allow it.
#[test]
fn a_file_that_may_not_be_written() {
    let folder = Folder::new();
    let out = folder.file("out.inx", b"old");
    fs::set_permissions(&out, fs::Permissions::from_mode(0o444)).expect("permissions");
    if fs::OpenOptions::new().write(true).open(&out).is_ok() {
        return; // Nothing is forbidden to this user.
    }
    let ran = ionex(&["canon", "tests/examples/accepted-canonical.inx", "-o", &out]);
    ran.failed(
        2,
        &format!("ionex: {out}: not written: permission denied\n"),
    );
    assert_eq!(fs::read(&out).expect("OUT"), b"old");
}

#[test]
fn standard_output_that_is_full() {
    let full = fs::OpenOptions::new()
        .write(true)
        .open("/dev/full")
        .expect("/dev/full");
    let output = command()
        .args(["canon", "tests/examples/accepted-canonical.inx"])
        .stdout(full)
        .output()
        .expect("the program runs");
    let told = String::from_utf8(output.stderr).expect("UTF-8");
    assert_eq!(output.status.code(), Some(2));
    assert_eq!(
        told,
        "ionex: standard output: not written: no space left on device\n"
    );
}
