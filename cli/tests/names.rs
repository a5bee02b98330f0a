//! Names that would order a terminal about, texts without an end, packed files, and many files at once.

mod common;

use common::{command, example, global, ionex, Folder};

/// Clears a screen, and begins a line of its own in a log.
const WILD: &str = "a\x1b[2J\nionex: b.inx";
const SHOWN: &str = "a\\x1b[2J\\nionex: b.inx";

/// Every command shows such a name without its letters that are orders, on both streams, accepted or refused.
#[test]
fn names_order_nothing() {
    let folder = Folder::new();
    let good = folder.file(WILD, &example("accepted-canonical.inx"));
    let bad = folder.file(&format!("{WILD}.bad"), &example("refused-07.inx"));
    let none = folder.path(&format!("{WILD}.none"));
    let svg = folder.path("map.svg");
    for file in [&good, &bad, &none] {
        for words in [
            vec!["check", file],
            vec!["info", file],
            vec!["biases", file],
            vec!["canon", file, "-o", "/dev/null"],
            vec!["mend", file, "-o", "/dev/null"],
            vec!["join", file, file],
            vec!["week", file],
            vec!["week", file, "--csv"],
            vec!["why", file, "--at", "5,5", "--time", "2000-01-01"],
            vec!["ask", file, "--at", "5,5", "--time", "2000-01-01"],
            vec!["index", file, "-o", "/dev/null"],
            vec!["node", file, file, "tec", "1", "0", "0", "0"],
            vec!["export", file, "--csv"],
            vec!["diff", file, file],
            vec!["plot", file, "-o", &svg],
        ] {
            let ran = ionex(&words);
            let all = format!("{}{}", ran.text(), ran.err);
            assert!(!all.contains('\x1b'), "{words:?}: {all}");
            assert!(!all.contains("\nionex: b.inx"), "{words:?}: {all}");
        }
    }
    let ran = ionex(&["check", &none]);
    assert!(
        ran.err.ends_with(&format!("/{SHOWN}.none: no such file\n")),
        "{}",
        ran.err
    );
    let ran = ionex(&["check", &bad]);
    assert!(ran
        .text()
        .contains(&format!("/{SHOWN}.bad:3:13: refused 7: ")));
    // For machines it is the name itself.
    let ran = ionex(&["check", &good, "--json"]);
    assert!(ran
        .done()
        .contains(r#"/a\u001b[2J\nionex: b.inx","status":"ok""#));
    let ran = ionex(&["chec\x1b[2Jk"]);
    ran.failed(2, "ionex: no command chec\\x1b[2Jk; see ionex --help\n");
}

/// No more than --max-bytes are read, whether a file has an end or not.
#[test]
fn texts_without_an_end() {
    let file = "tests/examples/accepted-canonical.inx";
    assert_eq!(example("accepted-canonical.inx").len(), 2425);
    let ran = ionex(&["check", file, "--max-bytes", "2425"]);
    assert!(ran.done().contains(": ok, "));
    let ran = ionex(&["check", file, "--max-bytes", "2424"]);
    ran.failed(
        2,
        &format!("ionex: {file}: more than 2424 bytes; --max-bytes reads more\n"),
    );
    for name in ["info", "ask", "canon", "biases"] {
        let mut words = vec![name, "/dev/zero", "--max-bytes", "1000000"];
        words.extend(
            ["--at", "0,0", "--time", "2000-01-01"]
                .iter()
                .filter(|_| name == "ask"),
        );
        let told = "ionex: /dev/zero: more than 1000000 bytes; --max-bytes reads more\n";
        ionex(&words).failed(2, told);
    }
    let child = command()
        .args(["check", "-", "--max-bytes", "100000"])
        .stdin(std::fs::File::open("/dev/zero").expect("/dev/zero"))
        .output()
        .expect("the program runs");
    assert_eq!(child.status.code(), Some(2));
    assert_eq!(
        String::from_utf8_lossy(&child.stderr),
        "ionex: standard input: more than 100000 bytes; --max-bytes reads more\n"
    );
}

/// Packed texts are no texts: every command refuses them, and says by their first bytes how they are unpacked.
#[test]
fn packed_files() {
    let folder = Folder::new();
    let gzip = folder.file("a.inx.gz", b"\x1f\x8b\x08\x00\x12\x34");
    let compress = folder.file("a.inx.Z", b"\x1f\x9d\x90ab\n");
    let place = ["--at", "5,5", "--time", "2000-01-01"];
    for (file, told) in [
        (&gzip, "unpack it with `gunzip` first\n"),
        (
            &compress,
            "unpack it with `uncompress` or `gzip -d` first\n",
        ),
    ] {
        for (command, more) in [
            ("check", &[][..]),
            ("info", &[]),
            ("biases", &[]),
            ("canon", &[]),
            ("ask", &place),
            ("export", &["--csv"]),
        ] {
            let ran = ionex(&[&[command, file], more].concat());
            assert_eq!(ran.status, 1, "{command}");
            let all = format!("{}{}", ran.text(), ran.err);
            let start = format!("{file}:1:1: refused 2: ");
            assert!(all.starts_with(&start) && all.ends_with(told), "{all}");
        }
    }
}

/// On one thread or on many, files are told in the order in which they are given.
#[test]
fn many_files_at_once() {
    let folder = Folder::new();
    let (day, small) = (global::text(false), example("accepted-canonical.inx"));
    let files: Vec<String> = (0..24)
        .map(|number| match number % 3 {
            0 => folder.file(&format!("{number}.inx"), &day),
            1 => folder.file(&format!("{number}.inx"), &small),
            _ => folder.path(&format!("{number}.none")),
        })
        .collect();
    let names: Vec<&str> = files.iter().map(String::as_str).collect();
    let one = ionex(&[&["check", "--json", "--jobs", "1"], &names[..]].concat());
    assert_eq!(one.status, 2);
    let told: Vec<&str> = one.text().lines().collect();
    assert_eq!(told.len(), 24);
    for (file, line) in names.iter().zip(&told) {
        assert!(
            line.starts_with(&format!("{{\"file\":\"{file}\",")),
            "{line}"
        );
    }
    for jobs in [
        &["--jobs", "2"][..],
        &["--jobs", "7"],
        &["--jobs", "100"],
        &[],
    ] {
        let many = ionex(&[&["check", "--json"], jobs, &names[..]].concat());
        assert_eq!((many.status, many.text()), (2, one.text()), "{jobs:?}");
    }
}

/// Refused files and files that cannot be read, in JSON where JSON was asked for.
#[test]
fn json_of_what_is_not_answered() {
    let refused = "tests/examples/refused-07.inx";
    let expected = r#"{"file":"tests/examples/refused-07.inx","status":"refused","number":7,"line":3,"column":13,"reason":"a value outside what is accepted","expected":"the day: 1 to 28 in 2001-02, found `29`","hints":[]}"#;
    let unread = r#"{"file":"none","status":"unread","error":"none: no such file"}"#;
    let place = ["--at", "5,5", "--time", "2000-01-01"];
    for (command, more) in [
        ("info", &[][..]),
        ("biases", &[]),
        ("ask", &place),
        ("ask", &[]),
        ("why", &place),
        ("export", &[]),
        (
            "delay",
            &["--carrier", "L1", "--at", "5,5", "--time", "2000-01-01"],
        ),
    ] {
        let ran = ionex(&[&[command, refused, "--json"], more].concat());
        assert_eq!(
            (ran.status, ran.text(), ran.err.as_str()),
            (1, format!("{expected}\n").as_str(), ""),
            "{command}"
        );
        let ran = ionex(&[&[command, "none", "--json"], more].concat());
        assert_eq!(
            (ran.status, ran.text(), ran.err.as_str()),
            (2, format!("{unread}\n").as_str(), ""),
            "{command}"
        );
    }
    // A refused question.
    let file = "tests/examples/accepted-canonical.inx";
    for command in ["ask", "why"] {
        let words = [
            command,
            file,
            "--json",
            "--at",
            "50,5",
            "--time",
            "2000-01-01",
        ];
        let ran = ionex(&words);
        let expected = concat!(
            r#"{"lat":50.00,"lon":5.00,"time":"2000-01-01T00:00:00","kind":"tec","method":"between","layer":0,"refused":21,"#,
            r#""reason":"the place or the layer lies outside the grid: latitude 50.00 is not within 10.0 to 0.0"}"#,
            "\n"
        );
        assert_eq!(
            (ran.status, ran.text(), ran.err.as_str()),
            (1, expected, "")
        );
    }
}
