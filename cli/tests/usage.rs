//! Help, version, and commands that are not understood.

mod common;

use common::{command, ionex, Folder};
use ionex_cli::commands::{Command, COMMANDS};

#[test]
fn help_of_everything() {
    let help = ionex(&["--help"]);
    for Command { name, .. } in COMMANDS {
        assert!(help.done().contains(&format!("\n  {name:<8} ")), "{name}");
        let of_command = ionex(&[name, "--help"]);
        assert!(of_command
            .done()
            .starts_with(&format!("Usage: ionex {name} ")));
        assert!(of_command.text().contains("Exit status: 0 "));
        assert_eq!(ionex(&[name, "-h"]).done(), of_command.text());
        assert_eq!(ionex(&["help", name]).done(), of_command.text());
    }
    for line in help.text().lines() {
        assert!(line.len() <= 120, "{line}");
    }
}

/// No option is without its words, and no line of help is too wide.
#[test]
fn every_option_is_in_the_help() {
    for Command {
        name,
        help,
        options,
        ..
    } in COMMANDS
    {
        for option in options.flags.iter().chain(options.values) {
            let told = help
                .lines()
                .any(|line| line.starts_with(&format!("  {option} ")));
            assert!(told, "{name} {option}");
        }
        for line in help.lines() {
            assert!(line.chars().count() <= 125, "{name}: {line}");
        }
    }
}

#[test]
fn version() {
    assert_eq!(
        ionex(&["--version"]).done(),
        concat!("ionex ", env!("CARGO_PKG_VERSION"), "\n")
    );
}

#[test]
fn nothing_at_all() {
    let ran = ionex::<&str>(&[]);
    assert_eq!((ran.status, ran.text()), (2, ""));
    assert!(ran.err.contains("Usage: ionex COMMAND FILE"));
}

/// Each with the words told; nothing stands on standard output.
#[test]
fn not_understood() {
    let folder = Folder::new();
    let out = folder.path("out.txt");
    let cases: &[(&[&str], &str)] = &[
        (&["chek", "x"], "no command chek (check?); see ionex --help"),
        (&["frobnicate"], "no command frobnicate; see ionex --help"),
        (&["help", "me"], "no command me; see ionex --help"),
        (&["help", "mnd"], "no command mnd (mend?); see ionex --help"),
        (&["check"], "check: no FILE is given; see ionex check --help"),
        (&["check", "--jsn", "x"], "check: unknown option --jsn; see ionex check --help"),
        (&["check", "--Jobs", "2", "x"], "check: unknown option --Jobs; see ionex check --help"),
        (&["check", "--frobnicate", "x"], "check: unknown option --frobnicate; see ionex check --help"),
        (&["check", "-j", "x"], "check: unknown option -j; see ionex check --help"),
        (&["check", "--jobs", "0", "x"], "check: --jobs 0: expected a whole number from 1 on; see ionex check --help"),
        (&["info", "--max-byte", "9", "x"], "info: unknown option --max-byte; see ionex info --help"),
        (&["info", "--max-bytes", "x", "y"], "info: --max-bytes x: expected a whole number from 1 on; see ionex info --help"),
        (&["mend", "x"], "mend: no -o OUT is given; see ionex mend --help"),
        (&["mend", "-o", "x"], "mend: no FILE is given; see ionex mend --help"),
        (&["check", "-", "-"], "check: standard input can be read once only; see ionex check --help"),
        (&["info", "a", "b"], "info: more than one FILE is given; see ionex info --help"),
        (&["biases"], "biases: no FILE is given; see ionex biases --help"),
        (&["biases", "a", "b"], "biases: more than one FILE is given; see ionex biases --help"),
        (
            &["biases", "x", "--csv", "--json"],
            "biases: --json and --csv are given, but one form is printed; see ionex biases --help",
        ),
        (&["canon"], "canon: no FILE is given; see ionex canon --help"),
        (&["canon", "x", "-o"], "canon: -o needs a value; see ionex canon --help"),
        (&["canon", "x", "-o", "a", "-o", "b"], "canon: -o is given twice; see ionex canon --help"),
        (&["join"], "join: no FILE is given; see ionex join --help"),
        (&["join", "x"], "join: one FILE is given, but two or more are joined; see ionex join --help"),
        (&["join", "-", "x", "-"], "join: standard input can be read once only; see ionex join --help"),
        (&["week"], "week: no FILE is given; see ionex week --help"),
        (&["week", "-", "x", "-"], "week: standard input can be read once only; see ionex week --help"),
        (
            &["week", "x", "--json", "--csv"],
            "week: --json and --csv are given, but one form is printed; see ionex week --help",
        ),
        (&["ask", "x", "--at", "1,2"], "ask: --at needs --time; see ionex ask --help"),
        (&["ask", "x", "--time", "2010-12-04"], "ask: --time needs --at; see ionex ask --help"),
        (
            &["ask", "-", "--kind", "tec"],
            "ask: FILE is standard input, so the question needs --at and --time; see ionex ask --help",
        ),
        (
            &["ask", "x", "--kind", "tek"],
            "ask: --kind tek: expected one of tec, rms, height; see ionex ask --help",
        ),
        (
            &["ask", "x", "--method", "linear"],
            "ask: --method linear: expected one of between, nearest, sun, nearest-sun; see ionex ask --help",
        ),
        (
            &["ask", "x", "--layer", "-1"],
            "ask: --layer -1: expected a whole number from 0 on; see ionex ask --help",
        ),
        (&["why"], "why: no FILE is given; see ionex why --help"),
        (&["why", "x", "y"], "why: more than one FILE is given; see ionex why --help"),
        (&["why", "x"], "why: no --at and --time are given; see ionex why --help"),
        (&["why", "x", "--at", "1,2"], "why: --at needs --time; see ionex why --help"),
        (
            &["why", "x", "--at", "1,2", "--time", "2010-12-04", "--method", "linear"],
            "why: --method linear: expected one of between, nearest, sun, nearest-sun; see ionex why --help",
        ),
        (
            &["delay", "x", "--at", "1,2", "--time", "2010-12-04"],
            "delay: no --carrier is given: L1, L2, L5 or hertz; see ionex delay --help",
        ),
        (
            &["delay", "x", "--carrier", "L3"],
            "delay: --carrier \"L3\": expected L1, L2, L5 or hertz, as 1575420000; see ionex delay --help",
        ),
        (
            &["delay", "x", "--carrier", "g1"],
            "delay: --carrier \"g1\": expected a channel from -7 to 6, as G1:-7; see ionex delay --help",
        ),
        (
            &["ask", "x", "--at", "1,2", "--time", "1291444200"],
            "ask: --time \"1291444200\": expected a date of 1900 to 2199 and a time, as 2010-12-04T06:30:00; Unix time is written \
             @1291444200; see ionex ask --help",
        ),
        (
            &["ask", "x", "--at", "1,2", "--time", "noon"],
            "ask: --time \"noon\": expected a date of 1900 to 2199 and a time, as 2010-12-04T06:30:00; see ionex ask --help",
        ),
        (
            &["ask", "x", "--csv", "--json"],
            "ask: --json and --csv are given, but one form is printed; see ionex ask --help",
        ),
        (&["export", "x"], "export: neither --csv nor --json is given; see ionex export --help"),
        (
            &["export", "x", "--csv", "--map", "1", "--time", "2010-12-04"],
            "export: of --map, --time and --at one can be given; see ionex export --help",
        ),
        (
            &["export", "x", "--csv", "--every", "60"],
            "export: --every needs --at; see ionex export --help",
        ),
        (
            &["export", "x", "--csv", "--at", "1,2", "--region", "0,0,1,1"],
            "export: --at is one place, and takes no --region; see ionex export --help",
        ),
        (
            &["export", "x", "--csv", "--region", "0,0,1"],
            "export: --region \"0,0,1\": expected S,W,N,E in degrees with at most one decimal, as 35,-10,60,30; see ionex \
             export --help",
        ),
        (&["completion"], "completion: no shell is given: bash, zsh or fish; see ionex completion --help"),
        (&["completion", "csh"], "completion: csh: expected one of bash, zsh, fish; see ionex completion --help"),
        (&["diff", "x"], "diff: expected two files, A and B; see ionex diff --help"),
        (&["diff", "x", "y", "z"], "diff: expected two files, A and B; see ionex diff --help"),
        (
            &["delay", "x", "--carrier", "L1", "--kind", "height"],
            "delay: --kind height: expected one of tec, rms; see ionex delay --help",
        ),
        (&["index", "x"], "index: no -o OUT is given; see ionex index --help"),
        (&["index", "-o", "x"], "index: no FILE is given; see ionex index --help"),
        (&["index", "x", "y", "-o", "z"], "index: more than one FILE is given; see ionex index --help"),
        (&["node"], "node: no FILE is given; see ionex node --help"),
        (
            &["node", "x"],
            "node: expected FILE.index FILE KIND MAP LAYER ROW COLUMN; see ionex node --help",
        ),
        (
            &["node", "x", "y", "tec", "1", "0", "0"],
            "node: expected FILE.index FILE KIND MAP LAYER ROW COLUMN; see ionex node --help",
        ),
        (
            &["node", "x", "y", "tec", "1", "0", "0", "0", "0"],
            "node: expected FILE.index FILE KIND MAP LAYER ROW COLUMN; see ionex node --help",
        ),
        (
            &["node", "-", "-", "tec", "1", "0", "0", "0"],
            "node: standard input can be read once only; see ionex node --help",
        ),
        (
            &["node", "x", "y", "tek", "1", "0", "0", "0"],
            "node: KIND tek: expected one of tec, rms, height; see ionex node --help",
        ),
        (
            &["node", "x", "y", "tec", "one", "0", "0", "0"],
            "node: MAP one: expected a whole number from 0 on; see ionex node --help",
        ),
        (
            &["node", "x", "y", "tec", "1", "0", "+1", "0"],
            "node: ROW +1: expected a whole number from 0 on; see ionex node --help",
        ),
        (
            &["node", "x", "y", "tec", "1", "0", "0", "18446744073709551616"],
            "node: COLUMN 18446744073709551616: expected a whole number from 0 on; see ionex node --help",
        ),
        (&["plot", "x"], "plot: no -o OUT.svg or OUT.png is given; see ionex plot --help"),
        (
            &["plot", "x", "--map", "0", "-o", "a.svg"],
            "plot: --map 0: expected a whole number from 1 on; see ionex plot --help",
        ),
        (
            &["plot", "x", "--map", "1", "--time", "2010-12-04", "-o", "a.svg"],
            "plot: --map and --time are given, but one map is drawn; see ionex plot --help",
        ),
        (
            &["plot", "x", "--method", "sun", "-o", "a.svg"],
            "plot: --method needs --time; see ionex plot --help",
        ),
    ];
    for (words, told) in cases {
        let ran = ionex(words);
        ran.failed(2, &format!("ionex: {told}\n"));
        assert_eq!(ran.text(), "");
    }
    let ran = ionex(&["plot", "x", "-o", &out]);
    let told = format!("-o {out}: expected a name that ends in .svg or .png");
    ran.failed(2, &format!("ionex: plot: {told}; see ionex plot --help\n"));
    assert!(folder.names().is_empty());
}

/// More than two decimals of a degree are an error, and are never rounded.
#[test]
fn decimals_of_a_degree() {
    let file = "tests/examples/001-table-3.inx";
    for at in ["10.123,20", "10,20.005", "10.000,20"] {
        let ran = ionex(&["ask", file, "--at", at, "--time", "1995-10-15"]);
        assert_eq!((ran.status, ran.text()), (2, ""));
        assert!(
            ran.err
                .contains("expected degrees with at most two decimals"),
            "{}",
            ran.err
        );
    }
    for at in ["10", "x,y", "10,", "1e1,2", "10;20"] {
        let ran = ionex(&["ask", file, "--at", at, "--time", "1995-10-15"]);
        assert_eq!((ran.status, ran.text()), (2, ""), "{at}");
    }
}

/// No colour and no mark of a terminal where the output is none, whatever the environment says.
#[test]
fn no_colour_without_a_terminal() {
    let output = command()
        .args(["check", "tests/examples/refused-07.inx"])
        .env("TERM", "xterm-256color")
        .output()
        .expect("the program runs");
    assert!(!output.stdout.contains(&0x1b));
}

/// A name that begins with a dash stands behind `--`.
#[test]
fn names_behind_the_options() {
    let ran = ionex(&["check", "--", "--json"]);
    ran.failed(2, "ionex: --json: no such file\n");
}
