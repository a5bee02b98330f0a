//! Texts of some 5 or 10 MB that try how time grows: many lines of one kind, thousands of stations, and lines that never
//! end. Most stand on a small file.

use crate::files::{end_of_header, in_header, record, small, station, BLOCK, TITLE};

const LARGE: usize = 5_000_000;

/// A name, and what makes the text.
pub type Named = (&'static str, fn() -> String);

pub const TEXTS: [Named; 17] = [
    ("2-byte lines in another aux block", || {
        aux_first("OTHER", &"x\n".repeat(LARGE / 2))
    }),
    ("aux blocks without lines", || {
        in_header(&small(), &aux("OTHER", "").repeat(LARGE / 156))
    }),
    ("empty lines in the header", || lines_in_header("\n", LARGE)),
    ("empty lines with CR LF", || {
        lines_in_header("\r\n", LARGE / 2)
    }),
    ("COMMENT lines before the maps", || {
        behind_header(&one("c", "COMMENT").repeat(LARGE / 68))
    }),
    ("EXPONENT lines before the maps", || {
        behind_header(&one("    -1", "EXPONENT").repeat(LARGE / 69))
    }),
    ("empty lines in a block", || in_block(&"\n".repeat(LARGE))),
    ("lines of 80 blanks in a block", || {
        in_block(&(" ".repeat(80) + "\n").repeat(LARGE / 81))
    }),
    ("a line of 5 MB", || {
        lines_in_header(&("x".repeat(LARGE) + "\n"), 1)
    }),
    ("5 MB without a line end", || "x".repeat(LARGE)),
    ("100,000 stations", || {
        aux_first(TITLE, &stations(0..100_000))
    }),
    ("60,000 stations, names falling", || {
        aux_first(TITLE, &(0..60_000).rev().map(station).collect::<String>())
    }),
    (
        "30,000 stations behind 2-byte lines of another block",
        || {
            let text = aux_first(TITLE, &stations(0..30_000));
            let other = aux("OTHER", &"x\n".repeat(LARGE / 2));
            text.replacen(&one(TITLE, START), &(other + &one(TITLE, START)), 1)
        },
    ),
    ("30,000 stations behind 2-byte lines of their block", || {
        aux_first(TITLE, &("x\n".repeat(LARGE / 2) + &stations(0..30_000)))
    }),
    ("60,000 stations, 41 2-byte lines behind each", || {
        let each = |k| station(k) + &"x\n".repeat(41);
        aux_first(TITLE, &(0..60_000).map(each).collect::<String>())
    }),
    ("60,000 stations, 2-byte lines, a station more", || {
        let lines = stations(0..60_000) + &"x\n".repeat(LARGE / 2) + &station(60_000);
        aux_first(TITLE, &lines)
    }),
    ("100,000 stations, the first again at the end", || {
        aux_first(TITLE, &(stations(0..100_000) + &station(0)))
    }),
];

/// A small file, with 5 MB put behind its first block record: without LF, and of empty lines.
pub fn behind_block() -> [Named; 2] {
    [
        ("5 MB without a line end", || in_block(&"x".repeat(LARGE))),
        ("5 MB of empty lines", || in_block(&"\n".repeat(LARGE))),
    ]
}

const START: &str = "START OF AUX DATA";

fn one(body: &str, label: &str) -> String {
    let mut line = String::new();
    record(&mut line, body, label);
    line
}

fn aux(title: &str, lines: &str) -> String {
    one(title, START) + lines + &one(title, "END OF AUX DATA")
}

fn aux_first(title: &str, lines: &str) -> String {
    in_header(&small(), &aux(title, lines))
}

fn stations(which: std::ops::Range<usize>) -> String {
    which.map(station).collect()
}

fn lines_in_header(line: &str, count: usize) -> String {
    in_header(&small(), &line.repeat(count))
}

fn behind_header(lines: &str) -> String {
    let end = end_of_header();
    small().replacen(&end, &(end.clone() + lines), 1)
}

fn in_block(bytes: &str) -> String {
    let opened = format!("{BLOCK}\n");
    small().replacen(&opened, &(opened.clone() + bytes), 1)
}
