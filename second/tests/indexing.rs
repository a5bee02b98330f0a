//! One block without the whole grid, on a small text.

mod common;

use common::{base, before, join, rec, with};
use second::index::{indexed_block, indexed_node, make_index, Entries, Index, Node};
use second::{Header, Reading, Refusal, Texts};

struct Made {
    header: Header,
    texts: Texts,
    positions: Vec<u64>,
    exponents: Vec<i32>,
    marks: Vec<u8>,
}

impl Made {
    fn index(&self) -> Index<'_> {
        Index {
            header: &self.header,
            texts: &self.texts,
            positions: &self.positions,
            exponents: &self.exponents,
            marks: &self.marks,
        }
    }
}

fn make(text: &[u8], lengths: [usize; 3]) -> (Reading, Made) {
    let mut made = Made {
        header: Header::default(),
        texts: Texts::default(),
        positions: vec![77; lengths[0]],
        exponents: vec![77; lengths[1]],
        marks: vec![77; lengths[2]],
    };
    let reading = make_index(
        text,
        &mut Entries {
            positions: &mut made.positions,
            exponents: &mut made.exponents,
            marks: &mut made.marks,
        },
    );
    if let Reading::Accepted { header, texts } = reading {
        (made.header, made.texts) = (header, texts);
    }
    (reading, made)
}

fn made(text: &[u8]) -> Made {
    make(text, [12, 12, 2]).1
}

fn node(kind: u64, map: u64, row: u64, column: u64) -> Node {
    Node {
        kind,
        map,
        layer: 0,
        row,
        column,
    }
}

const BARE_50: Result<(i32, i32), Refusal> = Err(Refusal::Bare { number: 50 });

/// Where line `line` (from 1) starts.
fn start(lines: &[String], line: usize) -> u64 {
    lines[..line - 1].iter().map(|l| l.len() as u64 + 1).sum()
}

#[test]
fn positions_and_exponents() {
    let mut lines = before(20, &rec("    -3", "EXPONENT"));
    lines.insert(18, "  ".to_string());
    let text = join(&lines);
    let (_, made) = make(&text, [13, 14, 3]);
    let at = |line| start(&lines, line);
    // Two TEC maps, RMS map 2 of two, no height map.
    let tec = [at(18), at(22), at(27), at(29)];
    let rms = [0, 0, at(33), at(35)];
    assert_eq!(made.positions, [&tec[..], &rms, &[0; 4], &[77]].concat());
    let exponents = [-1, -3, -3, -3, -1, -1, -3, -3, -1, -1, -1, -1, 77, 77];
    assert_eq!(made.exponents, exponents);
    assert_eq!(made.marks, [0, 1, 77]);
}

#[test]
fn refusals_of_making() {
    let text = join(&base());
    let short = |lengths| match make(&text, lengths) {
        (Reading::Refused(refusal), made) => {
            assert!(made.positions.iter().all(|&p| p == 77));
            refusal.to_string()
        }
        _ => "made".to_string(),
    };
    assert_eq!(short([12, 12, 2]), "made");
    assert_eq!(short([11, 0, 0]), "refused 11 area 1 needs 12");
    assert_eq!(short([12, 11, 0]), "refused 11 area 2 needs 12");
    assert_eq!(short([12, 12, 1]), "refused 11 area 3 needs 2");
    let cut = &text[..text.len() - 70];
    assert!(matches!(
        make(cut, [0; 3]).0,
        Reading::Refused(Refusal::Place { number: 10, .. })
    ));
}

#[test]
fn nodes_and_blocks() {
    let lines = before(27, "   ");
    let text = join(&lines);
    let made = made(&text);
    let ask = |node: Node| indexed_node(&made.index(), &text, &node);
    assert_eq!(ask(node(0, 1, 0, 0)), Ok((1, -1)));
    assert_eq!(ask(node(0, 2, 1, 2)), Ok((16, -1)));
    assert_eq!(ask(node(1, 2, 1, 2)), Ok((9999, -1)));
    let refused = |number| Err(Refusal::Bare { number });
    assert_eq!(ask(node(3, 0, 9, 9)), refused(23));
    assert_eq!(ask(node(2, 3, 0, 0)), refused(21));
    assert_eq!(ask(node(0, 0, 0, 0)), refused(21));
    assert_eq!(ask(node(0, 1, 2, 0)), refused(21));
    assert_eq!(ask(node(0, 1, 0, 3)), refused(21));
    assert_eq!(ask(node(1, 1, 0, 0)), refused(22));
    assert_eq!(ask(node(2, 2, 1, 2)), refused(22));
    let block = indexed_block(&made.index(), &text, &node(0, 2, 0, 1));
    assert_eq!(block, lines[24..26].join("\n").as_bytes());
    let block = indexed_block(&made.index(), &text, &node(0, 2, 1, 1));
    assert_eq!(block, lines[27..29].join("\n").as_bytes());
    assert!(indexed_block(&made.index(), &text, &node(1, 1, 0, 0)).is_empty());
    assert!(indexed_block(&made.index(), &text, &node(0, 1, 0, 3)).is_empty());
}

/// "31 for an index without a valid header": its descriptions are a part of that.
#[test]
fn descriptions_of_an_index() {
    let text = join(&before(3, &rec("a model", "DESCRIPTION")));
    let mut made = made(&text);
    assert_eq!(made.header.descriptions, 1);
    assert_eq!(&made.texts.descriptions[0][..7], b"a model");
    let question = node(0, 1, 0, 0);
    assert_eq!(indexed_node(&made.index(), &text, &question), Ok((1, -1)));
    for count in [0, -1, 21] {
        made.header.descriptions = count;
        let refused = Err(Refusal::Bare { number: 31 });
        assert_eq!(indexed_node(&made.index(), &text, &question), refused);
    }
}

/// CR LF is no part of the block; blanks behind its last value and blank lines inside are.
#[test]
fn line_ends() {
    let mut lines = before(19, " ");
    lines[19].push_str("  ");
    let text = (lines.join("\r\n") + "\r\n").into_bytes();
    let made = made(&text);
    let block = indexed_block(&made.index(), &text, &node(0, 1, 0, 0));
    let opening = &lines[17];
    let expected = format!("{opening}\r\n \r\n    1    2    3  ");
    assert_eq!(block, expected.as_bytes());
}

#[test]
fn entries_that_do_not_point_at_their_block() {
    let text = join(&base());
    let mut made = made(&text);
    let right = made.positions[0];
    let question = node(0, 1, 0, 0);
    let other = [
        right - 1,
        right + 1,
        made.positions[1],
        0,
        text.len() as u64,
        text.len() as u64 + 1,
        u64::MAX,
    ];
    for position in other {
        made.positions[0] = position;
        assert_eq!(indexed_node(&made.index(), &text, &question), BARE_50);
    }
    // The same row of another map is such a block.
    made.positions[0] = made.positions[2];
    assert_eq!(indexed_node(&made.index(), &text, &question), Ok((11, -1)));
    for exponent in [1, -4, i32::MIN] {
        made.positions[0] = right;
        made.exponents[0] = exponent;
        assert_eq!(indexed_node(&made.index(), &text, &question), BARE_50);
    }
}

/// Every value is looked at, and only the block's own bytes.
#[test]
fn texts_that_changed() {
    let made = made(&join(&base()));
    let ask = |text: &[u8]| indexed_node(&made.index(), text, &node(0, 1, 0, 0));
    for line in [
        "    1    2    ",
        "    1    2    x",
        "    1    2    3  4",
        "",
    ] {
        assert_eq!(ask(&join(&with(19, line))), BARE_50, "{line}");
    }
    assert_eq!(ask(&join(&with(19, "    7    2 9999"))), Ok((7, -1)));
    let long = " ".repeat(81);
    assert_eq!(ask(&join(&before(19, &long))), BARE_50);
    assert_eq!(ask(&join(&before(19, &long[1..]))), Ok((1, -1)));
    assert_eq!(ask(&join(&before(19, "\t"))), BARE_50);
    // Any number of its layout is the height in dimension 2.
    let height = rec("    10.0   0.0  20.0  10.0  -9.9", "LAT/LON1/LON2/DLON/H");
    assert_eq!(ask(&join(&with(18, &height))), Ok((1, -1)));
    let cut = start(&base(), 19) as usize + 15;
    let text = join(&base());
    assert_eq!(ask(&text[..cut]), Ok((1, -1)));
    assert_eq!(ask(&text[..cut - 1]), BARE_50);
    let mut noise = text.clone();
    noise[..made.positions[0] as usize].fill(0);
    noise[cut + 1..].fill(255);
    assert_eq!(ask(&noise), Ok((1, -1)));
}
