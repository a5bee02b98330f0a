//! `ionex index` and `ionex node`: nodes as the full reading and the second program have them, the index file byte by byte,
//! and indexes that are wrong.

mod common;

use common::global;
use common::peer::{Chance, PeerIndex};
use common::{example, ionex, ionex_given, Folder, Ran};
use ionex::{Kind, MapSet};
use second::index::Node;

const CANONICAL: &str = "tests/examples/accepted-canonical.inx";
const FREEDOMS: &str = "tests/examples/accepted-2d-freedoms.inx";
const KINDS: [(&str, Kind); 3] = [
    ("tec", Kind::Tec),
    ("rms", Kind::Rms),
    ("height", Kind::Height),
];

/// Where the parts of an index file begin, by docs/INDEX-FILE.md: version, header numbers, positions.
const VERSION: usize = 8;
const HEADER: usize = 28;
const POSITIONS: usize = 1712;

/// The index file of a file, made in a folder.
fn index_of(folder: &Folder, file: &str) -> String {
    let name = format!("{}.index", file.rsplit('/').next().expect("a name"));
    let path = folder.path(&name);
    assert_eq!(ionex(&["index", file, "-o", &path]).done(), "");
    path
}

fn node(index: &str, file: &str, asked: &str) -> Ran {
    let mut words = vec!["node", index, file];
    words.extend(asked.split(' '));
    ionex(&words)
}

#[test]
fn by_hand() {
    let folder = Folder::new();
    let index = index_of(&folder, CANONICAL);
    let of = |asked| node(&index, CANONICAL, asked).done().to_string();
    assert_eq!(of("tec 1 0 0 0"), "1 exponent -1: 0.100 TECU\n");
    assert_eq!(of("tec 2 0 1 2"), "16 exponent -1: 1.600 TECU\n");
    assert_eq!(of("rms 2 0 1 2"), "9999 exponent -1: no value\n");
    let opening =
        "     0.0   0.0  20.0  10.0 400.0                            LAT/LON1/LON2/DLON/H";
    assert_eq!(
        of("rms 2 0 1 0 --block"),
        format!("{opening}\n   24   25 9999\n")
    );
    let asked = r#""kind":"rms","map":2,"layer":0,"row":1"#;
    assert_eq!(
        of("rms 2 0 1 1 --json"),
        format!(
            "{{{asked},\"column\":1,\"number\":25,\"exponent\":-1,\"value\":2.500,\"unit\":\"TECU\"}}\n"
        )
    );
    assert_eq!(
        of("rms 2 0 1 2 --json --block"),
        format!(
            "{{{asked},\"column\":2,\"number\":9999,\"exponent\":-1,\"value\":null,\"unit\":\"TECU\",\
             \"block\":\"{opening}\\n   24   25 9999\"}}\n"
        )
    );
    // A blank line and CR LF, as they stand; heights are kilometres.
    let index = index_of(&folder, FREEDOMS);
    let block = node(&index, FREEDOMS, "tec 1 0 0 1 --block");
    let opening =
        "   -10.0   0.0  10.0  10.0 -12.3                            LAT/LON1/LON2/DLON/H";
    assert_eq!(block.done(), format!("{opening}\r\n\r\n00001   -2\n"));
    assert_eq!(
        node(&index, FREEDOMS, "height 1 0 1 0").done(),
        "7 exponent -1: 0.700 km\n"
    );
}

/// Index and file from standard input, and the index to standard output.
#[test]
fn pipes() {
    let folder = Folder::new();
    let index = index_of(&folder, CANONICAL);
    let written = std::fs::read(&index).expect("an index");
    let text = example("accepted-canonical.inx");
    let piped = ionex_given(&text, &["index", "-", "-o", "-"]);
    assert_eq!((piped.status, piped.out), (0, written.clone()));
    let asked = ["tec", "1", "0", "1", "1"];
    let of = |input: &[u8], files: [&str; 2]| {
        let words = [&["node"][..], &files, &asked].concat();
        ionex_given(input, &words).done().to_string()
    };
    let answer = "5 exponent -1: 0.500 TECU\n";
    assert_eq!(of(&written, ["-", CANONICAL]), answer);
    assert_eq!(of(&text, [&index, "-"]), answer);
}

/// What the program says of a node by the full reading; nothing where the map is absent.
fn expected(maps: &MapSet, kind: Kind, place: [usize; 4]) -> Option<String> {
    let [map, layer, row, column] = place;
    let number = maps.number(kind, map, layer, row, column)?;
    let exponent = maps.exponent(kind, map, layer, row)?;
    let value = maps.value(kind, map, layer, row, column);
    let words = value.map_or("no value".to_string(), |value| value.to_string());
    Some(format!("{number} exponent {exponent}: {words}\n"))
}

/// Every node of the small examples, by the full reading.
#[test]
fn node_by_node() {
    let folder = Folder::new();
    for name in [CANONICAL, FREEDOMS, "tests/examples/accepted-3d.inx"] {
        let text = example(name.rsplit('/').next().expect("a name"));
        let maps = MapSet::read(&text).expect("accepted");
        let index = index_of(&folder, name);
        let mut answered = 0;
        for (word, kind) in KINDS {
            for place in places(&maps) {
                let [map, layer, row, column] = place;
                let asked = format!("{word} {} {layer} {row} {column}", map + 1);
                let ran = node(&index, name, &asked);
                match expected(&maps, kind, place) {
                    Some(words) => {
                        assert_eq!(ran.done(), words, "{name} {asked}");
                        answered += 1;
                    }
                    None => {
                        let words = format!(
                            "ionex: refused 22: a node that the answer needs has no value: there is no {kind} map {}\n",
                            map + 1
                        );
                        ran.failed(1, &words);
                    }
                }
            }
        }
        assert!(answered >= places(&maps).len(), "{name}");
    }
}

fn places(maps: &MapSet) -> Vec<[usize; 4]> {
    let mut places = Vec::new();
    for map in 0..maps.maps() {
        for layer in 0..maps.layers() {
            for row in 0..maps.rows() {
                places.extend((0..maps.columns()).map(|column| [map, layer, row, column]));
            }
        }
    }
    places
}

/// A full-size day: nodes here and there with their blocks, and the entries of the index file, by the second program.
#[test]
fn agrees_with_the_second_program() {
    let folder = Folder::new();
    let text = global::text(true);
    let file = folder.file("day.inx", &text);
    let index = index_of(&folder, &file);
    let maps = MapSet::read(&text).expect("accepted");
    let blocks = 3 * maps.maps() * maps.layers() * maps.rows();
    let peer = PeerIndex::make(&text, blocks, maps.maps()).expect("accepted");
    let written = std::fs::read(&index).expect("an index");
    let mut entries: Vec<u8> = Vec::new();
    entries.extend(peer.positions.iter().flat_map(|at| at.to_le_bytes()));
    entries.extend(peer.exponents.iter().flat_map(|e| e.to_le_bytes()));
    entries.extend(&peer.marks);
    assert_eq!(written.len(), POSITIONS + entries.len() + 4);
    assert!(written[POSITIONS..].starts_with(&entries));
    let mut chance = Chance::new(8);
    for _ in 0..60 {
        let [kind, map, tenth, row, column] = [3, 27, 10, 73, 75].map(|end| chance.below(end));
        let layer = tenth / 9;
        let asked = Node {
            kind,
            map,
            layer,
            row,
            column,
        };
        let words = format!("{} {map} {layer} {row} {column}", KINDS[kind as usize].0);
        let ran = node(&index, &file, &words);
        match peer.node(&text, &asked) {
            Ok((number, exponent)) => {
                let start = format!("{number} exponent {exponent}: ");
                assert!(ran.done().starts_with(&start), "{words}: {ran:?}");
                let lines = node(&index, &file, &format!("{words} --block"));
                let block = [peer.block(&text, &asked), b"\n"].concat();
                assert_eq!(lines.done().as_bytes(), block, "{words}");
            }
            Err(number) => {
                assert_eq!((ran.status, ran.text()), (1, ""), "{words}");
                let start = format!("ionex: refused {number}: ");
                assert!(ran.err.starts_with(&start), "{words}: {}", ran.err);
            }
        }
    }
}

#[test]
fn refused_questions() {
    let folder = Folder::new();
    let index = index_of(&folder, CANONICAL);
    let grid = "refused 21: the place or the layer lies outside the grid";
    let cases = [
        ("tec 0 0 0 0", "map 0 of 2, counted from 1"),
        ("tec 3 0 0 0", "map 3 of 2, counted from 1"),
        ("tec 2 1 9 9", "layer 1 of 1, counted from 0"),
        ("rms 1 0 2 9", "row 2 of 2, counted from 0"),
        ("height 1 0 1 3", "column 3 of 3, counted from 0"),
    ];
    for (asked, cause) in cases {
        let ran = node(&index, CANONICAL, asked);
        ran.failed(1, &format!("ionex: {grid}: {cause}\n"));
        assert_eq!(ran.text(), "");
        let block = node(&index, CANONICAL, &format!("{asked} --block"));
        assert_eq!((block.status, block.text()), (1, ""));
    }
    let absent = "a node that the answer needs has no value: there is no RMS map 1";
    let ran = node(&index, CANONICAL, "rms 1 0 1 2 --json --block");
    let object = format!(
        "{{\"kind\":\"rms\",\"map\":1,\"layer\":0,\"row\":1,\"column\":2,\"refused\":22,\"reason\":\"{absent}\"}}\n"
    );
    assert_eq!((ran.status, ran.text()), (1, object.as_str()));
}

/// An index of another file, a file that was cut or damaged since, and one whose block has moved.
#[test]
fn an_index_that_does_not_fit() {
    let folder = Folder::new();
    let index = index_of(&folder, CANONICAL);
    let told = |row: u64| {
        format!(
            "ionex: refused 50: an index entry that does not fit the text: no row {row} of layer 0 where the index says; it \
             may be of another file\n"
        )
    };
    node(&index, FREEDOMS, "tec 1 0 0 0").failed(1, &told(0));
    node(&index, "tests/examples/empty.inx", "tec 1 0 0 0").failed(1, &told(0));
    let text = example("accepted-canonical.inx");
    let values = b"   14   15   16";
    let at = text
        .windows(values.len())
        .position(|part| part == values)
        .expect("the last row of map 2");
    let cut = folder.file("cut.inx", &text[..at + 10]);
    node(&index, &cut, "tec 2 0 1 0").failed(1, &told(1));
    node(&index, &cut, "tec 2 0 1 0 --block").failed(1, &told(1));
    node(&index, &cut, "rms 2 0 0 0").failed(1, &told(0));
    assert_eq!(
        node(&index, &cut, "tec 2 0 0 0").done(),
        "11 exponent -1: 1.100 TECU\n"
    );
    let mut damaged = text.clone();
    damaged[at + 14] = b'x';
    let damaged = folder.file("damaged.inx", &damaged);
    node(&index, &damaged, "tec 2 0 1 0").failed(1, &told(1));
    let moved = folder.file("moved.inx", &[b" \n", &text[..]].concat());
    node(&index, &moved, "tec 2 0 1 0").failed(1, &told(1));
}

/// A text that is refused leaves what OUT held, and nothing beside it.
#[test]
fn refused_texts() {
    let folder = Folder::new();
    let out = folder.file("x.index", b"as it was");
    for number in 1..=10 {
        let name = format!("tests/examples/refused-{number:02}.inx");
        let ran = ionex(&["index", &name, "-o", &out]);
        assert_eq!((ran.status, ran.text()), (1, ""));
        assert_eq!(ran.err, ionex(&["check", &name]).text());
    }
    ionex(&["index", "no-such-file.inx", "-o", &out])
        .failed(2, "ionex: no-such-file.inx: no such file\n");
    assert_eq!(std::fs::read(&out).expect("a file"), b"as it was");
    let nowhere = folder.path("none/x.index");
    ionex(&["index", CANONICAL, "-o", &nowhere]).failed(
        2,
        &format!("ionex: {nowhere}: not written: no such folder\n"),
    );
    let text = folder.file("maps.inx", &example("accepted-canonical.inx"));
    let ran = ionex(&["index", &text, "-o", &folder.path("./maps.inx")]);
    ran.failed(
        2,
        "ionex: index: OUT is FILE itself, which the index is made of; see ionex index --help\n",
    );
    assert_eq!(
        std::fs::read(&text).expect("a file"),
        example("accepted-canonical.inx")
    );
    assert_eq!(folder.names(), ["maps.inx", "x.index"]);
    assert_eq!(ionex(&["index", &text, "-o", &out]).done(), "");
    assert!(std::fs::read(&out)
        .expect("a file")
        .starts_with(b"IONEXIDX"));
    assert_eq!(folder.names(), ["maps.inx", "x.index"]);
}

/// The checksum of docs/INDEX-FILE.md at the end of what stands before it.
fn summed(bytes: &[u8]) -> Vec<u8> {
    let mut sum = !0u32;
    for byte in bytes {
        for bit in 0..8 {
            let low = (sum ^ u32::from(byte >> bit)) & 1;
            sum = (sum >> 1) ^ if low == 1 { 0xedb8_8320 } else { 0 };
        }
    }
    [bytes, &(!sum).to_le_bytes()].concat()
}

/// Each with its words; none is asked.
#[test]
fn wrong_index_files() {
    let folder = Folder::new();
    let index = index_of(&folder, CANONICAL);
    let right = std::fs::read(&index).expect("an index");
    assert_eq!(right.len(), POSITIONS + 12 * 12 + 2 + 4);
    let content = &right[..right.len() - 4];
    assert_eq!(summed(content), right);
    let version = |number: u8| {
        let mut bytes = content.to_vec();
        bytes[VERSION] = number;
        summed(&bytes)
    };
    let mut endless = content.to_vec();
    endless[12..28].fill(0xff);
    let no_index = "not an index file: it does not begin with IONEXIDX";
    let cases: Vec<(Vec<u8>, &str)> = vec![
        (Vec::new(), no_index),
        (right[..7].to_vec(), no_index),
        (example("accepted-canonical.inx"), no_index),
        (
            right[..8].to_vec(),
            "an index file that is cut: 8 of at least 1716 bytes",
        ),
        (
            right[..1715].to_vec(),
            "an index file that is cut: 1715 of at least 1716 bytes",
        ),
        (
            right[..1861].to_vec(),
            "an index file that is cut: 1861 of 1862 bytes",
        ),
        (
            [&right[..], b"\n"].concat(),
            "an index file with more behind its end: 1863 bytes, and it has 1862",
        ),
        (
            right.repeat(2),
            "an index file with more behind its end: 3724 bytes, and it has 1862",
        ),
        (
            version(0),
            "an index file of version 0, and only version 2 is read: make it again by `ionex index`",
        ),
        (
            version(3),
            "an index file of version 3, and only version 2 is read: make it again by `ionex index`",
        ),
        // As long as a whole file of the version before, which had no descriptions.
        (
            version(1)[..654].to_vec(),
            "an index file of version 1, and only version 2 is read: make it again by `ionex index`",
        ),
        (
            summed(&endless),
            "an index file that is cut: 1862 of 239807672958224172711 bytes",
        ),
    ];
    for (bytes, words) in cases {
        let wrong = folder.file("wrong.index", &bytes);
        let ran = node(&wrong, CANONICAL, "tec 1 0 0 0");
        ran.failed(2, &format!("ionex: {wrong}: {words}\n"));
        assert_eq!(ran.text(), "");
    }
    let missing = folder.path("none.index");
    node(&missing, CANONICAL, "tec 1 0 0 0")
        .failed(2, &format!("ionex: {missing}: no such file\n"));
    // The other way round.
    node(CANONICAL, &index, "tec 1 0 0 0").failed(2, &format!("ionex: {CANONICAL}: {no_index}\n"));
}

/// Whichever byte is changed, the file is not taken.
#[test]
fn damaged_index_files() {
    let folder = Folder::new();
    let index = index_of(&folder, CANONICAL);
    let right = std::fs::read(&index).expect("an index");
    let mut chance = Chance::new(80);
    let end = right.len();
    for at in (0..end).step_by(7).chain(end - 4..end) {
        let mut bytes = right.clone();
        bytes[at] ^= 1 << chance.below(8);
        let wrong = folder.file("wrong.index", &bytes);
        let ran = node(&wrong, CANONICAL, "tec 1 0 0 0");
        assert_eq!((ran.status, ran.text()), (2, ""), "byte {at}");
        let start = format!("ionex: {wrong}: ");
        assert!(ran.err.starts_with(&start), "{}", ran.err);
        if at >= HEADER {
            assert!(ran.err.contains(": a damaged index file: its checksum is "));
        }
    }
}

/// A file with the right checksum may hold any numbers: they are refused as questions are.
#[test]
fn index_files_of_noise() {
    let folder = Folder::new();
    let index = index_of(&folder, CANONICAL);
    let right = std::fs::read(&index).expect("an index");
    let content = &right[..right.len() - 4];
    let with = |at: usize, bytes: &[u8]| {
        let mut content = content.to_vec();
        content[at..at + bytes.len()].copy_from_slice(bytes);
        folder.file("noise.index", &summed(&content))
    };
    let invalid = "ionex: refused 31: not a valid map set: header, lengths or marks of the index\n";
    // The maps, and the mark of the first.
    let noise = with(HEADER + 8 * 6, &[0xff; 8]);
    node(&noise, CANONICAL, "tec 1 0 0 0").failed(1, invalid);
    let noise = with(POSITIONS + 12 * 12, &[4]);
    node(&noise, CANONICAL, "tec 1 0 0 0").failed(1, invalid);
    // A letter behind the last description, and the number of them.
    let noise = with(POSITIONS - 1, b"x");
    node(&noise, CANONICAL, "tec 1 0 0 0").failed(1, invalid);
    let noise = with(HEADER + 8 * 44, &[21]);
    node(&noise, CANONICAL, "tec 1 0 0 0").failed(1, invalid);
    // The first position, and the first exponent.
    for (at, bytes) in [
        (POSITIONS, &[0xff; 8][..]),
        (POSITIONS, &[0; 8]),
        (POSITIONS + 8 * 12, &1i32.to_le_bytes()),
    ] {
        let noise = with(at, bytes);
        let ran = node(&noise, CANONICAL, "tec 1 0 0 0");
        assert_eq!(ran.status, 1);
        assert!(ran.err.starts_with("ionex: refused 50: "), "{}", ran.err);
        assert_eq!(node(&noise, CANONICAL, "tec 1 0 1 0").status, 0);
    }
}
