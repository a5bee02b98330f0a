//! The index beside a text: every node as the full reading has it, blocks as they stand in the text, and indexes that do not fit.

use ionex::{Index, IndexAreas, Kind, MapSet, Written};

const CANONICAL: &str = "accepted-canonical.inx";

fn example(name: &str) -> Vec<u8> {
    std::fs::read(format!("../tests/examples/{name}")).expect("an example")
}

fn edited(index: &Index, edit: impl FnOnce(&mut IndexAreas)) -> Index {
    let mut areas = index.as_areas().clone();
    edit(&mut areas);
    Index::from_areas(areas)
}

/// The number of the refusal, 0 where there is none; and no block exactly where there is one.
fn number(index: &Index, text: &[u8], kind: Kind, place: [u64; 4]) -> u64 {
    let [map, layer, row, column] = place;
    let number = index
        .node(text, kind, map, layer, row, column)
        .map_or_else(|refusal| refusal.number(), |_| 0);
    let block = index.block(text, kind, map, layer, row, column);
    assert_eq!(block.is_some(), number == 0, "{kind} {place:?}");
    number
}

/// Where the opening lines of blocks start, in the order of the text.
fn openings(text: &[u8]) -> Vec<u64> {
    let label = b"LAT/LON1/LON2/DLON/H";
    let found = text
        .windows(label.len())
        .enumerate()
        .filter(|(_, bytes)| bytes == label);
    found.map(|(at, _)| at as u64 - 60).collect()
}

/// Two TEC maps of two rows, and the RMS map of the second.
#[test]
fn an_index_by_hand() {
    let text = example(CANONICAL);
    let index = Index::make(&text).expect("accepted");
    let set = MapSet::read(&text).expect("accepted").into_areas();
    let at = openings(&text);
    assert_eq!(at.len(), 6);
    let areas = index.as_areas();
    let absent = [0, 0];
    let expected = [&at[..4], &absent, &at[4..], &absent, &absent].concat();
    assert_eq!(areas.positions, expected);
    assert_eq!(areas.exponents, [-1; 12]);
    assert_eq!(areas.marks, [0, 1]);
    assert_eq!((areas.header, areas.texts), (set.header, set.texts));
    assert_eq!(index.header().maps, 2);
    assert_eq!(Index::from_areas(index.clone().into_areas()), index);
}

/// Every node of every map that stands, and 22 of every other.
#[test]
fn every_node_as_the_full_reading_has_it() {
    let names = [
        CANONICAL,
        "accepted-2d-freedoms.inx",
        "accepted-3d.inx",
        "accepted-points.inx",
        "accepted-4000-values.inx",
        "001-table-3.inx",
        "001-table-4.inx",
    ];
    for name in names {
        let text = example(name);
        let index = Index::make(&text).expect("accepted");
        let maps = MapSet::read(&text).expect("accepted");
        let mut nodes = 0;
        for kind in Kind::ALL {
            for place in places(&maps) {
                let [map, layer, row, column] = place.map(|part| part as usize);
                let asked = index.node(&text, kind, place[0], place[1], place[2], place[3]);
                let read = maps.number(kind, map - 1, layer, row, column);
                assert_eq!(read.is_some(), maps.has(kind, map - 1));
                match read {
                    None => assert_eq!(asked.map_err(|refusal| refusal.number()), Err(22)),
                    Some(number) => {
                        let exponent = maps.exponent(kind, map - 1, layer, row).expect("a row");
                        assert_eq!(asked, Ok(Written { number, exponent }), "{name} {place:?}");
                        nodes += 1;
                    }
                }
            }
        }
        assert!(nodes > 0, "{name}");
    }
}

/// Map from 1, layer, row and column of all nodes.
fn places(maps: &MapSet) -> Vec<[u64; 4]> {
    let mut places = Vec::new();
    for map in 1..=maps.maps() as u64 {
        for layer in 0..maps.layers() as u64 {
            for row in 0..maps.rows() as u64 {
                places.extend((0..maps.columns() as u64).map(|column| [map, layer, row, column]));
            }
        }
    }
    places
}

/// CR LF, a blank line behind the opening line, and another spelling of the numbers; as they stand.
#[test]
fn blocks_by_hand() {
    let text = example("accepted-2d-freedoms.inx");
    let index = Index::make(&text).expect("accepted");
    let opening =
        "   -10.0   0.0  10.0  10.0 -12.3                            LAT/LON1/LON2/DLON/H";
    let first = index.block(&text, Kind::Tec, 1, 0, 0, 0).expect("a block");
    assert_eq!(
        first,
        format!("{opening}\r\n\r\n00001   -2").as_bytes(),
        "{}",
        String::from_utf8_lossy(first)
    );
    // A part of the text itself, the same for each column.
    assert!(text.as_ptr_range().contains(&first.as_ptr()));
    let other = index.block(&text, Kind::Tec, 1, 0, 0, 1).expect("a block");
    assert_eq!(first.as_ptr_range(), other.as_ptr_range());
    assert_eq!(
        index.node(&text, Kind::Tec, 2, 0, 0, 1),
        Ok(Written {
            number: 99_999,
            exponent: -1
        })
    );
}

#[test]
fn texts_are_refused_as_by_reading() {
    for number in 1..=10 {
        let text = example(&format!("refused-{number:02}.inx"));
        let refusal = Index::make(&text).expect_err("a refused text");
        assert_eq!(Err(refusal), MapSet::read(&text).map(|_| ()));
        assert_eq!(refusal.number(), number);
    }
    assert_eq!(Index::make(b"").unwrap_err().line(), Some(1));
}

#[test]
fn outside_and_absent() {
    let text = example(CANONICAL);
    let index = Index::make(&text).expect("accepted");
    let of = |kind, place| number(&index, &text, kind, place);
    assert_eq!(of(Kind::Rms, [2, 0, 1, 2]), 0);
    for place in [
        [0, 0, 0, 0],
        [3, 0, 0, 0],
        [2, 1, 0, 0],
        [2, 0, 2, 0],
        [2, 0, 0, 3],
        [u64::MAX, 0, 0, 0],
        [2, u64::MAX, u64::MAX, u64::MAX],
    ] {
        assert_eq!(of(Kind::Tec, place), 21, "{place:?}");
    }
    assert_eq!(of(Kind::Rms, [1, 0, 0, 0]), 22);
    assert_eq!(of(Kind::Height, [2, 0, 1, 2]), 22);
    // Outside before absent.
    assert_eq!(of(Kind::Height, [2, 0, 2, 2]), 21);
}

/// Positions of another text, in mid-line, behind the end, and of another row; exponents that are none.
#[test]
fn an_index_that_does_not_fit() {
    let text = example(CANONICAL);
    let index = Index::make(&text).expect("accepted");
    let tec = |index: &Index, text: &[u8]| number(index, text, Kind::Tec, [1, 0, 0, 0]);
    for name in ["accepted-2d-freedoms.inx", "accepted-3d.inx"] {
        assert_eq!(tec(&index, &example(name)), 50, "{name}");
    }
    let at = openings(&text);
    for position in [0, at[0] + 1, at[0] - 1, at[1], text.len() as u64, u64::MAX] {
        let moved = edited(&index, |areas| areas.positions[0] = position);
        assert_eq!(tec(&moved, &text), 50, "{position}");
        assert_eq!(number(&moved, &text, Kind::Tec, [1, 0, 1, 0]), 0);
    }
    for exponent in [-4, 1, i32::MIN, i32::MAX] {
        let wrong = edited(&index, |areas| areas.exponents[0] = exponent);
        assert_eq!(tec(&wrong, &text), 50, "{exponent}");
    }
    // Another text whose blocks stand at the same bytes: its number, under the index's exponent.
    let mut other = text.clone();
    other[at[0] as usize + 81 + 3] = b'7';
    assert_eq!(
        index.node(&other, Kind::Tec, 1, 0, 0, 0),
        Ok(Written {
            number: 71,
            exponent: -1
        })
    );
    let refusal = index.node(b"", Kind::Tec, 1, 0, 0, 0).unwrap_err();
    assert_eq!(
        refusal.to_string(),
        "refused 50: an index entry that does not fit the text"
    );
}

/// Cut anywhere inside a block, that block is refused, and the one before it is answered.
#[test]
fn cut_texts() {
    let text = example(CANONICAL);
    let index = Index::make(&text).expect("accepted");
    let start = openings(&text)[5] as usize;
    let last = index.block(&text, Kind::Rms, 2, 0, 1, 0).expect("a block");
    let end = start + last.len();
    assert!(last.ends_with(b"9999"));
    for cut in start..end {
        let part = &text[..cut];
        assert_eq!(number(&index, part, Kind::Rms, [2, 0, 1, 0]), 50, "{cut}");
        assert_eq!(number(&index, part, Kind::Rms, [2, 0, 0, 0]), 0);
    }
    assert_eq!(number(&index, &text[..end], Kind::Rms, [2, 0, 1, 0]), 0);
    // A value that is none, in a column that is not asked for.
    let mut damaged = text.clone();
    damaged[end - 1] = b'x';
    assert_eq!(number(&index, &damaged, Kind::Rms, [2, 0, 1, 0]), 50);
    damaged[end - 1] = 0x80;
    assert_eq!(number(&index, &damaged, Kind::Rms, [2, 0, 1, 0]), 50);
}

#[test]
fn not_an_index() {
    let text = example(CANONICAL);
    let index = Index::make(&text).expect("accepted");
    let edits: [fn(&mut IndexAreas); 6] = [
        |areas| areas.header[6] = i64::MAX,
        |areas| areas.header[0] = 12,
        |areas| areas.texts[0] = 0,
        |areas| areas.positions.truncate(11),
        |areas| areas.exponents.truncate(11),
        |areas| areas.marks[0] = 4,
    ];
    for edit in edits {
        let wrong = edited(&index, edit);
        // Before 21 and 22.
        assert_eq!(number(&wrong, &text, Kind::Rms, [1, 0, 0, 0]), 31);
        assert_eq!(number(&wrong, &text, Kind::Tec, [9, 9, 9, 9]), 31);
    }
    // More than is needed makes no difference.
    let longer = edited(&index, |areas| {
        areas.positions.push(7);
        areas.marks.push(9);
    });
    assert_eq!(number(&longer, &text, Kind::Tec, [1, 0, 0, 0]), 0);
}
