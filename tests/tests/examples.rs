//! The example files: each text gives the answer written beside it.

use compare::library::{self, Library};
use compare::program;
use compare::set::rubbish;
use second::program::canon;
use second::{Axis, Buffers, Header, Reading};
use std::fs;

fn bytes(name: &str) -> Vec<u8> {
    fs::read(program::folder().join(name)).unwrap()
}

#[test]
fn answers_beside_the_texts() {
    let names: Vec<String> = program::names()
        .into_iter()
        .filter(|name| !name.starts_with("001"))
        .collect();
    assert_eq!(names.len(), 23);
    for name in names {
        let text = bytes(&format!("{name}.inx"));
        let expected = bytes(&format!("{name}.expected"));
        let found = canon(&text);
        assert_eq!(
            String::from_utf8_lossy(&found),
            String::from_utf8_lossy(&expected),
            "{name}"
        );
        if name.starts_with("accepted") {
            assert_eq!(canon(&expected), expected, "{name}");
        }
    }
}

/// The sizes that the names promise.
#[test]
fn sizes() {
    assert_eq!(bytes("empty.inx").len(), 0);
    assert_eq!(bytes("size-32768.inx").len(), 32_768);
    assert_eq!(bytes("size-32769.inx").len(), 32_769);
    // The last byte of the largest input is needed.
    let cut = &bytes("size-32768.inx")[..32_767];
    assert!(canon(cut).starts_with(b"refused 4 "));
}

/// The value that `with_own_values` puts at a place of an area.
fn own_value(at: usize) -> i32 {
    (at % 9973) as i32
}

/// The text with a value of its own at each place; those of the document are all alike, and would not show rows and
/// columns that change places.
fn with_own_values(text: &[u8]) -> Vec<u8> {
    let text = String::from_utf8(text.to_vec()).unwrap();
    let (mut changed, mut at) = (String::new(), 0);
    for line in text.lines() {
        if line.len() > 60 && !line.ends_with(|c: char| c.is_ascii_digit()) {
            if line.ends_with("START OF RMS MAP") || line.ends_with("START OF HEIGHT MAP") {
                // The maps of a kind stand one behind the other, so the first begins its area.
                at *= usize::from(!line.starts_with("     1"));
            }
            changed += line;
        } else {
            let count = line.len() / 5;
            changed.extend((at..at + count).map(|at| format!("{:>5}", own_value(at))));
            at += count;
        }
        changed.push('\n');
    }
    changed.into_bytes()
}

/// The example with own values fills its areas in their order.
fn in_order(library: &dyn Library, name: &str, lengths: [usize; 6]) {
    let text = with_own_values(&bytes(name));
    let mut areas = rubbish(lengths, 1);
    let answer = library.read(&text, &mut areas);
    assert!(matches!(answer, Reading::Accepted { .. }), "{answer:?}");
    for values in [&areas.tec, &areas.rms, &areas.height] {
        let expected = (0..values.len()).map(own_value);
        assert!(values.iter().copied().eq(expected), "{name}");
    }
}

/// Reads an example of document 001 with areas of exactly the lengths needed.
fn example(library: &dyn Library, name: &str, lengths: [usize; 6]) -> (Header, Buffers) {
    in_order(library, name, lengths);
    let mut areas = rubbish(lengths, 1);
    match library.read(&bytes(name), &mut areas) {
        Reading::Accepted { header, texts } => {
            assert_eq!(&texts.program, b"ionpgm v1.0         ");
            assert_eq!(&texts.agency, b"aiub                ");
            assert_eq!(&texts.date, b"29-jan-96 17:29     ");
            assert_eq!(&texts.mapping, b"COSZ");
            let observables = b"double-difference carrier phase";
            assert_eq!(&texts.observables[..31], observables);
            let lines = texts
                .descriptions
                .map(|line| line.trim_ascii_end().to_vec());
            assert_eq!(header.descriptions, 2);
            assert_eq!(lines[0], b"global ionosphere maps for day 288, 1995");
            assert_eq!(lines[1], b"modeled by spherical harmonics ...");
            assert!(lines[2..].iter().all(|line| line.is_empty()));
            (header, areas)
        }
        Reading::Refused(refusal) => panic!("{name}: {refusal}"),
    }
}

fn common(header: &Header, areas: &Buffers) {
    let axis = |first, last, step| Axis { first, last, step };
    assert_eq!(
        (header.version, header.file_type, header.code),
        (11, b'I', 4)
    );
    // 1995-10-15 00:00:00 is 3,022,704,000 s.
    assert_eq!(header.first_epoch, 3_022_704_000);
    assert_eq!(header.last_epoch, 3_022_704_000 + 86_400);
    assert_eq!((header.interval, header.maps), (21_600, 5));
    assert_eq!((header.cutoff, header.radius), (200, 63_710));
    assert_eq!(header.latitudes, axis(850, -850, -50));
    assert_eq!(header.longitudes, axis(0, 3550, 50));
    assert_eq!((header.stations.stands, header.stations.count), (true, 80));
    assert_eq!(
        (header.satellites.stands, header.satellites.count),
        (true, 24)
    );
    let epochs: Vec<u64> = (0..5).map(|k| 3_022_704_000 + 21_600 * k).collect();
    assert_eq!(areas.epochs, epochs);
}

#[test]
fn table_3() {
    for library in library::all() {
        read_table_3(library.as_ref());
    }
}

fn read_table_3(library: &dyn Library) {
    let values = 5 * 35 * 72;
    let lengths = [values, values, values, 3 * 5 * 35, 5, 5];
    let (header, areas) = example(library, "001-table-3.inx", lengths);
    common(&header, &areas);
    assert_eq!(header.dimension, 2);
    let heights = header.heights;
    assert_eq!((heights.first, heights.last, heights.step), (4000, 4000, 0));
    assert!(header.systems.iter().all(|s| !s.stands));
    assert!(areas.tec.iter().all(|&v| v == 1000));
    assert!(areas.rms.iter().all(|&v| v == 1000));
    assert!(areas.height.iter().all(|&v| v == 0));
    assert!(areas.exponents.iter().all(|&k| k == -1));
    assert_eq!(areas.marks, [3; 5]);
}

#[test]
fn table_4() {
    for library in library::all() {
        read_table_4(library.as_ref());
    }
}

fn read_table_4(library: &dyn Library) {
    let values = 5 * 13 * 35 * 72;
    let lengths = [values, values, 0, 3 * 5 * 13 * 35, 5, 5];
    let (header, areas) = example(library, "001-table-4.inx", lengths);
    common(&header, &areas);
    assert_eq!(header.dimension, 3);
    let heights = header.heights;
    assert_eq!(
        (heights.first, heights.last, heights.step),
        (2000, 8000, 500)
    );
    for (k, system) in header.systems.iter().enumerate() {
        let expected = if k == 0 {
            (true, 80, 24)
        } else {
            (false, 0, 0)
        };
        let found = (system.stands, system.stations, system.satellites);
        assert_eq!(found, expected);
    }
    assert!(areas.tec.iter().all(|&v| v == 1000));
    assert!(areas.rms.iter().all(|&v| v == 1000));
    // TEC and RMS: layer 200.0 under -3, the others under -2; no height maps.
    for (k, &exponent) in areas.exponents.iter().enumerate() {
        let kind = k / (5 * 13 * 35);
        let layer = k / 35 % 13;
        let expected = match (kind, layer) {
            (2, _) => -1,
            (_, 0) => -3,
            _ => -2,
        };
        assert_eq!(exponent, expected);
    }
    assert_eq!(areas.marks, [1; 5]);
}
