//! Map sets read, asked, taken apart and written, against the texts of tests/examples, whose meaning was worked out by hand.

use ionex::{
    Answer, Areas, Code, Epoch, Kind, MapSet, Method, MilliKm, MilliTecu, Place, Version,
    DESCRIPTIONS, DESCRIPTION_COLUMNS, HEADER, TEXTS,
};

fn text(name: &str) -> Vec<u8> {
    std::fs::read(format!("../tests/examples/{name}")).expect("an example")
}

fn accepted(name: &str) -> MapSet {
    MapSet::read(&text(name)).expect("an accepted text")
}

fn tecu(thousandths: i32) -> Option<Answer> {
    Some(Answer::Tecu(MilliTecu(thousandths)))
}

fn km(thousandths: i32) -> Option<Answer> {
    Some(Answer::Km(MilliKm(thousandths)))
}

#[test]
fn the_header_by_name() {
    let maps = accepted("accepted-2d-freedoms.inx");
    let header = maps.header();
    assert_eq!((header.version, header.code), (Version::V1_1, Code::Mix));
    assert_eq!(
        (header.version.to_string(), header.code.to_string()),
        ("1.1".to_string(), "MIX".to_string())
    );
    assert_eq!(header.first.to_string(), "1999-12-31T23:59:59");
    assert_eq!(header.last.to_string(), "2000-01-01T00:00:00");
    assert_eq!((header.interval, header.maps, header.cutoff), (0, 2, 0));
    assert_eq!((header.radius, header.dimension), (63_710, 2));
    assert_eq!((header.heights.first, header.heights.nodes()), (4500, 1));
    let rows: Vec<_> = (0..3).map(|row| header.latitudes.at(row)).collect();
    assert_eq!(rows, [Some(-100), Some(0), None]);
    assert_eq!((header.longitudes.last, header.longitudes.step), (100, 100));
    assert_eq!((header.stations, header.satellites), (Some(80), None));
    let systems = header
        .systems
        .map(|(letter, counts)| (letter, counts.unwrap_or((7, 7))));
    let none = |letter| (letter, (7, 7));
    assert_eq!(systems[0], ('G', (80, 24)));
    assert_eq!(systems[1..6], ['R', 'E', 'C', 'J', 'I'].map(none));
    assert_eq!(systems[6], ('S', (1, 2)));
}

#[test]
fn texts_end_at_their_last_letter() {
    let maps = accepted("accepted-canonical.inx");
    assert_eq!(
        (maps.program(), maps.run_by(), maps.date()),
        ("program", "agency", "1-jan-00 00:00")
    );
    assert_eq!(
        (maps.mapping(), maps.observables()),
        ("COSZ", "carrier phase")
    );
    // Blanks in front are the file's own.
    assert_eq!(accepted("accepted-2d-freedoms.inx").program(), " p");
}

/// None, one, twenty: in the file's order, blank ones too, without the blanks at their ends.
#[test]
fn descriptions_are_lines() {
    let lines = |name: &str| {
        let maps = accepted(name);
        assert_eq!(maps.descriptions().len(), maps.header().descriptions);
        let lines: Vec<String> = maps.descriptions().map(str::to_string).collect();
        lines
    };
    assert_eq!(lines("accepted-canonical.inx"), [""; 0]);
    assert_eq!(lines("accepted-2d-freedoms.inx"), ["a description"]);
    let twenty = lines("accepted-descriptions.inx");
    assert_eq!(twenty.len(), DESCRIPTIONS);
    assert_eq!(
        twenty[..5],
        [
            "the model of these maps",
            "",
            "  two blanks first",
            "the same line",
            "the same line"
        ]
    );
    assert_eq!(twenty[5], "~".repeat(DESCRIPTION_COLUMNS));
    assert_eq!(twenty[8], format!("{:>60}", "x"));
    assert_eq!(twenty[18..], ["nineteen", ""]);
    // From the end too, and the columns as they stand.
    let maps = accepted("accepted-descriptions.inx");
    assert_eq!(maps.descriptions().rev().nth(1), Some("nineteen"));
    let padded: String = twenty.iter().map(|line| format!("{line:<60}")).collect();
    assert_eq!(maps.as_areas().texts[124..], *padded.as_bytes());
}

/// Number and lines of a set of areas belong together: 31 for asking and writing alike.
#[test]
fn descriptions_that_fit_their_number() {
    let areas = accepted("accepted-descriptions.inx").into_areas();
    let with = |number: i64, place: usize, byte: u8| {
        let mut areas = areas.clone();
        areas.header[44] = number;
        areas.texts[124 + place] = byte;
        let maps = MapSet::from_areas(areas);
        let asked = maps.ask(
            Kind::Tec,
            Method::Between,
            0,
            Place::new(500, 500),
            maps.epochs()[0],
        );
        let told = |refusal: ionex::Refusal| refusal.number();
        let written = maps.write().map_err(told);
        assert_eq!(asked.map(|_| ()).map_err(told), written.clone().map(|_| ()));
        written
    };
    let blank = 19 * DESCRIPTION_COLUMNS;
    let written = with(20, blank, b'!').expect("a valid map set");
    let read = MapSet::read(&written).expect("a text");
    assert_eq!(read.descriptions().last(), Some("!"));
    // The last line is blank: nineteen of them are a set too, eighteen are not, for one is behind them.
    let fewer = with(19, blank, b' ').expect("a valid map set");
    assert_eq!(
        MapSet::read(&fewer).expect("a text").header().descriptions,
        19
    );
    for number in [i64::MIN, -1, 0, 1, 18, 21, i64::MAX] {
        assert_eq!(with(number, blank, b' '), Err(31), "{number}");
    }
    assert_eq!(with(19, blank, b'!'), Err(31));
    for byte in [0, 10, 31, 127, 200] {
        assert_eq!(with(20, 0, byte), Err(31), "{byte}");
        assert_eq!(with(20, blank + 59, byte), Err(31), "{byte}");
    }
}

#[test]
fn values_by_map_row_and_column() {
    let maps = accepted("accepted-2d-freedoms.inx");
    let value = |kind, map, row, column| maps.value(kind, map, 0, row, column);
    assert_eq!(value(Kind::Tec, 0, 0, 0), tecu(10));
    assert_eq!(value(Kind::Tec, 0, 0, 1), tecu(-20));
    assert_eq!(value(Kind::Tec, 0, 1, 0), tecu(0));
    assert_eq!(value(Kind::Tec, 0, 1, 1), None);
    assert_eq!(maps.number(Kind::Tec, 0, 0, 1, 1), Some(9999));
    assert_eq!(value(Kind::Tec, 1, 0, 0), tecu(-999_900));
    assert_eq!(value(Kind::Tec, 1, 0, 1), tecu(9_999_900));
    assert_eq!(value(Kind::Tec, 1, 1, 1), tecu(1200));
    assert_eq!(value(Kind::Height, 0, 0, 1), km(60));
    assert_eq!(value(Kind::Height, 0, 1, 0), km(700));
    assert_eq!(value(Kind::Rms, 1, 1, 0), tecu(2000));
    assert_eq!(maps.exponent(Kind::Height, 0, 0, 1), Some(-1));
    assert_eq!(maps.exponent(Kind::Rms, 1, 0, 0), Some(0));
}

#[test]
fn what_does_not_stand_has_no_value() {
    let maps = accepted("accepted-2d-freedoms.inx");
    let marks =
        [Kind::Tec, Kind::Rms, Kind::Height].map(|kind| [0, 1, 2].map(|map| maps.has(kind, map)));
    assert_eq!(
        marks,
        [
            [true, true, false],
            [false, true, false],
            [true, false, false]
        ]
    );
    assert_eq!(Kind::ALL.map(|kind| maps.standing(kind)), [2, 1, 1]);
    assert_eq!(maps.number(Kind::Rms, 0, 0, 0, 0), None);
    assert_eq!(maps.exponent(Kind::Rms, 0, 0, 0), None);
    for (map, layer, row, column) in [
        (2, 0, 0, 0),
        (0, 1, 0, 0),
        (0, 0, 2, 0),
        (0, 0, 0, 2),
        (0, 0, usize::MAX, 0),
    ] {
        assert_eq!(maps.number(Kind::Tec, map, layer, row, column), None);
        assert_eq!(maps.value(Kind::Tec, map, layer, row, column), None);
    }
}

#[test]
fn layers_are_kept_apart() {
    let maps = accepted("accepted-3d.inx");
    assert_eq!(
        (maps.maps(), maps.layers(), maps.rows(), maps.columns()),
        (1, 2, 1, 17)
    );
    let last = [0, 1].map(|layer| maps.value(Kind::Tec, 0, layer, 0, 16));
    assert_eq!(last, [tecu(17), tecu(-17)]);
    let last = [0, 1].map(|layer| maps.value(Kind::Rms, 0, layer, 0, 16));
    assert_eq!(last, [tecu(99_999), tecu(-9_999_000)]);
    let last = [0, 1].map(|layer| maps.value(Kind::Height, 0, layer, 0, 16));
    assert_eq!(last, [None, km(0)]);
    assert_eq!(maps.header().heights.at(1), Some(99_999));
}

#[test]
fn questions_are_answered_in_their_unit() {
    let maps = accepted("accepted-canonical.inx");
    let epoch = |word: &str| word.parse::<Epoch>().expect("a time");
    let ask = |method, time: &str| {
        maps.ask(Kind::Tec, method, 0, Place::new(500, 500), epoch(time))
            .ok()
    };
    // The mean of 1, 2, 4 and 5 tenths, and of 11, 12, 14 and 15.
    assert_eq!(ask(Method::Between, "2000-01-01T00:00:00"), tecu(300));
    assert_eq!(ask(Method::Between, "2000-01-01T00:30:00"), tecu(550));
    assert_eq!(ask(Method::Between, "2000-01-01T02:00:00"), tecu(1300));
    assert_eq!(ask(Method::Nearest, "2000-01-01T01:00:00"), tecu(300));
    assert_eq!(ask(Method::Nearest, "2000-01-01T01:00:01"), tecu(1300));
    let heights = accepted("accepted-2d-freedoms.inx");
    let time = heights.epochs()[0];
    assert_eq!(
        heights
            .ask(Kind::Height, Method::Nearest, 0, Place::new(0, 0), time)
            .ok(),
        km(700)
    );
}

#[test]
fn refused_questions_have_their_number() {
    let maps = accepted("accepted-canonical.inx");
    let first = maps.epochs()[0];
    let ask = |kind, layer, place, time| {
        maps.ask(kind, Method::Between, layer, place, time)
            .unwrap_err()
            .number()
    };
    let inside = Place::new(500, 500);
    assert_eq!(ask(Kind::Tec, 0, inside, Epoch::from_seconds(0)), 20);
    assert_eq!(ask(Kind::Tec, 0, Place::new(1001, 0), first), 21);
    assert_eq!(ask(Kind::Tec, 1, inside, first), 21);
    assert_eq!(ask(Kind::Rms, 0, inside, first), 22);
}

#[test]
fn canonical_text_is_written_and_read_back() {
    for name in [
        "accepted-2d-freedoms",
        "accepted-3d",
        "accepted-canonical",
        "accepted-4000-values",
        "accepted-descriptions",
    ] {
        let maps = accepted(&format!("{name}.inx"));
        let written = maps.write().expect("a valid map set");
        assert!(written == text(&format!("{name}.expected")), "{name}");
        assert_eq!(MapSet::read(&written).as_ref(), Ok(&maps));
    }
}

#[test]
fn areas_are_as_long_as_they_need_to_be() {
    let areas = accepted("accepted-canonical.inx").into_areas();
    let lengths = [
        areas.tec.len(),
        areas.rms.len(),
        areas.height.len(),
        areas.exponents.len(),
    ];
    assert_eq!(lengths, [12, 12, 0, 12]);
    assert_eq!((areas.epochs.len(), &areas.marks[..]), (2, &[0, 1][..]));
    let large = accepted("001-table-4.inx");
    assert_eq!(large.as_areas().tec.len(), 5 * 13 * 35 * 72);
}

#[test]
fn needs_are_the_lengths_of_what_is_read() {
    for name in [
        "accepted-2d-freedoms",
        "accepted-3d",
        "accepted-canonical",
        "001-table-3",
        "001-table-4",
    ] {
        let text = text(&format!("{name}.inx"));
        let read = MapSet::read(&text).expect("an accepted text").into_areas();
        let values = [&read.tec, &read.rms, &read.height, &read.exponents].map(Vec::len);
        let needs = MapSet::needs(&text).expect("an accepted text");
        assert_eq!(
            (&needs[..4], needs[4..].to_vec()),
            (&values[..], vec![read.epochs.len(), read.marks.len()])
        );
    }
    for number in 1..=10 {
        let damaged = text(&format!("refused-{number:02}.inx"));
        assert_eq!(MapSet::needs(&damaged).err(), MapSet::read(&damaged).err());
    }
}

#[test]
fn a_refused_text_leaves_the_set_in_use() {
    let mut in_use = accepted("accepted-canonical.inx");
    let before = in_use.clone();
    for number in 1..=10 {
        let damaged = text(&format!("refused-{number:02}.inx"));
        assert_eq!(in_use.replace_with(&damaged).unwrap_err().number(), number);
        assert_eq!(in_use, before);
    }
    in_use
        .replace_with(&text("accepted-3d.inx"))
        .expect("an accepted text");
    assert_eq!(in_use, accepted("accepted-3d.inx"));
}

#[test]
fn a_set_of_areas_is_judged_when_it_is_written() {
    let maps = accepted("accepted-canonical.inx");
    let areas = maps.clone().into_areas();
    assert_eq!(MapSet::from_areas(areas.clone()), maps);

    let changed = |change: fn(&mut Areas)| {
        let mut areas = areas.clone();
        change(&mut areas);
        MapSet::from_areas(areas)
            .write()
            .map_err(|refusal| refusal.number())
    };
    assert_eq!(changed(|areas| areas.tec[0] = 100_000), Err(31));
    assert_eq!(changed(|areas| areas.header[2] = 9), Err(31));
    assert_eq!(changed(|areas| areas.epochs.truncate(1)), Err(31));
    assert_eq!(changed(|areas| areas.texts[0] = 200), Err(31));
    let written = changed(|areas| areas.tec[0] = 7).expect("a valid map set");
    assert_eq!(
        MapSet::read(&written)
            .expect("a text")
            .number(Kind::Tec, 0, 0, 0, 0),
        Some(7)
    );
}

#[test]
fn any_numbers_can_be_looked_at() {
    let of = |number| Areas {
        header: [number; HEADER],
        texts: [200; TEXTS],
        tec: vec![1; 3],
        rms: vec![],
        height: vec![],
        exponents: vec![5],
        epochs: vec![u64::MAX],
        marks: vec![255],
    };
    for number in [i64::MIN, -1, 0, 1, 2, 9, 12, i64::MAX] {
        let maps = MapSet::from_areas(of(number));
        assert_eq!(maps.program(), "");
        let lines = number.clamp(0, 20) as usize;
        assert_eq!(maps.descriptions().collect::<Vec<_>>(), vec![""; lines]);
        assert_eq!(maps.header().version, Version::Unknown(number));
        assert_eq!(maps.value(Kind::Tec, 0, 0, 0, 0), None);
        assert_eq!(maps.write().unwrap_err().number(), 31);
        let asked = maps.ask(Kind::Tec, Method::Between, 0, Place::new(0, 0), Epoch::UNIX);
        assert_eq!(asked.unwrap_err().number(), 31);
        assert!(!maps.epochs()[0].to_string().is_empty());
    }
}

#[test]
fn threads_share_a_map_set() {
    let maps = accepted("accepted-canonical.inx");
    let time = maps.epochs()[0];
    std::thread::scope(|scope| {
        for _ in 0..4 {
            scope.spawn(|| {
                let answer = maps.ask(Kind::Tec, Method::Between, 0, Place::new(500, 500), time);
                assert_eq!(answer.ok(), tecu(300));
            });
        }
    });
}
