//! Biases of a text's header, in both versions: by hand, in every place a block may have, and refused ones.

use ionex::{Biases, Code, MapSet, MilliNs, Satellite, Station, System, Version};

const TITLE: &str = "DIFFERENTIAL CODE BIASES";

fn example(name: &str) -> Vec<u8> {
    std::fs::read(format!("../tests/examples/{name}")).expect("an example")
}

fn record(body: &str, label: &str) -> String {
    format!("{body:<60}{label}")
}

fn satellite(body: &str) -> String {
    record(body, "PRN / BIAS / RMS")
}

fn station(body: &str) -> String {
    record(body, "STATION / BIAS / RMS")
}

/// Lines in an aux block of this title.
fn block(title: &str, lines: &[String]) -> Vec<String> {
    let mut all = vec![record(title, "START OF AUX DATA")];
    all.extend(lines.iter().cloned());
    all.push(record(title, "END OF AUX DATA"));
    all
}

/// The canonical example, of version 1.1, with lines behind its first.
fn with(lines: &[String]) -> Vec<u8> {
    let text = String::from_utf8(example("accepted-canonical.inx")).expect("ASCII");
    let (first, rest) = text.split_once('\n').expect("lines");
    format!("{first}\n{}\n{rest}", lines.join("\n")).into_bytes()
}

fn with_block(lines: &[String]) -> Vec<u8> {
    with(&block(TITLE, lines))
}

/// Number, line and column of a refusal; the block's records stand from line 3 on. The maps are read all the same.
fn refused(text: &[u8]) -> (u64, Option<u64>, Option<u64>) {
    assert!(MapSet::read(text).is_ok());
    let refusal = Biases::read(text).expect_err("a refused text");
    (refusal.number(), refusal.line(), refusal.column())
}

fn of_station(system: System, name: &str, bias: i32, rms: i32) -> Station {
    Station {
        system,
        name: name.to_string(),
        bias: MilliNs(bias),
        rms: MilliNs(rms),
    }
}

#[test]
fn biases_by_hand() {
    let biases = Biases::read(&example("accepted-version-1.inx")).expect("accepted");
    let satellites = [
        Satellite {
            system: System::Gps,
            number: 1,
            bias: MilliNs(-1_234),
            rms: MilliNs(5),
        },
        Satellite {
            system: System::Glonass,
            number: 2,
            bias: MilliNs(500),
            rms: MilliNs(10),
        },
    ];
    assert_eq!(biases.satellites, satellites);
    let stations = [
        of_station(System::Gps, "BRUS 13101M004", 12_345, 100),
        of_station(System::Glonass, "BRUS 13101M004", -12_345, 100),
    ];
    assert_eq!(biases.stations, stations);
    assert_eq!(biases.satellites[1].to_string(), "R02");
    assert_eq!(biases.stations[1].bias.to_string(), "-12.345 ns");
    assert_eq!(MilliNs(-5).to_string(), "-0.005 ns");
}

#[test]
fn texts_without_biases() {
    for name in [
        "accepted-canonical.inx",
        "accepted-3d.inx",
        "001-table-3.inx",
    ] {
        assert_eq!(Biases::read(&example(name)), Ok(Biases::default()));
    }
    // Other titles, and a title that does not stand at column 1.
    let line = satellite("   E00");
    for title in [
        "",
        " DIFFERENTIAL CODE BIASES",
        "DIFFERENTIAL CODE BIASES 2",
    ] {
        let text = with(&block(title, std::slice::from_ref(&line)));
        assert_eq!(Biases::read(&text), Ok(Biases::default()), "{title:?}");
    }
    // Inside a block an unknown label is skipped, START OF AUX DATA too.
    let lines = [record("", "UNKNOWN"), record(TITLE, "START OF AUX DATA")];
    assert_eq!(Biases::read(&with_block(&lines)), Ok(Biases::default()));
}

/// The ends of every field, a negative RMS and a blank name; over two blocks with another between.
#[test]
fn fields_at_their_ends() {
    let mut lines = block(
        TITLE,
        &[
            satellite("   G99999999.999-99999.999"),
            station("   R  12345678901234567890      .000     -.001"),
            satellite("     1    -0.000      .500"),
        ],
    );
    lines.extend(block("OTHER", &[satellite("   G99")]));
    lines.extend(block(
        TITLE,
        &[station("                               1.000     0.000")],
    ));
    let biases = Biases::read(&with(&lines)).expect("accepted");
    let numbers: Vec<(String, i32, i32)> = biases
        .satellites
        .iter()
        .map(|satellite| (satellite.to_string(), satellite.bias.0, satellite.rms.0))
        .collect();
    let expected = [("G99", 999_999_999, -99_999_999), ("G01", 0, 500)];
    assert_eq!(
        numbers,
        expected.map(|(name, bias, rms)| (name.to_string(), bias, rms))
    );
    let stations = [
        of_station(System::Glonass, "12345678901234567890", 0, -1),
        of_station(System::Gps, "", 1_000, 0),
    ];
    assert_eq!(biases.stations, stations);
}

#[test]
fn faults_of_a_block() {
    let good = "   G07     0.100     0.200";
    let heard = "   G  BRUS 13101M004           0.100     0.200";
    let cases = [
        // 6: a field's first column, or an X column's own.
        (vec![satellite("   G07     0.10      0.200")], (6, 3, 7)),
        (vec![satellite("   G07     0.100")], (6, 3, 17)),
        (vec![satellite("   G 7     0.100     0.200  1")], (6, 3, 29)),
        (vec![satellite(" x Ea7     0.100     0.200")], (6, 3, 2)),
        (vec![satellite("   Ea7     0.100     0.200")], (6, 3, 5)),
        (
            vec![station("   G xBRUS 13101M004           0.100     0.200")],
            (6, 3, 6),
        ),
        (
            vec![station("   G  BRUS 13101M004             0.1     0.200")],
            (6, 3, 27),
        ),
        // 7: the letter before the number.
        (vec![satellite("   E00     0.100     0.200")], (7, 3, 4)),
        (vec![satellite("   g07     0.100     0.200")], (7, 3, 4)),
        (vec![satellite("   G00     0.100     0.200")], (7, 3, 5)),
        (vec![satellite("   R-1     0.100     0.200")], (7, 3, 5)),
        (
            vec![station("   S  BRUS 13101M004           0.100     0.200")],
            (7, 3, 4),
        ),
        // 5: blank and G are one system, whatever the values.
        (
            vec![satellite(good), satellite("     7     0.000     0.000")],
            (5, 4, 61),
        ),
        (
            vec![
                station(heard),
                satellite(good),
                station(&heard.replacen('G', " ", 1)),
            ],
            (5, 5, 61),
        ),
        // Lowest line first.
        (
            vec![
                satellite(good),
                satellite("   E07     0.000     0.000"),
                satellite("x"),
            ],
            (7, 4, 4),
        ),
    ];
    for (lines, (number, line, column)) in cases {
        let text = with_block(&lines);
        let expected = (number, Some(line), Some(column));
        assert_eq!(refused(&text), expected, "{lines:?}");
    }
    // Given twice counts over all blocks of the text.
    let mut lines = block(TITLE, &[station(heard)]);
    lines.extend(block(TITLE, &[satellite(good), station(heard)]));
    assert_eq!(refused(&with(&lines)), (5, Some(7), Some(61)));
    let refusal = Biases::read(&with(&lines)).unwrap_err();
    let words = "refused 5: a record where it may not stand, or once too often, line 7, column 61";
    assert_eq!(refusal.to_string(), words);
}

/// The same number or name in the other system, and names that differ in the last column, are others.
#[test]
fn not_given_twice() {
    let lines = [
        satellite("   G07     0.100     0.200"),
        satellite("   R07     0.100     0.200"),
        station("   G  1234567890123456789a     0.100     0.200"),
        station("   G  1234567890123456789b     0.100     0.200"),
        station("   R  1234567890123456789a     0.100     0.200"),
    ];
    let biases = Biases::read(&with_block(&lines)).expect("accepted");
    assert_eq!((biases.satellites.len(), biases.stations.len()), (2, 3));
}

#[test]
fn every_satellite_and_many_stations() {
    let satellites =
        ['G', 'R'].map(|letter| (1..=99).map(move |number| format!("{letter}{number:02}")));
    let names: Vec<String> = satellites.into_iter().flatten().collect();
    let mut lines: Vec<String> = names
        .iter()
        .map(|name| satellite(&format!("   {name}     1.000     2.000")))
        .collect();
    let station_name = |k: usize| format!("S{k:03} 10001M001");
    lines.extend((0..500).map(|k| {
        let name = station_name(k);
        station(&format!(
            "   G  {name:<20}{:>10}     0.010",
            format!("{k}.{k:03}")
        ))
    }));
    let biases = Biases::read(&with_block(&lines)).expect("accepted");
    let found: Vec<String> = biases.satellites.iter().map(Satellite::to_string).collect();
    assert_eq!(found, names);
    assert_eq!(biases.stations.len(), 500);
    for (k, found) in biases.stations.iter().enumerate() {
        let bias = 1001 * k as i32;
        assert_eq!(found, &of_station(System::Gps, &station_name(k), bias, 10));
    }
}

/// What the map reading refuses comes first, whatever the block says.
#[test]
fn texts_are_refused_as_by_reading() {
    for number in 1..=10 {
        let text = example(&format!("refused-{number:02}.inx"));
        let refusal = Biases::read(&text).expect_err("a refused text");
        assert_eq!(Err(refusal), MapSet::read(&text).map(|_| ()));
        assert_eq!(refusal.number(), number);
    }
    let text = with_block(&[satellite("   E00")]);
    let cut = &text[..text.len() - 1 - "END OF FILE".len()];
    assert_eq!(Biases::read(cut).unwrap_err().number(), 10);
}

#[test]
fn both_versions() {
    let text = String::from_utf8(example("accepted-version-1.inx")).expect("ASCII");
    for code in [
        "GPS", "GLO", "GNS", "MIX", "BEN", "ENV", "ERS", "GEO", "IRI", "NNS", "TOP",
    ] {
        let coded = text.replacen("GPS", code, 1);
        let maps = MapSet::read(coded.as_bytes()).expect("accepted");
        assert_eq!(maps.header().version, Version::V1_0);
        assert_eq!(maps.header().code.to_string(), code);
        let written = String::from_utf8(maps.write().expect("a map set")).expect("ASCII");
        let first = format!("     1.0            IONOSPHERE MAPS     {code}                 IONEX");
        assert!(written.starts_with(&first), "{written}");
        assert!(!written.contains(TITLE));
        assert_eq!(MapSet::read(written.as_bytes()), Ok(maps));

        let newer = coded.replacen("1.0", "1.1", 1);
        let refusal = MapSet::read(newer.as_bytes()).map(|maps| maps.header().version);
        match code {
            "GPS" | "GLO" => {
                let refusal = refusal.unwrap_err();
                let place = (refusal.number(), refusal.line(), refusal.column());
                assert_eq!(place, (3, Some(1), Some(41)));
            }
            _ => assert_eq!(refusal, Ok(Version::V1_1)),
        }
    }
}

#[test]
fn a_set_of_another_version() {
    let mut maps = MapSet::read(&example("accepted-version-1.inx")).expect("accepted");
    let (version, code) = (maps.header().version, maps.header().code);
    assert_eq!((version, code), (Version::V1_0, Code::Gps));
    for (version, code, valid) in [
        (Version::V1_1, Code::Glo, false),
        (Version::V1_1, Code::Mix, true),
        (Version::V1_0, Code::Glo, true),
        (Version::Unknown(12), Code::Mix, false),
        (Version::V1_0, Code::Unknown(11), false),
    ] {
        maps.set_version(version, code);
        assert_eq!((maps.header().version, maps.header().code), (version, code));
        match maps.write() {
            Ok(text) => assert_eq!(MapSet::read(&text).as_ref(), Ok(&maps)),
            Err(refusal) => assert_eq!(refusal.number(), 31),
        }
        assert_eq!(maps.write().is_ok(), valid, "{version} {code}");
    }
}
