//! Where answers came from: by hand, printed, and against the answers themselves.

use ionex::{Cause, Epoch, Kind, MapSet, Method, Place};

const METHODS: [Method; 4] = [
    Method::Nearest,
    Method::Between,
    Method::Sun,
    Method::NearestSun,
];

fn maps() -> MapSet {
    let text = std::fs::read("../tests/examples/accepted-canonical.inx").expect("an example");
    MapSet::read(&text).expect("accepted")
}

fn time(word: &str) -> Epoch {
    word.parse().expect("a time")
}

/// Rows 10.0 and 0.0, columns 0.0, 10.0 and 20.0: 1 2 3 over 4 5 6 at midnight, and 10 more each two hours later, all in
/// tenths of a TECU.
#[test]
fn printed_as_a_table() {
    let half_past = time("2000-01-01T00:30:00");
    let why = maps().explain(
        Kind::Tec,
        Method::Between,
        0,
        Place::new(1000, 250),
        half_past,
    );
    let expected = "  map  epoch                   lat     lon  layer   row  column             value          weight      share
    1  2000-01-01 00:00:00    10.0     0.0      0     0       0        0.100 TECU      4050000000   56.250 %
    1  2000-01-01 00:00:00    10.0    10.0      0     0       1        0.200 TECU      1350000000   18.750 %
    2  2000-01-01 02:00:00    10.0     0.0      0     0       0        1.100 TECU      1350000000   18.750 %
    2  2000-01-01 02:00:00    10.0    10.0      0     0       1        1.200 TECU       450000000    6.250 %
sum of value times weight: 2700000000000/7200000000 thousandths = 0.375000 TECU
rounded once: 0.375 TECU";
    assert_eq!(why.expect("an answer").to_string(), expected);
}

#[test]
fn one_node_is_the_whole() {
    let why = maps()
        .explain(
            Kind::Rms,
            Method::Nearest,
            0,
            Place::new(0, 1000),
            time("2000-01-01T02:00:00"),
        )
        .expect("an answer");
    let [only] = why.nodes[..] else {
        panic!("{why}");
    };
    assert_eq!((only.weight, why.denominator), (1_000_000, 1_000_000));
    assert_eq!(
        (
            only.node.map,
            only.node.layer,
            only.node.row,
            only.node.column
        ),
        (2, 0, 1, 1)
    );
    assert_eq!((only.node.lat, only.node.lon), (0, 100));
    assert_eq!(only.node.epoch, time("2000-01-01T02:00:00"));
    assert_eq!(
        (only.value.to_string(), only.value),
        ("2.500 TECU".to_string(), why.answer)
    );
    assert!(why.to_string().contains("100.000 %"));
}

/// Each cause, and of two the first; the first node of several.
#[test]
fn nodes_without_a_value() {
    let (place, two) = (Place::new(500, 1500), time("2000-01-01T02:00:00"));
    let lacking = |maps: &MapSet, kind, time| {
        let refusal = maps
            .explain(kind, Method::Between, 0, place, time)
            .unwrap_err();
        let asked = maps.ask(kind, Method::Between, 0, place, time).unwrap_err();
        assert_eq!((refusal.number(), asked.number()), (22, 22));
        assert_eq!(asked.lacking(), None);
        (refusal.lacking().expect("a node"), refusal.to_string())
    };
    let (found, words) = lacking(&maps(), Kind::Rms, two);
    assert_eq!(
        (found.node.row, found.node.column, found.cause),
        (1, 2, Cause::NoValue)
    );
    let expected = "refused 22: a node that the answer needs has no value, map 2 (2000-01-01 02:00:00), layer 0, row 1 \
                    (latitude 0.0), column 2 (longitude 20.0): its number is 9999";
    assert_eq!(words, expected);
    let (found, words) = lacking(&maps(), Kind::Rms, time("2000-01-01T01:59:59"));
    assert_eq!(
        (found.node.map, found.node.row, found.node.column),
        (1, 0, 1)
    );
    assert!(
        words.ends_with("column 1 (longitude 10.0): there is no RMS map at that epoch"),
        "{words}"
    );
    let (_, words) = lacking(&maps(), Kind::Height, two);
    assert!(
        words.ends_with(": there is no height map at that epoch"),
        "{words}"
    );
    let mut areas = maps().into_areas();
    areas.tec[6 + 1] = 100_000;
    let (found, words) = lacking(&MapSet::from_areas(areas.clone()), Kind::Tec, two);
    assert_eq!((found.node.map, found.node.column), (2, 1));
    assert!(
        words.ends_with(": its number is not within -9999 to 99999"),
        "{words}"
    );
    areas.exponents[2] = 1;
    let (found, words) = lacking(&MapSet::from_areas(areas), Kind::Tec, two);
    assert_eq!(found.cause, Cause::ExponentOutOfRange);
    assert!(
        words.ends_with(": the row's exponent is not within -3 to 0"),
        "{words}"
    );
}

#[test]
fn other_refusals_name_no_node() {
    let maps = maps();
    let refused = |method, layer, place, time| {
        let explained = maps
            .explain(Kind::Tec, method, layer, place, time)
            .unwrap_err();
        let asked = maps.ask(Kind::Tec, method, layer, place, time).unwrap_err();
        assert_eq!((explained, explained.lacking()), (asked, None));
        explained.number()
    };
    let (inside, midnight) = (Place::new(0, 0), time("2000-01-01T00:00:00"));
    assert_eq!(refused(Method::Sun, 0, inside, midnight), 24);
    assert_eq!(
        refused(Method::Between, 0, inside, time("2000-01-02T00:00:00")),
        20
    );
    assert_eq!(refused(Method::Between, 1, inside, midnight), 21);
    assert_eq!(
        refused(Method::Between, 0, Place::new(0, 2001), midnight),
        21
    );
}

/// Over places on and off the lines of an example: the weights add up, and the sum is the answer.
#[test]
fn the_sum_is_the_answer() {
    let mut tried = 0;
    for name in ["accepted-canonical", "accepted-3d", "001-table-3"] {
        let text = std::fs::read(format!("../tests/examples/{name}.inx")).expect("an example");
        let maps = MapSet::read(&text).expect("accepted");
        let (first, last) = (maps.header().first.seconds(), maps.header().last.seconds());
        for k in 0..2000_i32 {
            let method = METHODS[k as usize % 4];
            let place = Place::new((k * 97) % 18_000 - 9_000, (k * 1_931) % 72_000 - 36_000);
            let time =
                Epoch::from_seconds(first + u64::from(k as u32) * 7_919 % (last - first + 1));
            let asked = maps.ask(Kind::Tec, method, 0, place, time);
            let why = match maps.explain(Kind::Tec, method, 0, place, time) {
                Ok(why) => why,
                Err(refusal) => {
                    assert_eq!(asked.unwrap_err().number(), refusal.number());
                    continue;
                }
            };
            tried += 1;
            assert_eq!(asked, Ok(why.answer));
            let weights: u64 = why.nodes.iter().map(|node| node.weight).sum();
            assert_eq!(weights, why.denominator);
            let off = 2
                * (i128::from(why.answer.thousandths()) * i128::from(why.denominator) - why.sum())
                    .abs();
            assert!(off <= i128::from(why.denominator));
            for found in &why.nodes {
                let node = found.node;
                let value = maps.value(Kind::Tec, node.map - 1, node.layer, node.row, node.column);
                assert_eq!(value, Some(found.value));
            }
        }
    }
    assert!(tried > 500, "{tried}");
}
