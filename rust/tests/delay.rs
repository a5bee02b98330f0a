//! Delays in metres, worked out by hand from 4.03e17 by the square of the carrier.

use ionex::{
    Answer, Carrier, Epoch, Kind, MapSet, Method, Metres, MilliTecu, Place, Refusal, Tecu,
};

/// 1 2 3 over 4 5 6 tenths of a TECU at midnight, 10 more each two hours later, where RMS values stand too.
fn maps() -> MapSet {
    let text = std::fs::read("../tests/examples/accepted-canonical.inx").expect("an example");
    MapSet::read(&text).expect("an accepted text")
}

const MIDNIGHT: &str = "2000-01-01T00:00:00";
const TWO: &str = "2000-01-01T02:00:00";

fn number<T>(answer: Result<T, Refusal>) -> u64 {
    answer.map_or_else(|refusal| refusal.number(), |_| 0)
}

#[test]
fn one_tecu() {
    let delay = MilliTecu(1000).delay(Carrier::L1).expect("a delay");
    assert_eq!((delay.carrier, delay.tecu), (Carrier::L1, Tecu(1.0)));
    // 403 / 2481.9481764 = 0.16237244751199..
    assert!((delay.metres.0 - 0.162_372_447_511_99).abs() < 1e-14);
    // At 1 and 2 GHz the square is a power of ten, and four of it.
    let metres = |tecu, hertz| {
        let delay = MilliTecu(tecu).delay(Carrier::from_hertz(hertz));
        delay.expect("a delay").metres
    };
    assert_eq!(metres(1000, 1.0e9), Metres(0.403));
    assert_eq!(metres(-1000, 2.0e9), Metres(-0.100_75));
    assert_eq!(metres(0, 1.0e9).0.to_bits(), 0);
}

#[test]
fn shown() {
    let shown = |tecu, carrier| {
        let delay = MilliTecu(tecu).delay(carrier).expect("a delay");
        delay.to_string()
    };
    let at = Carrier::from_hertz;
    assert_eq!(
        shown(1000, Carrier::L1),
        "0.1624 m (1.000 TECU at 1575420000 Hz)"
    );
    // 4.03 / 1.2276^2 and 4.03 / 1.17645^2
    assert_eq!(
        shown(10_000, Carrier::L2),
        "2.6742 m (10.000 TECU at 1227600000 Hz)"
    );
    assert_eq!(
        shown(10_000, Carrier::L5),
        "2.9118 m (10.000 TECU at 1176450000 Hz)"
    );
    assert_eq!(
        shown(-1, at(2.0e9)),
        "-0.0001 m (-0.001 TECU at 2000000000 Hz)"
    );
    // 123.456 * 0.403 / 2.25; the half hertz does not show.
    assert_eq!(
        shown(123_456, at(1_500_000_000.5)),
        "22.1123 m (123.456 TECU at 1500000000.5 Hz)"
    );
}

/// Both limits are served, their neighbours are not.
#[test]
fn limits_of_the_carrier() {
    let delay = |hertz| number(MilliTecu(1000).delay(Carrier::from_hertz(hertz)));
    let beside = |hertz: f64, by: i64| f64::from_bits(hertz.to_bits().wrapping_add_signed(by));
    for hertz in [1.0e9, beside(1.0e9, 1), beside(2.0e9, -1), 2.0e9] {
        assert_eq!(delay(hertz), 0, "{hertz}");
    }
    let outside = [
        beside(1.0e9, -1),
        beside(2.0e9, 1),
        -1.5e9,
        -0.0,
        f64::INFINITY,
        f64::NEG_INFINITY,
        f64::NAN,
    ];
    for hertz in outside {
        assert_eq!(delay(hertz), 25, "{hertz}");
    }
    let refusal = MilliTecu(1).delay(Carrier::from_hertz(1575.42));
    assert_eq!(
        refusal.unwrap_err().to_string(),
        "refused 25: a carrier outside 1.0e9 to 2.0e9 hertz"
    );
}

/// The delay of a question is that of its answer.
#[test]
fn of_a_question() {
    let maps = maps();
    for (kind, lat, lon) in [
        (Kind::Tec, 0, 0),
        (Kind::Tec, 333, 1777),
        (Kind::Rms, 0, 1000),
    ] {
        let (place, time) = (Place::new(lat, lon), TWO.parse().expect("a time"));
        let answer = maps.ask(kind, Method::Between, 0, place, time);
        let Ok(Answer::Tecu(tecu)) = answer else {
            panic!("{answer:?}");
        };
        let delay = maps.delay(kind, Method::Between, 0, place, time, Carrier::L2);
        assert_eq!(delay, tecu.delay(Carrier::L2));
        assert!(delay.expect("a delay").metres.0 > 0.0);
    }
}

/// 23, 24, 20, 21 and 22 as asking tells them, and 25 last; a height is 23.
#[test]
fn refused_in_order() {
    let maps = maps();
    let delay = |kind, method, lat, time: &str, carrier| {
        let time: Epoch = time.parse().expect("a time");
        number(maps.delay(kind, method, 0, Place::new(lat, 0), time, carrier))
    };
    let (bad, later) = (Carrier::from_hertz(1.0), "2001-01-01T00:00:00");
    assert_eq!(delay(Kind::Height, Method::Sun, -1, later, bad), 23);
    assert_eq!(
        delay(Kind::Height, Method::Between, 0, TWO, Carrier::L1),
        23
    );
    assert_eq!(delay(Kind::Tec, Method::Sun, -1, later, bad), 24);
    assert_eq!(delay(Kind::Tec, Method::Between, -1, later, bad), 20);
    assert_eq!(delay(Kind::Rms, Method::Between, -1, MIDNIGHT, bad), 21);
    assert_eq!(delay(Kind::Rms, Method::Between, 0, MIDNIGHT, bad), 22);
    assert_eq!(delay(Kind::Tec, Method::Between, 0, MIDNIGHT, bad), 25);
    assert_eq!(
        delay(Kind::Tec, Method::Between, 0, MIDNIGHT, Carrier::L1),
        0
    );
    let mut areas = maps.clone().into_areas();
    areas.epochs[1] = 0;
    let broken = MapSet::from_areas(areas);
    let (place, time) = (Place::new(0, 0), MIDNIGHT.parse().expect("a time"));
    let asked = broken.delay(Kind::Tec, Method::Between, 0, place, time, bad);
    assert_eq!(number(asked), 31);
}

#[test]
fn carriers_in_words() {
    for (name, hertz) in [
        ("L1", 1_575_420_000.0),
        ("L2", 1_227_600_000.0),
        ("L5", 1_176_450_000.0),
        ("1500000000", 1.5e9),
        ("1.5e9", 1.5e9),
        ("1575.42", 1575.42),
        ("-1", -1.0),
    ] {
        let carrier: Carrier = name.parse().expect("a carrier");
        assert_eq!(carrier.hertz(), hertz, "{name}");
    }
    for word in [
        "",
        "L",
        "L3",
        "l1",
        "nan",
        "inf",
        "-infinity",
        "1e400",
        "1.5 GHz",
        " L1",
    ] {
        let fault = word.parse::<Carrier>().unwrap_err();
        assert_eq!(
            fault.expected(),
            "L1, L2, L5 or hertz, as 1575420000",
            "{word}"
        );
    }
}
