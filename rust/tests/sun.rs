//! Methods 2 and 3: maps that turn with the Sun, on one row of 73 columns round the Earth whose values were chosen by hand.

use ionex::{Answer, Epoch, Kind, MapSet, Method, MilliTecu, Place};

/// A record: what stands in columns 1 to 60, and its label.
fn record(fields: &str, label: &str) -> String {
    format!("{fields:60}{label}\n")
}

/// Two maps `gap` hours apart. Column j, at 5 j degrees, holds 10 j tenths of a TECU in the first and 500 more in the second;
/// the last column, which is the first again, holds 0 and 500.
fn text(gap: u32) -> String {
    let epoch = |hour| format!("  2010    12     4{hour:6}     0     0");
    let values = |more: u32| {
        let value = |j: u32| format!("{:5}", more + 10 * (j % 72));
        let line = |first: u32| (first..73.min(first + 16)).map(value).collect::<String>() + "\n";
        (0..73).step_by(16).map(line).collect::<String>()
    };
    let map = |number: u32, hour: u32| {
        let number_field = format!("{number:6}");
        record(&number_field, "START OF TEC MAP")
            + &record(&epoch(hour), "EPOCH OF CURRENT MAP")
            + &record("     0.0   0.0 360.0   5.0 450.0", "LAT/LON1/LON2/DLON/H")
            + &values(500 * (number - 1))
            + &record(&number_field, "END OF TEC MAP")
    };
    let header = [
        (
            "     1.1            IONOSPHERE MAPS     GNS",
            "IONEX VERSION / TYPE",
        ),
        (
            "program             agency              date",
            "PGM / RUN BY / DATE",
        ),
        (&epoch(0), "EPOCH OF FIRST MAP"),
        (&epoch(gap), "EPOCH OF LAST MAP"),
        ("     0", "INTERVAL"),
        ("     2", "# OF MAPS IN FILE"),
        ("  NONE", "MAPPING FUNCTION"),
        ("     0.0", "ELEVATION CUTOFF"),
        ("", "OBSERVABLES USED"),
        ("  6371.0", "BASE RADIUS"),
        ("     2", "MAP DIMENSION"),
        ("   450.0 450.0   0.0", "HGT1 / HGT2 / DHGT"),
        ("     0.0   0.0   5.0", "LAT1 / LAT2 / DLAT"),
        ("     0.0 360.0   5.0", "LON1 / LON2 / DLON"),
        ("", "END OF HEADER"),
    ];
    let header: String = header
        .iter()
        .map(|(fields, label)| record(fields, label))
        .collect();
    header + &map(1, 0) + &map(2, gap) + &record("", "END OF FILE")
}

fn ask(gap: u32, method: Method, lon: i32, time: &str) -> Result<Answer, u64> {
    let maps = MapSet::read(text(gap).as_bytes()).expect("an accepted text");
    let time: Epoch = time.parse().expect("a time");
    let answer = maps.ask(Kind::Tec, method, 0, Place::new(0, lon), time);
    answer.map_err(|refusal| refusal.number())
}

fn tecu(thousandths: i32) -> Result<Answer, u64> {
    Ok(Answer::Tecu(MilliTecu(thousandths)))
}

#[test]
fn both_maps_turn() {
    // In an hour the Sun goes 15 degrees: the first map is asked at 35 degrees (70 tenths), the second at 5 (510).
    assert_eq!(
        ask(2, Method::Sun, 2000, "2010-12-04T01:00:00"),
        tecu(29_000)
    );
    // In half an hour 7.5 degrees, the second back by 22.5: 27.5 degrees (55 tenths), and 357.5 (between 1210 and 500).
    assert_eq!(
        ask(2, Method::Sun, 2000, "2010-12-04T00:30:00"),
        tecu(25_500)
    );
    assert_eq!(
        ask(2, Method::Between, 2000, "2010-12-04T00:30:00"),
        tecu(16_500)
    );
}

#[test]
fn the_nearest_map_turns() {
    assert_eq!(
        ask(2, Method::NearestSun, 2000, "2010-12-04T01:00:00"),
        tecu(7000)
    );
    assert_eq!(
        ask(2, Method::Nearest, 2000, "2010-12-04T01:00:00"),
        tecu(4000)
    );
    // A second later the second map is nearer: 20 degrees less 3,599 seconds of the Sun, 5 + 1/240 degrees.
    assert_eq!(
        ask(2, Method::NearestSun, 2000, "2010-12-04T01:00:01"),
        tecu(51_001)
    );
}

#[test]
fn at_a_map_s_own_epoch_nothing_turns() {
    for method in [Method::Between, Method::Sun, Method::NearestSun] {
        assert_eq!(ask(2, method, 2000, "2010-12-04T00:00:00"), tecu(4000));
        assert_eq!(ask(2, method, 2000, "2010-12-04T02:00:00"), tecu(54_000));
    }
}

#[test]
fn what_is_not_served_is_refused() {
    for method in [Method::Sun, Method::NearestSun] {
        assert_eq!(ask(3, method, 2000, "2010-12-04T00:00:00"), Err(24));
        // Before the time is looked at.
        assert_eq!(ask(3, method, 2000, "2010-12-05T00:00:00"), Err(24));
        assert_eq!(ask(2, method, 2000, "2010-12-05T00:00:00"), Err(20));
    }
    assert_eq!(
        ask(3, Method::Between, 2000, "2010-12-04T00:00:00"),
        tecu(4000)
    );
}
