//! Places and times as people write them.

use ionex::{Date, Epoch, Place};

#[test]
fn places_are_never_rounded() {
    for (word, lat, lon) in [
        ("47.25,8.50", 4725, 850),
        ("47,8", 4700, 800),
        ("-0.5,-0.05", -50, -5),
        ("+90.00, 360", 9000, 36_000),
        (" 1.2 , 3.4 ", 120, 340),
        ("21474836.47,-21474836.48", i32::MAX, i32::MIN),
    ] {
        assert_eq!(word.parse(), Ok(Place::new(lat, lon)), "{word}");
    }
    for word in [
        "",
        ",",
        "47.25",
        "47.25 8.50",
        "47.255,8",
        "47.250,8",
        "47.,8",
        ".5,8",
        "4 7,8",
        "47,8,9",
        "--1,8",
        "+-1,8",
        "1e1,8",
        "٤,8",
        "21474836.48,0",
        "99999999999999999999,0",
        "92233720368547758,0",
        "nan,0",
        "47;8",
    ] {
        assert!(Place::parse(word).is_err(), "{word}");
    }
    assert_eq!(Place::new(-5, 17_950).to_string(), "-0.05,179.50");
}

#[test]
fn what_was_expected_is_told() {
    let told = Place::parse("47.255,8").unwrap_err().to_string();
    assert_eq!(
        told,
        "\"47.255\": expected degrees with at most two decimals, as 47.25 or -8.5"
    );
    let told = "yesterday".parse::<Epoch>().unwrap_err().to_string();
    assert_eq!(
        told,
        "\"yesterday\": expected a date of 1900 to 2199 and a time, as 2010-12-04T06:30:00"
    );
}

#[test]
fn times_have_one_meaning() {
    // The scope paper's figure.
    assert_eq!(
        "1995-10-15T00:00:00".parse(),
        Ok(Epoch::from_seconds(3_022_704_000))
    );
    for word in [
        "2000-02-29T23:59:59",
        "2000-02-29 23:59:59",
        "2000-02-29T23:59:59Z",
    ] {
        assert_eq!(
            word.parse::<Epoch>().expect("a time").to_string(),
            "2000-02-29T23:59:59"
        );
    }
    assert_eq!(
        "2000-02-29T23:59".parse::<Epoch>(),
        "2000-02-29T23:59:00".parse()
    );
    for word in [
        "",
        "2010-12-04",
        "2010-12-4",
        "2010-12-04Z",
        "2010-12-04T",
        "2010-12-4T06:30:00",
        "2010-12-04T6:30:00",
        "2010-12-04T06:30:60",
        "2010-12-04T24:00:00",
        "2010-12-04T06:60:00",
        "2010-13-04T06:30:00",
        "2010-00-04T06:30:00",
        "2010-12-00T06:30:00",
        "2010-12-32T06:30:00",
        "2010-04-31T06:30:00",
        "1900-02-29T00:00:00",
        "2100-02-29T00:00:00",
        "1899-12-31T23:59:59",
        "2200-01-01T00:00:00",
        "2010-12-04T06:30:00.5",
        "2010-12-04T06:30:00+01",
        "2010-12-04  06:30:00",
        "+010-12-04T06:30:00",
        "2010-12-04T06:30:00ZZ",
    ] {
        assert!(word.parse::<Epoch>().is_err(), "{word}");
    }
}

#[test]
fn unix_and_gps_time() {
    assert_eq!(Epoch::UNIX.to_string(), "1970-01-01T00:00:00");
    assert_eq!(Epoch::GPS.to_string(), "1980-01-06T00:00:00");
    assert_eq!(Epoch::from_unix(0), Ok(Epoch::UNIX));
    assert_eq!(
        Epoch::from_unix(1_291_444_200).expect("a time").to_string(),
        "2010-12-04T06:30:00"
    );
    assert_eq!(
        Epoch::from_unix(-2_208_988_800).expect("a time").unix(),
        -2_208_988_800
    );
    assert_eq!(Epoch::from_unix(-2_208_988_801).unwrap_err().number(), 7);
    assert_eq!(Epoch::from_unix(i64::MAX).unwrap_err().number(), 7);
    assert_eq!(Epoch::from_gps(0, 0), Ok(Epoch::GPS));
    // 15 leap seconds had come between 1980 and 2010.
    let gps = 1_291_444_200 - 315_964_800 + 15;
    assert_eq!(Epoch::from_gps(gps, 15), Epoch::from_unix(1_291_444_200));
    assert_eq!(Epoch::from_gps(i64::MIN, 1).unwrap_err().number(), 7);
}

#[test]
fn epochs_move_within_their_years() {
    let last: Epoch = "2199-12-31T23:59:59".parse().expect("a time");
    assert_eq!(last.moved(0), Ok(last));
    let refusal = last.moved(1).unwrap_err();
    assert_eq!(
        (refusal.number(), refusal.line(), refusal.column()),
        (7, None, None)
    );
    assert_eq!(
        refusal.to_string(),
        "refused 7: a value outside what is accepted"
    );
    assert_eq!(Epoch::from_seconds(0).moved(-1).unwrap_err().number(), 7);
    assert_eq!(
        last.moved(-(last.seconds() as i64)),
        Ok(Epoch::from_seconds(0))
    );
}

/// Every day of 1900 to 2199, walked by a table of month lengths.
#[test]
fn every_day_has_its_date() {
    let mut days = 0;
    for year in 1900..=2199 {
        let leap = year == 2000 || year % 4 == 0 && year % 100 != 0;
        let lengths = [
            31,
            if leap { 29 } else { 28 },
            31,
            30,
            31,
            30,
            31,
            31,
            30,
            31,
            30,
            31,
        ];
        for (month, length) in (1..).zip(lengths) {
            for day in 1..=length {
                let epoch = Epoch::from_seconds(days * 86_400 + 45_296);
                let date = Date {
                    year,
                    month,
                    day,
                    hour: 12,
                    minute: 34,
                    second: 56,
                };
                assert_eq!((epoch.date(), Epoch::from_date(date)), (date, Some(epoch)));
                assert_eq!(epoch.to_string().parse(), Ok(epoch));
                days += 1;
            }
        }
    }
    let behind = Epoch::from_seconds(days * 86_400);
    assert_eq!(behind.to_string(), "2200-01-01T00:00:00");
    assert_eq!(Epoch::from_date(behind.date()), None);
}
