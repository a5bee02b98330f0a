//! The calendar against day counting by another formula.

use compare::archive::Archive;
use compare::boundary::Boundary;
use second::calendar::{date, moved, seconds, END};

/// Days from 1900-01-01, with the year counted from March (a day-of-era formula).
fn days(year: i64, month: i64, day: i64) -> i64 {
    let from_march = if month <= 2 { year - 1 } else { year };
    let era = from_march / 400;
    let of_era = from_march % 400;
    let of_year = (153 * (month + if month > 2 { -3 } else { 9 }) + 2) / 5 + day - 1;
    let count = era * 146_097 + of_era * 365 + of_era / 4 - of_era / 100 + of_year;
    // 1900-01-01 is day 693901 of that count.
    count - 693_901
}

#[test]
fn every_day_of_300_years() {
    let mut next = 0;
    for year in 1900..=2199 {
        for month in 1..=12 {
            for day in 1..=31 {
                match seconds([year, month, day, 1, 2, 3]) {
                    Ok(at) => {
                        assert_eq!(days(year, month, day), next);
                        assert_eq!(at, next as u64 * 86_400 + 3723);
                        assert_eq!(date(at), Some([year, month, day, 1, 2, 3]));
                        next += 1;
                    }
                    Err(field) => {
                        assert_eq!(field, 2);
                        // The day after the month's last is the first of the next.
                        let (y, m) = (year + month / 12, month % 12 + 1);
                        assert!(days(year, month, day) >= days(y, m, 1));
                    }
                }
            }
        }
    }
    assert_eq!(next as u64 * 86_400, END);
}

#[test]
fn moving_is_adding() {
    for epoch in [0, 1, 86_399, 3_022_704_000, END - 1] {
        for by in [-86_400, -1, 0, 1, 86_400, END as i64, -(END as i64)] {
            let result = epoch as i64 + by;
            let good = (0..END as i64).contains(&result);
            assert_eq!(moved(epoch, by).ok(), good.then_some(result as u64));
        }
    }
}

#[test]
fn the_library_moves_from_every_end_of_a_year() {
    for year in 1900..=2199 {
        for end in [[year, 1, 1, 0, 0, 0], [year, 12, 31, 23, 59, 59]] {
            let epoch = seconds(end).unwrap();
            for by in [-366 * 86_400, -86_400, -1, 0, 1, 86_400, 366 * 86_400] {
                let mut result = [u64::MAX];
                let answer = Archive.moved(epoch, by, &mut result);
                match moved(epoch, by) {
                    Ok(expected) => assert_eq!((answer, result), (0, [expected])),
                    Err(_) => assert_eq!((answer, result), (7, [u64::MAX])),
                }
            }
        }
    }
}
