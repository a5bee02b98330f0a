//! Times as people write them. All are in universal time (UT), as the epochs of IONEX are.

use ionex::{Date, Epoch, ParseError};

/// A time in one of the forms of `FORMS`; or what is wrong with it.
pub fn parse(word: &str) -> Result<Epoch, String> {
    let found = match word.strip_prefix('@') {
        Some(seconds) => whole(seconds).and_then(|seconds| Epoch::from_unix(seconds).ok()),
        None => of_gps(word).or_else(|| of_day_of_year(word)),
    };
    match found {
        Some(epoch) => Ok(epoch),
        None => of_date(word).map_err(|fault| {
            let digits = word.bytes().all(|byte| byte.is_ascii_digit()) && word.len() > 4;
            let hint = if digits {
                format!("; Unix time is written @{word}")
            } else {
                String::new()
            };
            format!("{word:?}: expected {}{hint}", fault.expected())
        }),
    }
}

/// What the help of a command says of --time.
#[macro_export]
macro_rules! time_help {
    () => {
        "  --time T      universal time (UT): 2010-12-04T06:30:00 or `2010-12-04 06:30:00`, without the seconds, or with a Z behind
                them; 2010-12-04 for its first second; 2010-338 or 2010-338T06:30 by the day of the year, or as SINEX
                has it 2010:338:23400; @1291444200 by a Unix clock; gps:1612:541815 by a GPS clock's week and second
"
    };
}

/// What the help of a command says of --at.
#[macro_export]
macro_rules! at_help {
    () => {
        "  --at LAT,LON  degrees north and east with at most two decimals, as 47.25,-8.50; more are an error
  --round       with --at or from standard input: more decimals are rounded to hundredths, halves away from zero, and
                the place that was asked for is told behind the answer
"
    };
}

/// `2010-12-04 06:30:00`
pub fn words(epoch: Epoch) -> String {
    epoch.to_string().replace('T', " ")
}

/// A date with a time of day, or a date alone, whose first second is meant.
fn of_date(word: &str) -> Result<Epoch, ParseError> {
    match word.len() {
        10 => format!("{word}T00:00:00").parse(),
        _ => word.parse(),
    }
}

fn whole(word: &str) -> Option<i64> {
    let digits = word.strip_prefix('-').unwrap_or(word);
    let right = !digits.is_empty() && digits.bytes().all(|byte| byte.is_ascii_digit());
    right.then(|| word.parse().ok())?
}

/// The first days that had one leap second more, each by its year and whether it is that of July. A day behind the last has 18.
const LEAPS: [(u64, bool); 18] = [
    (1981, true),
    (1982, true),
    (1983, true),
    (1985, true),
    (1988, false),
    (1990, false),
    (1991, false),
    (1992, true),
    (1993, true),
    (1994, true),
    (1996, false),
    (1997, true),
    (1999, false),
    (2006, false),
    (2009, false),
    (2012, true),
    (2015, true),
    (2017, false),
];

/// `gps:WEEK:SECOND` of a GPS clock, which runs ahead of UT by the leap seconds since 1980. A leap second itself is the first of
/// the day behind it.
fn of_gps(word: &str) -> Option<Epoch> {
    let (gps, clock) = word.split_at_checked(4)?;
    let (week, second) = clock.split_once(':')?;
    let (week, second) = (whole(week)?, whole(second)?);
    let right = gps.eq_ignore_ascii_case("gps:")
        && (0..=100_000).contains(&week)
        && (0..604_800).contains(&second);
    let seconds = 604_800 * week + second;
    let leaps = |count: i64| {
        let epoch = Epoch::from_gps(seconds, count).ok()?;
        (leap_seconds(epoch) >= count).then_some(epoch)
    };
    right.then(|| (0..=18).rev().find_map(leaps))?
}

/// How many leap seconds have come between 1980 and a time.
fn leap_seconds(epoch: Epoch) -> i64 {
    let Date { year, month, .. } = epoch.date();
    let come = LEAPS.iter().filter(|leap| **leap <= (year, month >= 7));
    come.count() as i64
}

/// `2010-338`, with a time of day behind it, or `2010:338:23400`.
fn of_day_of_year(word: &str) -> Option<Epoch> {
    let (year, day, second) = match word.split(':').collect::<Vec<_>>()[..] {
        [year, day, second] if year.len() == 4 && day.len() == 3 => (
            year,
            day,
            whole(second).filter(|second| (0..86_400).contains(second))?,
        ),
        _ => {
            let (date, time) = word.split_once(['T', ' ']).unwrap_or((word, "00:00"));
            let (year, day) = date.split_once('-').filter(|(_, day)| day.len() == 3)?;
            (year, day, of_day(time)?)
        }
    };
    let first: Epoch = format!("{year}-01-01T00:00").parse().ok()?;
    let found = first.moved(86_400 * (whole(day)? - 1) + second).ok()?;
    (found >= first && found.date().year == first.date().year).then_some(found)
}

/// The seconds of a time of day, which is read as that of any date.
fn of_day(time: &str) -> Option<i64> {
    let epoch: Epoch = format!("1970-01-01T{time}").parse().ok()?;
    Some(epoch.unix())
}

#[cfg(test)]
mod tests {
    use super::*;

    #[test]
    fn three_forms() {
        let noon = parse("2010-12-04T12:00:00").unwrap();
        assert_eq!(parse("2010-12-04 12:00:00").unwrap(), noon);
        assert_eq!(words(noon), "2010-12-04 12:00:00");
        assert_eq!(
            parse("2010-12-04").unwrap().seconds(),
            noon.seconds() - 43_200
        );
        for word in ["", "2010-13-04", "2010-12-4", "2010-12-04T12", "noon"] {
            assert!(parse(word).is_err(), "{word}");
        }
    }

    #[test]
    fn one_time_in_every_form() {
        let morning = parse("2010-12-04T06:30:00").unwrap();
        assert_eq!(words(morning), "2010-12-04 06:30:00");
        // 4 December is day 338: 334 days of eleven months, and four. It was the last day of GPS week 1612, six days and
        // 6 h 30 min after its first second, and 15 leap seconds had come.
        for word in [
            "2010-12-04 06:30:00",
            "2010-12-04T06:30",
            "2010-12-04T06:30Z",
            "2010-338T06:30",
            "2010-338 06:30:00Z",
            "2010:338:23400",
            "@1291444200",
            "gps:1612:541815",
            "GPS:1612:541815",
        ] {
            assert_eq!(parse(word), Ok(morning), "{word}");
        }
        let midnight = parse("2010-12-04").unwrap();
        assert_eq!(midnight.seconds(), morning.seconds() - 23_400);
        assert_eq!(parse("2010-338"), Ok(midnight));
    }

    /// 17 leap seconds had come before 2017, so a GPS clock showed 0:00:16 of its next week at 23:59:59, and 0:00:17 at the
    /// leap second.
    #[test]
    fn leap_seconds_of_gps() {
        let told = |word: &str| words(parse(word).unwrap());
        assert_eq!(told("gps:0:0"), "1980-01-06 00:00:00");
        assert_eq!(told("gps:2000:18"), "2018-05-06 00:00:00");
        // 2017-01-01 was a Sunday, the first day of GPS week 1930: 0 h UT is its second 18.
        assert_eq!(told("gps:1930:18"), "2017-01-01 00:00:00");
        assert_eq!(told("gps:1930:16"), "2016-12-31 23:59:59");
        assert_eq!(told("gps:1930:17"), "2017-01-01 00:00:00");
    }

    #[test]
    fn no_times() {
        for word in [
            "",
            "2010-13-04",
            "2010-12-4",
            "2010-12-04T12",
            "noon",
            "2010-366",
            "2010-000",
            "2010-1",
            "2010:338:86400",
            "2010:338",
            "@",
            "@1.5",
            "@99999999999",
            "gps:1612:604800",
            "gps:-1:0",
            "gps:1612:",
            "gps:1612",
            "1612:541815",
        ] {
            assert!(parse(word).is_err(), "{word}");
        }
        assert_eq!(
            parse("2012-366").map(words),
            Ok("2012-12-31 00:00:00".to_string())
        );
        assert_eq!(
            parse("1291444200").unwrap_err(),
            "\"1291444200\": expected a date of 1900 to 2199 and a time, as 2010-12-04T06:30:00; Unix time is written @1291444200"
        );
    }
}
