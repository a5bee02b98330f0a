//! A time, in seconds from 1900.

use crate::ffi;
use crate::refusal::Refusal;
use crate::words::{digits, ParseError};
use std::fmt;
use std::str::FromStr;

/// A time in whole seconds from 1900-01-01 00:00:00, in universal time as the epochs of IONEX are.
///
/// Every day has 86,400 seconds. A word is accepted for the years 1900 to 2199, which are those of the library.
///
/// ```
/// use ionex::Epoch;
///
/// let morning: Epoch = "2010-12-04T06:30:00".parse()?;
/// assert_eq!(morning.seconds(), 3_500_433_000);
/// assert_eq!(morning.unix(), 1_291_444_200);
/// assert_eq!(morning, "2010-12-04 06:30".parse()?);
/// assert_eq!(morning.to_string(), "2010-12-04T06:30:00");
/// assert!("2010-02-29T00:00:00".parse::<Epoch>().is_err());
/// # Ok::<(), ionex::ParseError>(())
/// ```
#[derive(Clone, Copy, Debug, PartialEq, Eq, PartialOrd, Ord, Hash)]
pub struct Epoch(u64);

impl Epoch {
    /// 1970-01-01 00:00:00, where Unix time begins.
    pub const UNIX: Epoch = Epoch(2_208_988_800);
    /// 1980-01-06 00:00:00, where GPS time begins.
    pub const GPS: Epoch = Epoch(2_524_953_600);

    /// The time so many seconds after 1900-01-01 00:00:00.
    pub const fn from_seconds(seconds: u64) -> Epoch {
        Epoch(seconds)
    }

    /// The seconds from 1900-01-01 00:00:00.
    pub const fn seconds(self) -> u64 {
        self.0
    }

    /// The time of a Unix clock; refusal 7 outside the years 1900 to 2199.
    pub fn from_unix(seconds: i64) -> Result<Epoch, Refusal> {
        Epoch::UNIX.moved(seconds)
    }

    /// The seconds of a Unix clock at this time.
    pub fn unix(self) -> i64 {
        i64::try_from(self.0).unwrap_or(i64::MAX) - Epoch::UNIX.0 as i64
    }

    /// The time of a GPS clock, given as its seconds since 1980-01-06 00:00:00; refusal 7 outside the years 1900 to 2199.
    ///
    /// A GPS clock knows no leap seconds, so it runs ahead of universal time by those that have come since 1980:
    /// `leap_seconds` is how many (18 since 2017-01-01; a receiver tells it in its navigation message), and is subtracted.
    ///
    /// ```
    /// use ionex::Epoch;
    ///
    /// // Week 2000 of GPS began 18 seconds before 2018-05-06 00:00:00.
    /// let epoch = Epoch::from_gps(2000 * 604_800 + 18, 18)?;
    /// assert_eq!(epoch.to_string(), "2018-05-06T00:00:00");
    /// # Ok::<(), ionex::Refusal>(())
    /// ```
    pub fn from_gps(seconds: i64, leap_seconds: i64) -> Result<Epoch, Refusal> {
        let universal = seconds.checked_sub(leap_seconds).ok_or(Refusal::plain(7))?;
        Epoch::GPS.moved(universal)
    }

    /// The time so many seconds later, or earlier where `by` is negative; refusal 7 where either lies outside the years
    /// 1900 to 2199.
    pub fn moved(self, by: i64) -> Result<Epoch, Refusal> {
        let mut moved = [0];
        match ffi::moved(self.0, by, &mut moved) {
            0 => Ok(Epoch(moved[0])),
            number => Err(Refusal::plain(number)),
        }
    }

    /// The time of a date of the years 1900 to 2199; nothing where there is no such date.
    pub fn from_date(date: Date) -> Option<Epoch> {
        let Date {
            year,
            month,
            day,
            hour,
            minute,
            second,
        } = date;
        let right = (1900..=2199).contains(&year)
            && (1..=12).contains(&month)
            && (1..=month_days(year, month)).contains(&day)
            && hour < 24
            && minute < 60
            && second < 60;
        if !right {
            return None;
        }
        let months: u64 = (1..month).map(|month| month_days(year, month)).sum();
        let days = days_before(year) - days_before(1900) + months + day - 1;
        Some(Epoch(days * 86_400 + hour * 3600 + minute * 60 + second))
    }

    /// The date of this time.
    pub fn date(self) -> Date {
        let (days, second) = (self.0 / 86_400, self.0 % 86_400);
        // A year has at most 366 days, so this is never too late, and a few steps bring it to the year.
        let mut year = 1900 + days / 366;
        while days_before(year + 1) - days_before(1900) <= days {
            let rest = days - (days_before(year + 1) - days_before(1900));
            year += 1 + rest / 366;
        }
        let mut day = days - (days_before(year) - days_before(1900)) + 1;
        let mut month = 1;
        while day > month_days(year, month) {
            day -= month_days(year, month);
            month += 1;
        }
        Date {
            year,
            month,
            day,
            hour: second / 3600,
            minute: second / 60 % 60,
            second: second % 60,
        }
    }
}

/// A date and a time of day, as people write them.
#[derive(Clone, Copy, Debug, PartialEq, Eq, PartialOrd, Ord, Hash)]
pub struct Date {
    /// 1900 to 2199.
    pub year: u64,
    /// 1 to 12.
    pub month: u64,
    /// 1 to the days of the month.
    pub day: u64,
    /// 0 to 23.
    pub hour: u64,
    /// 0 to 59.
    pub minute: u64,
    /// 0 to 59.
    pub second: u64,
}

/// The days of all years before this one, in the Gregorian calendar.
fn days_before(year: u64) -> u64 {
    let past = year - 1;
    365 * past + past / 4 - past / 100 + past / 400
}

fn month_days(year: u64, month: u64) -> u64 {
    let leap = year.is_multiple_of(4) && (!year.is_multiple_of(100) || year.is_multiple_of(400));
    match month {
        2 => 28 + u64::from(leap),
        4 | 6 | 9 | 11 => 30,
        _ => 31,
    }
}

impl fmt::Display for Epoch {
    fn fmt(&self, f: &mut fmt::Formatter) -> fmt::Result {
        let Date {
            year,
            month,
            day,
            hour,
            minute,
            second,
        } = self.date();
        write!(
            f,
            "{year:04}-{month:02}-{day:02}T{hour:02}:{minute:02}:{second:02}"
        )
    }
}

impl FromStr for Epoch {
    type Err = ParseError;

    /// `2010-12-04T06:30:00`, with a blank in the place of the T, without the seconds, or with a Z behind them.
    fn from_str(word: &str) -> Result<Epoch, ParseError> {
        parse(word).ok_or_else(|| {
            ParseError::new(
                word,
                "a date of 1900 to 2199 and a time, as 2010-12-04T06:30:00",
            )
        })
    }
}

fn parse(word: &str) -> Option<Epoch> {
    let (date, time) = word.split_once(['T', ' '])?;
    let time = time.strip_suffix('Z').unwrap_or(time);
    let [year, month, day] = numbers(date, '-', [4, 2, 2])?;
    let [hour, minute, second] = match time.len() {
        5 => {
            let [hour, minute] = numbers(time, ':', [2, 2])?;
            [hour, minute, 0]
        }
        _ => numbers(time, ':', [2, 2, 2])?,
    };
    Epoch::from_date(Date {
        year,
        month,
        day,
        hour,
        minute,
        second,
    })
}

/// The numbers between marks, each of so many digits.
fn numbers<const N: usize>(word: &str, mark: char, widths: [usize; N]) -> Option<[u64; N]> {
    let mut parts = word.split(mark);
    let mut found = [0; N];
    for (number, width) in found.iter_mut().zip(widths) {
        let part = parts.next().filter(|part| part.len() == width)?;
        *number = digits(part)?;
    }
    parts.next().is_none().then_some(found)
}
