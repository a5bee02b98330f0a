//! Dates of the years 1900 to 2199 and seconds from 1900-01-01 00:00:00.

use crate::refusal::Refusal;

/// "two rows of month lengths, one for common years and one for leap years"
pub const MONTHS: [[i64; 12]; 2] = [
    [31, 28, 31, 30, 31, 30, 31, 31, 30, 31, 30, 31],
    [31, 29, 31, 30, 31, 30, 31, 31, 30, 31, 30, 31],
];

const FIRST_YEAR: i64 = 1900;
const LAST_YEAR: i64 = 2199;
const DAY: i64 = 86_400;

/// Seconds from 1900 to 2200-01-01 00:00:00, the first second outside:
/// 300 years with 24 + 25 + 24 = 73 leap years among them.
pub const END: u64 = (300 * 365 + 73) * 86_400;

pub fn leap(year: i64) -> bool {
    year % 4 == 0 && (year % 100 != 0 || year % 400 == 0)
}

fn year_days(year: i64) -> i64 {
    MONTHS[usize::from(leap(year))].iter().sum()
}

/// Year, month, day, hour, minute, second as seconds from 1900, or the place
/// (from 0) of the first wrong field. A day the month lacks is a wrong day.
pub fn seconds(date: [i64; 6]) -> Result<u64, usize> {
    let [year, month, day, hour, minute, second] = date;
    if !(FIRST_YEAR..=LAST_YEAR).contains(&year) {
        return Err(0);
    }
    if !(1..=12).contains(&month) {
        return Err(1);
    }
    let months = &MONTHS[usize::from(leap(year))];
    let month = month as usize - 1;
    if !(1..=months[month]).contains(&day) {
        return Err(2);
    }
    if !(0..=23).contains(&hour) {
        return Err(3);
    }
    if !(0..=59).contains(&minute) {
        return Err(4);
    }
    if !(0..=59).contains(&second) {
        return Err(5);
    }
    let days =
        (FIRST_YEAR..year).map(year_days).sum::<i64>() + months[..month].iter().sum::<i64>() + day
            - 1;
    Ok((days * DAY + hour * 3600 + minute * 60 + second) as u64)
}

/// The date of a number of seconds from 1900, or nothing outside the years.
pub fn date(seconds: u64) -> Option<[i64; 6]> {
    if !is_epoch(seconds) {
        return None;
    }
    let mut days = seconds as i64 / DAY;
    let clock = seconds as i64 % DAY;
    let mut year = FIRST_YEAR;
    while days >= year_days(year) {
        days -= year_days(year);
        year += 1;
    }
    let months = &MONTHS[usize::from(leap(year))];
    let mut month = 0;
    while days >= months[month] {
        days -= months[month];
        month += 1;
    }
    Some([
        year,
        month as i64 + 1,
        days + 1,
        clock / 3600,
        clock / 60 % 60,
        clock % 60,
    ])
}

pub fn is_epoch(seconds: u64) -> bool {
    seconds < END
}

/// "An epoch can be moved by a number of seconds, or refuses (7, with no place)
/// when it or the result is outside those years."
pub fn moved(epoch: u64, by: i64) -> Result<u64, Refusal> {
    let refused = Refusal::Bare { number: 7 };
    if !is_epoch(epoch) {
        return Err(refused);
    }
    let result = epoch.checked_add_signed(by).ok_or(refused)?;
    if is_epoch(result) {
        Ok(result)
    } else {
        Err(refused)
    }
}

#[cfg(test)]
mod tests {
    use super::*;

    #[test]
    fn figures_of_01() {
        assert_eq!(seconds([1995, 10, 15, 0, 0, 0]), Ok(3_022_704_000));
        assert!(seconds([2000, 2, 29, 0, 0, 0]).is_ok());
        assert!(seconds([2096, 2, 29, 0, 0, 0]).is_ok());
        assert_eq!(seconds([1900, 2, 29, 0, 0, 0]), Err(2));
        assert_eq!(seconds([2100, 2, 29, 0, 0, 0]), Err(2));
    }

    #[test]
    fn edges() {
        assert_eq!(seconds([1900, 1, 1, 0, 0, 0]), Ok(0));
        assert_eq!(seconds([2199, 12, 31, 23, 59, 59]), Ok(END - 1));
        assert_eq!(date(END), None);
        assert_eq!(date(END - 1), Some([2199, 12, 31, 23, 59, 59]));
        assert_eq!(date(0), Some([1900, 1, 1, 0, 0, 0]));
        assert_eq!(END, 9_467_107_200);
    }

    #[test]
    fn first_wrong_field() {
        assert_eq!(seconds([1899, 13, 0, 24, 60, 60]), Err(0));
        assert_eq!(seconds([2200, 1, 1, 0, 0, 0]), Err(0));
        assert_eq!(seconds([1999, 13, 0, 24, 60, 60]), Err(1));
        assert_eq!(seconds([1999, 0, 1, 0, 0, 0]), Err(1));
        assert_eq!(seconds([1999, 4, 31, 24, 60, 60]), Err(2));
        assert_eq!(seconds([1999, 4, 0, 0, 0, 0]), Err(2));
        assert_eq!(seconds([1999, 4, 30, 24, 60, 60]), Err(3));
        assert_eq!(seconds([1999, 4, 30, -1, 0, 0]), Err(3));
        assert_eq!(seconds([1999, 4, 30, 23, 60, 60]), Err(4));
        assert_eq!(seconds([1999, 4, 30, 23, 59, 60]), Err(5));
        assert_eq!(seconds([1999, 4, 30, 23, 59, -1]), Err(5));
    }

    #[test]
    fn days_come_back() {
        let mut last = None;
        for day in (0..END / 86_400).step_by(7) {
            let at = day * 86_400 + day % 86_400;
            let found = date(at).unwrap();
            assert_eq!(seconds(found), Ok(at));
            assert_ne!(last, Some(found));
            last = Some(found);
        }
    }

    #[test]
    fn moving() {
        let no = Err(Refusal::Bare { number: 7 });
        assert_eq!(moved(0, 0), Ok(0));
        assert_eq!(moved(10, -10), Ok(0));
        assert_eq!(moved(10, -11), no);
        assert_eq!(moved(END - 1, 0), Ok(END - 1));
        assert_eq!(moved(END - 1, 1), no);
        assert_eq!(moved(END, -1), no);
        assert_eq!(moved(END, 0), no);
        assert_eq!(moved(0, i64::MIN), no);
        assert_eq!(moved(0, i64::MAX), no);
        assert_eq!(moved(u64::MAX, -1), no);
        assert_eq!(moved(0, END as i64 - 1), Ok(END - 1));
    }
}
