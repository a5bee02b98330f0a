//! Dates of the years 1900 to 2199 as seconds from 1900-01-01 00:00:00, without a step for each year.

use second::calendar::{leap, MONTHS};

/// Year, month, day, hour, minute and second, or the first of them that is wrong (from 0).
pub fn seconds([year, month, day, hour, minute, second]: [i64; 6]) -> Result<u64, usize> {
    let check = |fits: bool, field: usize| if fits { Ok(()) } else { Err(field) };
    check((1900..=2199).contains(&year), 0)?;
    check((1..=12).contains(&month), 1)?;
    let months = &MONTHS[usize::from(leap(year))];
    let month = month as usize - 1;
    check((1..=months[month]).contains(&day), 2)?;
    check((0..=23).contains(&hour), 3)?;
    check((0..=59).contains(&minute), 4)?;
    check((0..=59).contains(&second), 5)?;
    // Leap years before `year`, counted from 1900, which is none itself.
    let before = year - 1;
    let leaps = (before / 4 - before / 100 + before / 400) - 460;
    let days = (year - 1900) * 365 + leaps + months[..month].iter().sum::<i64>() + day - 1;
    Ok((days * 86_400 + hour * 3600 + minute * 60 + second) as u64)
}
