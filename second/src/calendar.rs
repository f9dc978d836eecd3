//! Time in whole seconds from 2000-01-01 00:00:00 UTC to the end of 2099, days by
//! number, half-hours, and the digits in which blocks and scripts write them.

/// The half-hours of a day.
pub const HALF_HOURS: usize = 48;
pub const SECONDS_PER_DAY: u64 = HOURS * SECONDS_PER_HOUR;
pub const SECONDS_PER_HALF_HOUR: u64 = SECONDS_PER_DAY / HALF_HOURS as u64;
pub const YEARS: u64 = 100;
pub const MONTHS: u64 = 12;
pub const WEEKDAYS: u64 = 7;
pub const MINUTES_PER_DAY: usize = (HOURS * MINUTES) as usize;
pub const MINUTES_PER_HALF_HOUR: usize = MINUTES_PER_DAY / HALF_HOURS;
/// Days from 2000-01-01 to 2099-12-31, both included.
pub const DAYS: u64 = days_before(YEARS);
pub const LAST_DAY: u64 = DAYS - 1;
pub const LAST_TIME: u64 = DAYS * SECONDS_PER_DAY - 1;
/// The digits of `YYMMDD`, and of `YYMMDDhhmmss`.
pub const DATE_DIGITS: usize = 6;
pub const TIME_DIGITS: usize = DATE_DIGITS + SECONDS_DIGITS;

pub const HOURS: u64 = 24;
/// The minutes of an hour, and the seconds of a minute.
pub const MINUTES: u64 = 60;
pub const SECONDS: u64 = 60;
const SECONDS_PER_HOUR: u64 = MINUTES * SECONDS;
const SECONDS_DIGITS: usize = 6;
/// 2000-01-01 was a Saturday; Monday is 1.
const FIRST_WEEKDAY: u64 = 6;

/// In 2000 to 2099 every fourth year is a leap year, 2000 among them.
const fn is_leap(year: u64) -> bool {
    year % 4 == 0
}

const fn year_length(year: u64) -> u64 {
    if is_leap(year) {
        366
    } else {
        365
    }
}

fn month_length(year: u64, month: u64) -> u64 {
    match month {
        2 if is_leap(year) => 29,
        2 => 28,
        4 | 6 | 9 | 11 => 30,
        _ => 31,
    }
}

/// The days of all years before a year.
const fn days_before(year: u64) -> u64 {
    let mut days = 0;
    let mut earlier = 0;
    while earlier < year {
        days += year_length(earlier);
        earlier += 1;
    }
    days
}

/// The day number of a date, or nothing where the date is unreal.
pub fn day_number(year: u64, month: u64, day: u64) -> Option<u64> {
    if year >= YEARS || month < 1 || month > MONTHS || day < 1 || day > month_length(year, month) {
        return None;
    }
    let months: u64 = (1..month).map(|m| month_length(year, m)).sum();
    Some(days_before(year) + months + day - 1)
}

/// Year, month and day of a day number; a number past the calendar runs on into later years.
pub fn date(number: u64) -> (u64, u64, u64) {
    let mut left = number % DAYS;
    let mut year = 0;
    while left >= year_length(year) {
        left -= year_length(year);
        year += 1;
    }
    let mut month = 1;
    while left >= month_length(year, month) {
        left -= month_length(year, month);
        month += 1;
    }
    (year, month, left + 1)
}

pub fn day_of(time: u64) -> u64 {
    time / SECONDS_PER_DAY
}

/// Monday 1 to Sunday 7.
pub fn weekday(day: u64) -> u64 {
    (FIRST_WEEKDAY - 1 + day) % WEEKDAYS + 1
}

/// The minute of the day in which a time lies.
pub fn minute_of(time: u64) -> usize {
    (time % SECONDS_PER_DAY / SECONDS) as usize
}

/// How many half-hours of a day have ended at a time.
pub fn ended(time: u64, day: u64) -> usize {
    let today = day_of(time);
    if day < today {
        HALF_HOURS
    } else if day == today {
        (time % SECONDS_PER_DAY / SECONDS_PER_HALF_HOUR) as usize
    } else {
        0
    }
}

/// A number of decimal digits, or nothing where a character is no digit.
pub fn digits(text: &[u8]) -> Option<u64> {
    let mut number: u64 = 0;
    for character in text {
        if !character.is_ascii_digit() {
            return None;
        }
        number = number.checked_mul(10)?.checked_add(u64::from(character - b'0'))?;
    }
    Some(number)
}

/// Writes a number in so many digits, with leading zeros.
pub fn write_digits(number: u64, digits: usize) -> String {
    format!("{number:0digits$}")
}

/// Reads `YYMMDD`.
pub fn read_date(text: &[u8]) -> Option<u64> {
    if text.len() != DATE_DIGITS {
        return None;
    }
    let number = digits(text)?;
    day_number(number / 10_000, number / 100 % 100, number % 100)
}

/// Reads `hhmmss` as seconds of the day.
pub fn read_seconds(text: &[u8]) -> Option<u64> {
    if text.len() != SECONDS_DIGITS {
        return None;
    }
    let number = digits(text)?;
    let (hours, minutes, seconds) = (number / 10_000, number / 100 % 100, number % 100);
    if hours >= HOURS || minutes >= MINUTES || seconds >= SECONDS {
        return None;
    }
    Some(hours * SECONDS_PER_HOUR + minutes * SECONDS + seconds)
}

/// Reads `YYMMDDhhmmss`.
pub fn read_time(text: &[u8]) -> Option<u64> {
    let day = read_date(text.get(..DATE_DIGITS)?)?;
    let seconds = read_seconds(text.get(DATE_DIGITS..)?)?;
    Some(day * SECONDS_PER_DAY + seconds)
}

/// Writes `YYMMDD`.
pub fn write_date(number: u64) -> String {
    let (year, month, day) = date(number);
    format!("{year:02}{month:02}{day:02}")
}

/// Writes `hhmmss`.
pub fn write_seconds(time: u64) -> String {
    let seconds = time % SECONDS_PER_DAY;
    format!("{:02}{:02}{:02}", seconds / SECONDS_PER_HOUR, seconds / SECONDS % MINUTES, seconds % SECONDS)
}

/// Writes `YYMMDDhhmmss`.
pub fn write_time(time: u64) -> String {
    write_date(day_of(time)) + &write_seconds(time)
}

#[cfg(test)]
mod tests {
    use super::*;

    #[test]
    fn the_last_second() {
        assert_eq!(DAYS, 36_525);
        assert_eq!(write_date(LAST_DAY), "991231");
        assert_eq!(LAST_TIME, 3_155_759_999);
        assert_eq!(write_time(LAST_TIME), "991231235959");
        assert_eq!(read_time(b"991231235959"), Some(LAST_TIME));
        assert_eq!(read_time(b"000101000000"), Some(0));
    }

    #[test]
    fn leap_days() {
        assert!(read_date(b"240229").is_some());
        assert!(read_date(b"230229").is_none());
        assert!(read_date(b"000229").is_some());
        for unreal in [b"000000", b"240230", b"241301", b"240001", b"240100", b"240431", b"24022x"] {
            assert_eq!(read_date(unreal), None);
        }
        for unreal in [b"240000", b"236000", b"235960", b"2359 9"] {
            assert_eq!(read_seconds(unreal), None);
        }
    }

    #[test]
    fn days_about_leap_days_and_new_years() {
        for (day, date) in [
            (0, "000101"),
            (58, "000228"),
            (59, "000229"),
            (60, "000301"),
            (365, "001231"),
            (366, "010101"),
            (1_460, "031231"),
            (1_461, "040101"),
            (8_825, "240229"),
            (8_826, "240301"),
            (36_524, "991231"),
        ] {
            assert_eq!(write_date(day), date);
        }
    }

    #[test]
    fn every_day_there_and_back() {
        for day in 0..DAYS {
            assert_eq!(read_date(write_date(day).as_bytes()), Some(day));
        }
    }

    #[test]
    fn ended_half_hours() {
        assert_eq!(ended(1_799, 0), 0);
        assert_eq!(ended(1_800, 0), 1);
        assert_eq!(ended(86_399, 0), 47);
        assert_eq!(ended(86_400, 0), 48);
        assert_eq!(ended(86_400, 1), 0);
        assert_eq!(ended(86_400, 2), 0);
    }
}
