//! A week of a table drawn as text: a line for each day, and one for each day type that is used.

use super::{day_type, judge, minute, minutes, of_kind, used_types, TIME};
use crate::answer::OUT_OF_RANGE;
use crate::calendar::{self, LAST_DAY, MINUTES_PER_HALF_HOUR, WEEKDAYS};
use crate::listing::REFUSED;
use std::collections::BTreeMap;

/// The last day from which a whole week is left.
pub const LAST_WEEK: u64 = LAST_DAY + 1 - WEEKDAYS;

/// A half-hour in which the rate changes.
const CHANGE: char = '+';

/// The week from a day on, or the refusal, each line ended by a newline.
pub fn week(first: u64, table: &[u8]) -> String {
    if first > LAST_WEEK {
        return refused(OUT_OF_RANGE);
    }
    if let Err(number) = judge(table) {
        return refused(number);
    }
    let mut text = String::new();
    for day in first..first + WEEKDAYS {
        let day_type = day_type(table, day);
        let half_hours = half_hours(table, day_type);
        text += &format!("{} {} {day_type} {half_hours}\n", calendar::write_date(day), calendar::weekday(day));
    }
    for day_type in used_types(table) {
        text += &format!("{day_type} {}\n", times(table, day_type));
    }
    text
}

/// The same from a program's input: the day as YYMMDD, a newline, and the table's bytes.
pub fn week_of_input(input: &[u8]) -> String {
    let parts = input.iter().position(|&byte| byte == b'\n').map(|end| input.split_at(end));
    let day_and_table = parts.and_then(|(date, rest)| Some((calendar::read_date(date)?, rest.strip_prefix(b"\n")?)));
    day_and_table.map_or_else(|| refused(OUT_OF_RANGE), |(day, table)| week(day, table))
}

fn refused(number: u32) -> String {
    format!("{REFUSED}{number}\n")
}

fn half_hours(table: &[u8], day_type: u8) -> String {
    let drawn = |minutes: &[u8]| match minutes {
        [rate, rest @ ..] if rest.iter().all(|other| other == rate) => char::from(b'0' + rate),
        _ => CHANGE,
    };
    minutes(table, day_type).chunks(MINUTES_PER_HALF_HOUR).map(drawn).collect()
}

fn times(table: &[u8], day_type: u8) -> String {
    let in_order: BTreeMap<usize, String> = of_kind(table, TIME)
        .filter(|slot| slot[1] == day_type)
        .map(|[_, _, hours, minutes, rate]| (minute(hours, minutes), format!("{hours:02}{minutes:02} {rate}")))
        .collect();
    in_order.into_values().collect::<Vec<String>>().join(", ")
}
