//! The tariff switching table: its bytes, what is refused of them, and the rate at a second. Days are painted with day
//! types, lower ranks first, and minutes with rates: no slot is compared with another, so none can win by its place.

mod week;

pub use week::{week, week_of_input};

use crate::answer::{OUT_OF_RANGE, TABLE_CLASH};
use crate::block::RATES;
use crate::calendar::{self, DAYS, HOURS, LAST_TIME, MINUTES, MINUTES_PER_DAY, WEEKDAYS, YEARS};
use std::collections::BTreeMap;
use std::sync::OnceLock;

pub const MOST_TIMES: usize = 48;
pub const MOST_EXCEPTIONS: usize = 32;
pub const DAY_TYPES: u8 = 8;
/// All that can be accepted at once: the times, the exceptions, an entry for each weekday, and the default.
pub const SLOTS: usize = MOST_TIMES + MOST_EXCEPTIONS + WEEKDAYS as usize + 1;
pub const SLOT_BYTES: usize = 5;
pub const TABLE_BYTES: usize = SLOT_BYTES * SLOTS;
/// The year of an exception that covers its day of every year.
pub const EVERY_YEAR: u8 = YEARS as u8;

// The kinds of an entry. Of those that cover a day, the least rules it.
pub const UNUSED: u8 = 0;
pub const TIME: u8 = 1;
pub const EXCEPTION: u8 = 2;
pub const WEEKDAY_RUN: u8 = 3;
pub const DEFAULT: u8 = 4;

/// The kinds that cover days, the lowest rank first.
const RANKS: [u8; 3] = [DEFAULT, WEEKDAY_RUN, EXCEPTION];

pub type Slot = [u8; SLOT_BYTES];

fn slots(table: &[u8]) -> impl DoubleEndedIterator<Item = Slot> + '_ {
    table.chunks_exact(SLOT_BYTES).map(|bytes| bytes.try_into().unwrap_or_default())
}

fn of_kind(table: &[u8], kind: u8) -> impl DoubleEndedIterator<Item = Slot> + '_ {
    slots(table).filter(move |slot| slot[0] == kind)
}

fn is_rate(number: u8) -> bool {
    (1..=RATES as u8).contains(&number)
}

/// Whether a switching time has a rate above so many, also one of a day type that is not used; in a table that was
/// accepted or not.
pub fn names_rate_above(table: &[u8], most: u64) -> bool {
    of_kind(table, TIME).any(|[_, _, _, _, rate]| is_rate(rate) && u64::from(rate) > most)
}

/// The minute of the day that an hour and a minute name, in range or not.
fn minute(hour: u8, minute: u8) -> usize {
    usize::from(hour) * MINUTES as usize + usize::from(minute)
}

/// Judges a table: 6 before 14.
pub fn judge(table: &[u8]) -> Result<(), u32> {
    if !is_in_range(table) {
        Err(OUT_OF_RANGE)
    } else if has_clash(table) {
        Err(TABLE_CLASH)
    } else {
        Ok(())
    }
}

fn is_in_range(table: &[u8]) -> bool {
    table.len() == TABLE_BYTES
        && slots(table).all(|slot| is_slot(&slot))
        && of_kind(table, TIME).count() <= MOST_TIMES
        && of_kind(table, EXCEPTION).count() <= MOST_EXCEPTIONS
        && of_kind(table, DEFAULT).count() > 0
        && used_types(table).all(|day_type| is_rate(minutes(table, day_type)[0]))
}

fn is_slot(slot: &Slot) -> bool {
    let [kind, day_type, x, y, z] = *slot;
    let has_type = (1..=DAY_TYPES).contains(&day_type);
    match kind {
        UNUSED => *slot == Slot::default(),
        TIME => has_type && u64::from(x) < HOURS && u64::from(y) < MINUTES && is_rate(z),
        EXCEPTION => has_type && covered_days(slot).next().is_some(),
        WEEKDAY_RUN => has_type && 1 <= x && x <= y && u64::from(y) <= WEEKDAYS && z == 0,
        DEFAULT => has_type && [x, y, z] == [0; 3],
        _ => false,
    }
}

/// The day types that an exception, a weekday entry or the default names, in the order of their numbers.
fn used_types(table: &[u8]) -> impl Iterator<Item = u8> + '_ {
    let is_named = |day_type: u8| slots(table).any(|slot| RANKS.contains(&slot[0]) && slot[1] == day_type);
    (1..=DAY_TYPES).filter(move |&day_type| is_named(day_type))
}

/// Of each month and day, the years in which they are a date and its day numbers: the whole calendar, walked once.
type Dates = BTreeMap<(u8, u8), Vec<(u8, usize)>>;

fn dates() -> &'static Dates {
    static DATES: OnceLock<Dates> = OnceLock::new();
    DATES.get_or_init(|| {
        let mut dates = Dates::new();
        for number in 0..DAYS {
            let (year, month, day) = calendar::date(number);
            dates.entry((month as u8, day as u8)).or_default().push((year as u8, number as usize));
        }
        dates
    })
}

/// The days of the calendar that an exception covers: none where its date is unreal.
fn covered_days(&[_, _, year, month, day]: &Slot) -> impl Iterator<Item = usize> {
    let days = dates().get(&(month, day)).map(Vec::as_slice).unwrap_or_default();
    days.iter().filter(move |&&(of, _)| year == EVERY_YEAR || year == of).map(|&(_, number)| number)
}

/// Puts a mark at each place; false where one has it already.
fn mark_all(marks: &mut [bool], places: impl IntoIterator<Item = usize>) -> bool {
    places.into_iter().all(|place| marks.get_mut(place).is_some_and(|mark| !std::mem::replace(mark, true)))
}

/// Two entries of one rank that cover one day, or two times of one day type at one minute; of slots in range.
fn has_clash(table: &[u8]) -> bool {
    let mut days = vec![false; DAYS as usize];
    let mut weekdays = [false; WEEKDAYS as usize + 1];
    let mut times = [[false; MINUTES_PER_DAY]; DAY_TYPES as usize + 1];
    of_kind(table, DEFAULT).count() > 1
        || !of_kind(table, EXCEPTION).all(|slot| mark_all(&mut days, covered_days(&slot)))
        || !of_kind(table, WEEKDAY_RUN)
            .all(|[_, _, first, last, _]| mark_all(&mut weekdays, usize::from(first)..=usize::from(last)))
        || !of_kind(table, TIME).all(|[_, day_type, hours, minutes, _]| {
            mark_all(&mut times[usize::from(day_type)], [minute(hours, minutes)])
        })
}

/// The type of a day, in a table that was accepted or not; 0 where no entry covers it.
fn day_type(table: &[u8], number: u64) -> u8 {
    let mut painted = 0;
    let date = calendar::date(number);
    for rank in RANKS {
        // From the last slot to the first: in a damaged table the first stays on top.
        for slot in of_kind(table, rank).rev().filter(|slot| covers(slot, number, date)) {
            painted = slot[1];
        }
    }
    painted
}

fn covers(&[kind, _, x, y, z]: &Slot, number: u64, (year, month, day): (u64, u64, u64)) -> bool {
    match kind {
        EXCEPTION => (x == EVERY_YEAR || u64::from(x) == year) && (u64::from(y), u64::from(z)) == (month, day),
        WEEKDAY_RUN => (u64::from(x)..=u64::from(y)).contains(&calendar::weekday(number)),
        _ => kind == DEFAULT,
    }
}

/// The rate of each minute of a day type, in a table that was accepted or not; 0 before its first switching time.
fn minutes(table: &[u8], day_type: u8) -> [u8; MINUTES_PER_DAY] {
    let mut rates = [None; MINUTES_PER_DAY];
    for [_, _, hours, minutes, rate] in of_kind(table, TIME).rev().filter(|slot| slot[1] == day_type) {
        if let Some(place) = rates.get_mut(minute(hours, minutes)) {
            *place = Some(rate);
        }
    }
    let mut active = 0;
    rates.map(|switched| {
        active = switched.unwrap_or(active);
        active
    })
}

/// The rate that a table names at a second: any byte where the table is damaged, and 0 where it names none.
pub fn rate_at(table: &[u8], time: u64) -> u8 {
    if table.len() != TABLE_BYTES || time > LAST_TIME {
        return 0;
    }
    minutes(table, day_type(table, calendar::day_of(time)))[calendar::minute_of(time)]
}
