//! Each limit of a table on both its sides: every byte in every field, dates about the ends of months, runs of
//! weekdays, the most entries of a kind, day types without a rate from 00:00, and lengths.

use super::{default, every_year, exception, switching_time, weekdays};
use crate::calendar::{self, LAST_DAY, MINUTES_PER_DAY, MONTHS, WEEKDAYS};
use crate::lives::{Life, Script};
use crate::script::MOST_TABLE_BYTES;
use crate::tariff::{
    Slot, DAY_TYPES, EVERY_YEAR, EXCEPTION, MOST_EXCEPTIONS, MOST_TIMES, SLOTS, SLOT_BYTES, TABLE_BYTES, TIME, UNUSED,
};

const SET_UP: &str = "setup ABCX24000017 a p 1000 240228 065900 0 0";

/// A table that is accepted and takes an entry more of any kind but a default: each day type has its rate from 00:00.
pub fn plain() -> Vec<Slot> {
    let rates = (1..=DAY_TYPES).map(|day_type| switching_time(day_type, 0, day_type));
    rates.chain([default(1)]).collect()
}

impl Life {
    fn slot(&mut self, slot: usize, [kind, t, x, y, z]: Slot) {
        self.say(format!("slot {slot} {kind} {t} {x} {y} {z}"));
    }
}

/// Every byte in each field of an entry of each kind, the kind itself among them; the others are right.
pub fn bytes(seed: u64) -> Script {
    let mut life = Life::new(seed);
    life.say(SET_UP);
    let day = calendar::read_date(b"240228").unwrap_or_default();
    let entries = [
        switching_time(2, MINUTES_PER_DAY / 3 + 30, 2),
        exception(3, day),
        every_year(3, day),
        weekdays(4, 1, 7),
        weekdays(4, 4, 4),
        default(5),
        Slot::default(),
    ];
    for entry in entries {
        let free = life.random.between(plain().len() as u64, SLOTS as u64 - 1) as usize;
        let mut others = plain();
        if entry == default(5) {
            others.pop();
        }
        life.edit(&others);
        for field in 0..SLOT_BYTES {
            for byte in 0..=u8::MAX {
                let mut changed = entry;
                changed[field] = byte;
                life.slot(free, changed);
                life.say("load");
            }
            life.slot(free, entry);
            life.say_all(&["load", "week 240226", "table"]);
        }
    }
    life.finish("every byte of an entry")
}

/// Exceptions about the end of each month, in a leap year, in another, and of every year; and every run of weekdays.
pub fn days(seed: u64) -> Script {
    let mut life = Life::new(seed);
    life.say(SET_UP);
    life.edit(&plain());
    let free = SLOTS - 1;
    for year in [0, 23, 24, 96, 99, EVERY_YEAR, EVERY_YEAR + 1] {
        for month in 0..=MONTHS as u8 + 1 {
            for day in [0, 1, 28, 29, 30, 31, 32] {
                life.slot(free, [EXCEPTION, 3, year, month, day]);
                life.say("load");
            }
        }
    }
    for first in 0..=WEEKDAYS as u8 + 1 {
        for last in 0..=WEEKDAYS as u8 + 1 {
            life.slot(free, weekdays(2, first, last));
            life.say_all(&["load", "week 240226", "rateat 240303 120000"]);
        }
    }
    life.finish("days of an entry")
}

/// The most switching times, exceptions and slots, one fewer and one more; lengths; no default.
pub fn numbers(seed: u64) -> Script {
    let mut life = Life::new(seed);
    life.say(SET_UP);
    for times in [MOST_TIMES - 1, MOST_TIMES, MOST_TIMES + 1, SLOTS - 1] {
        for exceptions in [0, MOST_EXCEPTIONS - 1, MOST_EXCEPTIONS, MOST_EXCEPTIONS + 1] {
            for run in [0, 1, WEEKDAYS as usize] {
                let mut entries = many(&mut life, times, exceptions);
                entries.extend((0..run as u8).map(|weekday| weekdays(3, weekday + 1, weekday + 1)));
                entries.truncate(SLOTS);
                load_in_two_orders(&mut life, entries);
            }
        }
    }
    for exceptions in [MOST_EXCEPTIONS + 1, SLOTS - plain().len()] {
        let entries = many(&mut life, DAY_TYPES as usize, exceptions);
        load_in_two_orders(&mut life, entries);
    }
    life.edit(&plain());
    for length in [0, 1, SLOT_BYTES, TABLE_BYTES - SLOT_BYTES, TABLE_BYTES - 1, TABLE_BYTES, MOST_TABLE_BYTES] {
        life.say(format!("load {length}"));
        life.say_all(&["show", "table"]);
    }
    life.say_all(&["blank", "load", "at 1 0000 1", "load", "weekdays 1 1 7", "load", "default 1", "load", "show"]);
    life.finish("the most entries of a table")
}

/// So many times and exceptions that do not clash, with a default; each day type has its rate from 00:00.
fn many(life: &mut Life, times: usize, exceptions: usize) -> Vec<Slot> {
    let mut entries = plain();
    let minutes = (1..MINUTES_PER_DAY).map(|minute| switching_time(1 + minute as u8 % DAY_TYPES, minute, 2));
    entries.extend(minutes.take(times - DAY_TYPES as usize));
    let first = life.random.below(LAST_DAY - SLOTS as u64);
    entries.extend((first..).take(exceptions).map(|day| exception(2, day)));
    entries
}

/// In this order, and with the slots of its last entries first.
fn load_in_two_orders(life: &mut Life, mut entries: Vec<Slot>) {
    for _ in 0..2 {
        life.edit(&entries);
        life.say_all(&["load", "week 240226", "default 1"]);
        entries.reverse();
    }
}

/// Day types named by each rank, with a rate from 00:00, from 00:01, from other day types' 00:00, or never.
pub fn midnights(seed: u64) -> Script {
    let mut life = Life::new(seed);
    life.say(SET_UP);
    for day_type in 1..=DAY_TYPES {
        let day = life.random.below(LAST_DAY);
        let other = 1 + day_type % DAY_TYPES;
        for named in [default(day_type), weekdays(day_type, 1, 7), exception(day_type, day), every_year(day_type, day)]
        {
            let mut served = vec![switching_time(other, 0, 3), named];
            if named != default(day_type) {
                served.push(default(other));
            }
            for minute in [0, 1, MINUTES_PER_DAY / 2, MINUTES_PER_DAY - 1] {
                let mut entries = served.clone();
                entries.push(switching_time(day_type, minute, 5));
                life.random.shuffle(&mut entries);
                life.edit(&entries);
                life.say_all(&["load", "week 240226", "show"]);
            }
            life.edit(&served);
            life.say_all(&["load", "week 240226"]);
        }
    }
    // A day type that no entry names needs no rate from 00:00, but its times are judged.
    for entry in [switching_time(8, 1, 8), [TIME, 8, 0, 1, 9], [TIME, 8, 24, 0, 1], [UNUSED, 0, 0, 0, 1]] {
        life.edit(&[switching_time(1, 0, 1), default(1)]);
        life.slot(50, entry);
        life.say_all(&["load", "week 240226"]);
        life.slot(51, switching_time(8, 1, 7));
        life.say_all(&["load", "week 240226"]);
    }
    life.finish("day types without a rate from 00:00")
}
