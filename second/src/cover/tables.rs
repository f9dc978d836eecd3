//! The limits of a table that is loaded, and whether each was met on both its sides: its bytes, dates, runs of weekdays
//! and numbers of entries, its lengths, the clashes, and day types without a rate from 00:00.

use super::sides::{Side, Sides};
use crate::answer::*;
use crate::block::RATES;
use crate::calendar::{HOURS, MINUTES, MONTHS, WEEKDAYS};
use crate::script::{Player, MOST_TABLE_BYTES};
use crate::tariff::{
    self, Slot, DAY_TYPES, DEFAULT, EVERY_YEAR, EXCEPTION, MOST_EXCEPTIONS, MOST_TIMES, SLOTS, SLOT_BYTES, TABLE_BYTES,
    TIME, UNUSED, WEEKDAY_RUN,
};
use std::collections::BTreeSet;

const KIND: &str = "kind of an entry";
const BYTES_OFFERED: &str = "bytes of a table that is right";
const SLOTS_FULL: &str = "slots that are not unused";
const SHARED_WEEKDAY: &str = "weekday that two runs share";
const LAST_BEFORE: &str = "last weekday of a run that another follows";
const EXCEPTIONS_OF_A_DATE: &str = "exceptions of every year among two of one month and day";
const TIMES_OF_A_MINUTE: &str = "different rates of two times at one minute of a day type";
const TYPES_OF_A_MINUTE: &str = "day types of two times at one minute";
const NO_MIDNIGHT: &str = "kind of the entry whose day type has no rate from 00:00";
const FIRST_MINUTE: &str = "minute of the first time of a day type that is named";

/// Years as an exception's date sees them: a leap year, another, and every year; the most days of each month in them.
const YEARS: [(u8, u64); 3] = [(24, 29), (23, 28), (EVERY_YEAR, 29)];

fn byte_of(kind: u8, field: usize) -> String {
    format!("byte {field} of an entry of kind {kind}")
}

fn day_of(year: u8, month: u64) -> String {
    format!("day of an exception in month {month} of year {year}")
}

fn entries_of(kind: u8) -> String {
    format!("entries of kind {kind}")
}

fn month_length(february: u64, month: u64) -> u64 {
    match month {
        2 => february,
        4 | 6 | 9 | 11 => 30,
        _ => 31,
    }
}

/// The least and the most of a field, each with the number beside it that is refused.
fn edges(what: &str, least: u64, most: u64) -> Vec<Side> {
    let below = least.checked_sub(1).map(|number| (number, OUT_OF_RANGE));
    let sides = [(least, DONE), (most, DONE), (most + 1, OUT_OF_RANGE)].into_iter().chain(below);
    sides.map(|(number, answer)| (what.to_string(), number, answer)).collect()
}

/// Every side that is to be met.
fn all() -> BTreeSet<Side> {
    let mut sides = BTreeSet::new();
    let (types, rates) = (u64::from(DAY_TYPES), RATES as u64);
    for kind in [TIME, EXCEPTION, WEEKDAY_RUN, DEFAULT] {
        sides.extend(edges(&byte_of(kind, 1), 1, types));
    }
    for (kind, field, least, most) in [
        (TIME, 2, 0, HOURS - 1),
        (TIME, 3, 0, MINUTES - 1),
        (TIME, 4, 1, rates),
        (EXCEPTION, 2, 0, u64::from(EVERY_YEAR)),
        (EXCEPTION, 3, 1, MONTHS),
        (WEEKDAY_RUN, 2, 1, WEEKDAYS),
        (WEEKDAY_RUN, 3, 4, WEEKDAYS),
        (WEEKDAY_RUN, 4, 0, 0),
        (DEFAULT, 2, 0, 0),
        (DEFAULT, 3, 0, 0),
        (DEFAULT, 4, 0, 0),
        (UNUSED, 1, 0, 0),
        (UNUSED, 2, 0, 0),
        (UNUSED, 3, 0, 0),
        (UNUSED, 4, 0, 0),
    ] {
        sides.extend(edges(&byte_of(kind, field), least, most));
    }
    for (year, february) in YEARS {
        for month in 1..=MONTHS {
            let last = month_length(february, month);
            let day = day_of(year, month);
            sides.extend([(day.clone(), last, DONE), (day, last + 1, OUT_OF_RANGE)]);
        }
    }
    sides.extend([(KIND.to_string(), u64::from(DEFAULT) + 1, OUT_OF_RANGE)]);
    sides.extend(all_numbers());
    sides
}

fn all_numbers() -> Vec<Side> {
    let (times, exceptions, bytes) = (MOST_TIMES as u64, MOST_EXCEPTIONS as u64, TABLE_BYTES as u64);
    let mut sides = vec![
        (entries_of(TIME), times, DONE),
        (entries_of(TIME), times + 1, OUT_OF_RANGE),
        (entries_of(EXCEPTION), exceptions, DONE),
        (entries_of(EXCEPTION), exceptions + 1, OUT_OF_RANGE),
        (entries_of(WEEKDAY_RUN), 0, DONE),
        (entries_of(WEEKDAY_RUN), WEEKDAYS, DONE),
        (entries_of(DEFAULT), 0, OUT_OF_RANGE),
        (entries_of(DEFAULT), 1, DONE),
        (entries_of(DEFAULT), 2, TABLE_CLASH),
    ];
    let named = [
        (SLOTS_FULL, SLOTS as u64, DONE),
        (BYTES_OFFERED, 0, OUT_OF_RANGE),
        (BYTES_OFFERED, bytes - 1, OUT_OF_RANGE),
        (BYTES_OFFERED, bytes, DONE),
        (BYTES_OFFERED, bytes + 1, OUT_OF_RANGE),
        (EXCEPTIONS_OF_A_DATE, 0, DONE),
        (EXCEPTIONS_OF_A_DATE, 0, TABLE_CLASH),
        (EXCEPTIONS_OF_A_DATE, 1, TABLE_CLASH),
        (EXCEPTIONS_OF_A_DATE, 2, TABLE_CLASH),
        (TIMES_OF_A_MINUTE, 1, TABLE_CLASH),
        (TIMES_OF_A_MINUTE, 2, TABLE_CLASH),
        (TYPES_OF_A_MINUTE, 2, DONE),
        (FIRST_MINUTE, 0, DONE),
        (FIRST_MINUTE, 1, OUT_OF_RANGE),
    ];
    sides.extend(named.map(|(what, number, answer)| (what.to_string(), number, answer)));
    sides.extend((1..=WEEKDAYS).map(|weekday| (SHARED_WEEKDAY.to_string(), weekday, TABLE_CLASH)));
    sides.extend((1..WEEKDAYS).map(|weekday| (LAST_BEFORE.to_string(), weekday, DONE)));
    let ranks = [EXCEPTION, WEEKDAY_RUN, DEFAULT];
    sides.extend(ranks.map(|kind| (NO_MIDNIGHT.to_string(), u64::from(kind), OUT_OF_RANGE)));
    sides
}

fn slots(table: &[u8]) -> Vec<Slot> {
    table.chunks(SLOT_BYTES).map(|bytes| bytes.try_into().unwrap_or_default()).collect()
}

fn with(table: &[u8], slot: usize, entry: Slot) -> Vec<u8> {
    let mut slots = slots(table);
    slots[slot] = entry;
    slots.concat()
}

fn is_right(table: &[u8]) -> bool {
    tariff::judge(table).is_ok()
}

#[derive(Default)]
pub struct Tables {
    sides: Sides,
    /// The table that was accepted last.
    accepted: Vec<u8>,
}

impl Tables {
    /// A line, as it was answered, and all that is there after it.
    pub fn add(&mut self, line: &[u8], answer: &str, player: &Player) {
        let Some(number) = answer.split(' ').next().and_then(|number| number.parse().ok()) else { return };
        if !line.starts_with(b"load") || ![DONE, OUT_OF_RANGE, TABLE_CLASH].contains(&number) {
            return;
        }
        if line != b"load" {
            let offered = line.strip_prefix(b"load ").and_then(crate::calendar::digits);
            let offered = offered.filter(|&bytes| bytes <= MOST_TABLE_BYTES as u64 && is_right(&player.edited));
            offered.into_iter().for_each(|bytes| self.sides.meet(BYTES_OFFERED, bytes, number));
            return;
        }
        let table = &player.edited;
        self.add_byte(table, number);
        match number {
            DONE => self.add_accepted(table),
            TABLE_CLASH => self.add_clash(table),
            _ => self.add_out_of_range(table),
        }
    }

    /// A table that differs from the accepted one before it by one byte.
    fn add_byte(&mut self, table: &[u8], number: u32) {
        let differs = |&place: &usize| self.accepted.get(place) != table.get(place);
        let places: Vec<usize> = (0..TABLE_BYTES).filter(differs).take(2).collect();
        let [place] = places[..] else { return };
        let [kind, _, year, month, _] = slots(table)[place / SLOT_BYTES];
        let (field, byte) = (place % SLOT_BYTES, u64::from(table[place]));
        match (kind, field) {
            (_, 0) => self.sides.meet(KIND, byte, number),
            (EXCEPTION, 4) => self.sides.meet(day_of(year, month.into()), byte, number),
            _ => self.sides.meet(byte_of(kind, field), byte, number),
        }
    }

    fn add_accepted(&mut self, table: &[u8]) {
        self.accepted = table.to_vec();
        let slots = slots(table);
        for kind in [TIME, EXCEPTION, WEEKDAY_RUN, DEFAULT] {
            let entries = slots.iter().filter(|slot| slot[0] == kind).count();
            self.sides.meet(entries_of(kind), entries as u64, DONE);
        }
        self.sides.meet(SLOTS_FULL, slots.iter().filter(|slot| slot[0] != UNUSED).count() as u64, DONE);
        self.sides.meet(FIRST_MINUTE, 0, DONE);
        for slot in &slots {
            for (field, byte) in slot.iter().enumerate().skip(1) {
                self.sides.meet(byte_of(slot[0], field), u64::from(*byte), DONE);
            }
        }
        for (index, one) in slots.iter().enumerate() {
            for other in slots.iter().skip(index + 1) {
                self.add_pair(one, other, DONE);
            }
        }
    }

    /// Two entries beside each other, which clash or do not.
    fn add_pair(&mut self, one: &Slot, other: &Slot, number: u32) {
        let ([kind, t, a, b, c], [other_kind, u, d, e, f]) = (*one, *other);
        match (kind, other_kind) {
            (DEFAULT, DEFAULT) => self.sides.meet(entries_of(DEFAULT), 2, number),
            (EXCEPTION, EXCEPTION) if (b, c) == (e, f) => {
                let every_year = [a, d].iter().filter(|year| **year == EVERY_YEAR).count();
                self.sides.meet(EXCEPTIONS_OF_A_DATE, every_year as u64, number);
            }
            (TIME, TIME) if (a, b) == (d, e) && t == u => {
                self.sides.meet(TIMES_OF_A_MINUTE, if c == f { 1 } else { 2 }, number);
            }
            (TIME, TIME) if (a, b) == (d, e) => self.sides.meet(TYPES_OF_A_MINUTE, 2, number),
            (WEEKDAY_RUN, WEEKDAY_RUN) => {
                let shared: Vec<u8> = (a.max(d)..=b.min(e)).collect();
                if let [weekday] = shared[..] {
                    self.sides.meet(SHARED_WEEKDAY, weekday.into(), number);
                }
                if a.max(d) == b.min(e) + 1 {
                    self.sides.meet(LAST_BEFORE, b.min(e).into(), number);
                }
            }
            _ => {}
        }
    }

    /// Two entries of which either may go, and the table is right.
    fn add_clash(&mut self, table: &[u8]) {
        let mends = |slot: &usize| is_right(&with(table, *slot, Slot::default()));
        let at: Vec<usize> = (0..SLOTS).filter(mends).collect();
        if let [one, other] = at[..] {
            let slots = slots(table);
            self.add_pair(&slots[one], &slots[other], TABLE_CLASH);
        }
    }

    /// Tables that an entry fewer, or one more, makes right.
    fn add_out_of_range(&mut self, table: &[u8]) {
        let slots = slots(table);
        for kind in [TIME, EXCEPTION] {
            let of_kind: Vec<usize> = (0..SLOTS).filter(|&slot| slots[slot][0] == kind).collect();
            if of_kind.last().is_some_and(|&last| is_right(&with(table, last, Slot::default()))) {
                self.sides.meet(entries_of(kind), of_kind.len() as u64, OUT_OF_RANGE);
            }
        }
        let Some(free) = slots.iter().position(|slot| slot[0] == UNUSED) else { return };
        if is_right(&with(table, free, [DEFAULT, 1, 0, 0, 0])) {
            self.sides.meet(entries_of(DEFAULT), 0, OUT_OF_RANGE);
        }
        for day_type in 1..=DAY_TYPES {
            if !is_right(&with(table, free, [TIME, day_type, 0, 0, 1])) {
                continue;
            }
            let of_type = || slots.iter().filter(move |slot| slot[1] == day_type);
            if let [name] = of_type().filter(|slot| slot[0] > TIME).collect::<Vec<&Slot>>()[..] {
                self.sides.meet(NO_MIDNIGHT, name[0].into(), OUT_OF_RANGE);
            }
            if of_type().any(|slot| slot[..4] == [TIME, day_type, 0, 1]) {
                self.sides.meet(FIRST_MINUTE, 1, OUT_OF_RANGE);
            }
        }
    }

    pub fn told(&self) -> bool {
        self.sides.told("sides of a table's limits", &all())
    }
}
