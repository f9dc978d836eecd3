//! Tables for the lives: entries in any order and in any slots, accepted ones made by chance, and the lines by which an
//! editor writes them.

pub mod adjusted;
pub mod damaged;
pub mod drawn;
pub mod limits;
pub mod lines;
pub mod mixed;
pub mod refused;
pub mod switching;

use super::Life;
use crate::calendar::{self, LAST_DAY, MINUTES, MINUTES_PER_DAY, MINUTES_PER_HALF_HOUR, WEEKDAYS};
use crate::random::Random;
use crate::tariff::{
    Slot, DAY_TYPES, DEFAULT, EVERY_YEAR, EXCEPTION, MOST_EXCEPTIONS, MOST_TIMES, SLOTS, TIME, WEEKDAY_RUN,
};
use std::collections::BTreeMap;

/// Exceptions lie mostly within so many days of where a life is.
const NEAR: u64 = 40;

pub fn switching_time(day_type: u8, minute: usize, rate: u8) -> Slot {
    [TIME, day_type, (minute / MINUTES as usize) as u8, (minute % MINUTES as usize) as u8, rate]
}

pub fn weekdays(day_type: u8, first: u8, last: u8) -> Slot {
    [WEEKDAY_RUN, day_type, first, last, 0]
}

pub fn default(day_type: u8) -> Slot {
    [DEFAULT, day_type, 0, 0, 0]
}

/// An exception of one day.
pub fn exception(day_type: u8, day: u64) -> Slot {
    let (year, month, day) = calendar::date(day);
    [EXCEPTION, day_type, year as u8, month as u8, day as u8]
}

/// An exception of that day of every year.
pub fn every_year(day_type: u8, day: u64) -> Slot {
    let [kind, _, _, month, day] = exception(day_type, day);
    [kind, day_type, EVERY_YEAR, month, day]
}

/// Entries of an accepted table in any order, with exceptions about a day and rates up to one. Day types and times may be
/// unused.
pub fn random_entries(random: &mut Random, about: u64, most_rate: u64) -> Vec<Slot> {
    let mut types: Vec<u8> = (1..=DAY_TYPES).collect();
    random.shuffle(&mut types);
    types.truncate(random.between(1, DAY_TYPES.into()) as usize);
    let mut entries = vec![default(*random.pick(&types))];
    entries.extend(random_runs(random, &types));
    let most = *random.pick(&[0, 3, 10, MOST_EXCEPTIONS]);
    for _ in 0..most {
        let new = random_exception(random, &types, about);
        if !entries.iter().any(|old| clash(old, &new)) {
            entries.push(new);
        }
    }
    entries.extend(random_times(random, &types, most_rate));
    random.shuffle(&mut entries);
    entries
}

/// Weekdays one after another, by runs of any length, some of them left to the default.
fn random_runs(random: &mut Random, types: &[u8]) -> Vec<Slot> {
    let mut runs = Vec::new();
    let mut first = 1;
    while first <= WEEKDAYS {
        let last = random.between(first, WEEKDAYS);
        if random.below(3) > 0 {
            runs.push(weekdays(*random.pick(types), first as u8, last as u8));
        }
        first = last + 1;
    }
    runs
}

fn random_exception(random: &mut Random, types: &[u8], about: u64) -> Slot {
    let near = (about + random.below(2 * NEAR)).saturating_sub(NEAR);
    let any = random.below(LAST_DAY);
    let day = (*random.pick(&[near, near, near, any])).min(LAST_DAY);
    let day_type = *random.pick(types);
    if random.once_in(2) {
        every_year(day_type, day)
    } else {
        exception(day_type, day)
    }
}

/// Whether two exceptions meet on some day.
fn clash(one: &Slot, other: &Slot) -> bool {
    let ([kind, _, year, month, day], [other_kind, _, other_year, other_month, other_day]) = (one, other);
    (kind, month, day) == (other_kind, other_month, other_day)
        && (year == other_year || [year, other_year].contains(&&EVERY_YEAR))
}

/// Each day type's rate from 00:00, and times on half-hours, beside them and anywhere, now and then all that there may be.
fn random_times(random: &mut Random, types: &[u8], most_rate: u64) -> Vec<Slot> {
    let mut times: BTreeMap<(u8, usize), u8> = BTreeMap::new();
    let rate = |random: &mut Random| random.between(1, most_rate) as u8;
    for &day_type in types {
        times.insert((day_type, 0), rate(random));
    }
    let most = *random.pick(&[types.len() + 2, types.len() + 9, MOST_TIMES, MOST_TIMES]);
    while times.len() < most.min(MOST_TIMES) {
        let day_type = if random.once_in(6) { random.between(1, DAY_TYPES.into()) as u8 } else { *random.pick(types) };
        times.insert((day_type, random_minute(random)), rate(random));
    }
    times.into_iter().map(|((day_type, minute), rate)| switching_time(day_type, minute, rate)).collect()
}

fn random_minute(random: &mut Random) -> usize {
    let boundary = random.below(MINUTES_PER_DAY as u64) as usize / MINUTES_PER_HALF_HOUR * MINUTES_PER_HALF_HOUR;
    let minute = match random.below(6) {
        0..=2 => boundary,
        3 => boundary + 1,
        4 => boundary + MINUTES_PER_HALF_HOUR - 1,
        _ => random.below(MINUTES_PER_DAY as u64) as usize,
    };
    minute.min(MINUTES_PER_DAY - 1)
}

/// The line that writes an entry, by name where that can be and chance will, or by the number of its slot.
fn entry_line(random: &mut Random, slot: usize, entry: &Slot) -> String {
    let [kind, t, x, y, z] = *entry;
    let named = match kind {
        TIME if y < 100 => Some(format!("at {t} {x:02}{y:02} {z}")),
        EXCEPTION if x == EVERY_YEAR && y.max(z) < 100 => Some(format!("except {t} {y:02}{z:02}")),
        EXCEPTION if x.max(y).max(z) < 100 => Some(format!("except {t} {x:02}{y:02}{z:02}")),
        WEEKDAY_RUN if z == 0 => Some(format!("weekdays {t} {x} {y}")),
        DEFAULT if [x, y, z] == [0; 3] => Some(format!("default {t}")),
        _ => None,
    };
    named.filter(|_| random.below(4) > 0).unwrap_or_else(|| format!("slot {slot} {kind} {t} {x} {y} {z}"))
}

impl Life {
    /// The editor's table becomes these entries, from slot 0 on.
    pub fn edit(&mut self, entries: &[Slot]) {
        self.say("blank");
        for (slot, entry) in entries.iter().enumerate() {
            let line = entry_line(&mut self.random, slot, entry);
            self.say(line);
        }
    }

    /// Its slots change places, so that entries stand in any order and among unused slots.
    fn swap_slots(&mut self, times: usize) {
        for _ in 0..times {
            let slots = SLOTS as u64;
            let (one, other) = (self.random.below(slots), self.random.below(slots));
            self.say(format!("swap {one} {other}"));
        }
    }

    /// A table by chance, of rates that the outstation can choose.
    pub fn edit_random(&mut self, about: u64) -> Vec<Slot> {
        let most_rate = self.player.recorder.phase.most_rate();
        let entries = random_entries(&mut self.random, about, most_rate);
        self.edit(&entries);
        entries
    }

    pub fn rate_at(&mut self, time: u64) {
        let time = self.time_words(time);
        self.say(format!("rateat {time}"));
    }

    fn week(&mut self, day: u64) {
        let day = self.day_word(day);
        self.say(format!("week {day}"));
    }
}
