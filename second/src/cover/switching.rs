//! What a table does in an outstation, as far as it must be met: each rank that rules a day, on each weekday and by each
//! call that follows it; Rate while it is loaded; rooms lent with other lengths; and weeks drawn.

use super::sides::{Side, Sides};
use crate::answer::*;
use crate::block::RATES;
use crate::calendar::{self, HALF_HOURS, LAST_DAY, WEEKDAYS};
use crate::listing::REFUSED;
use crate::recorder::Recorder;
use crate::script::Player;
use crate::tariff::{self, Slot, DEFAULT, EVERY_YEAR, EXCEPTION, SLOT_BYTES, TABLE_BYTES, UNUSED, WEEKDAY_RUN};
use std::collections::BTreeSet;

/// The calls that ask a table for its rate.
const FOLLOWING: [&str; 5] = ["load", "clock", "on", "adjust", "rateat"];
/// The calls that a room of another length refuses; a read does not look at it.
const LENT: [&str; 14] = [
    "setup", "count", "clock", "off", "on", "access", "meter", "reset", "rate", "reverse", "ppp", "adjust", "load",
    "single",
];

const RATE_CHOSEN: &str = "rate chosen while a table is loaded";
const RATE_KEPT: &str = "the active rate chosen while a table is loaded";
const READ: &str = "bytes of a table's room lent to a read";
const WEEK: &str = "first day of a week drawn, of a table that is";
const CHANGED: &str = "half-hour drawn with a change";
const UNCHANGED: &str = "half-hour drawn without one";

/// The calls that are to meet each rate that a damaged room may name.
const IN_DAMAGED_ROOM: [&str; 2] = ["clock", "adjust"];

fn damaged_room(call: &str) -> String {
    format!("rate of a damaged room, by {call}")
}

fn ruled(call: &str, kind: u8) -> String {
    format!("weekday ruled by an entry of kind {kind}, by {call}")
}

fn room_lent(call: &str) -> String {
    format!("bytes of a table's room lent to {call}")
}

fn week_of(judged: u32) -> String {
    format!("{WEEK} {judged}")
}

/// Every side that is to be met.
fn all() -> BTreeSet<Side> {
    let mut sides = BTreeSet::new();
    for call in FOLLOWING {
        for kind in [EXCEPTION, WEEKDAY_RUN, DEFAULT] {
            sides.extend((1..=WEEKDAYS).map(|weekday| (ruled(call, kind), weekday, DONE)));
        }
    }
    let bytes = TABLE_BYTES as u64;
    for call in LENT {
        for (lent, answer) in [(0, WRONG_LENGTH), (bytes - 1, WRONG_LENGTH), (bytes, DONE), (bytes + 1, WRONG_LENGTH)] {
            sides.insert((room_lent(call), lent, answer));
        }
    }
    sides.extend([0, bytes - 1, bytes, bytes + 1].map(|lent| (READ.to_string(), lent, DONE)));
    let rates = RATES as u64;
    for rate in 1..=rates {
        sides.insert((RATE_CHOSEN.to_string(), rate, TABLE_LOADED));
        sides.insert((RATE_KEPT.to_string(), rate, TABLE_LOADED));
    }
    sides.extend([0, rates + 1].map(|rate| (RATE_CHOSEN.to_string(), rate, OUT_OF_RANGE)));
    for call in IN_DAMAGED_ROOM {
        sides.extend((0..=rates + 1).chain([u8::MAX.into()]).map(|rate| (damaged_room(call), rate, DONE)));
    }
    let last = LAST_DAY + 1 - WEEKDAYS;
    for judged in [DONE, OUT_OF_RANGE, TABLE_CLASH] {
        sides.extend([(week_of(judged), last, judged), (week_of(judged), last + 1, OUT_OF_RANGE)]);
    }
    for half_hour in 0..HALF_HOURS as u64 {
        sides.extend([(CHANGED.to_string(), half_hour, DONE), (UNCHANGED.to_string(), half_hour, DONE)]);
    }
    sides
}

/// The kind of the entry that rules a day of an accepted table.
fn ruling_kind(table: &[u8], day: u64) -> Option<u8> {
    let (year, month, date) = calendar::date(day);
    let weekday = calendar::weekday(day) as u8;
    let slots = table.chunks(SLOT_BYTES).map(|bytes| Slot::try_from(bytes).unwrap_or_default());
    let covers = |[kind, _, x, y, z]: &Slot| match *kind {
        EXCEPTION => [EVERY_YEAR, year as u8].contains(x) && [*y, *z] == [month as u8, date as u8],
        WEEKDAY_RUN => (*x..=*y).contains(&weekday),
        kind => kind == DEFAULT,
    };
    slots.filter(covers).map(|slot| slot[0]).min()
}

#[derive(Default)]
pub struct Switching {
    sides: Sides,
}

impl Switching {
    /// A line, as it was answered, between the recorder before it and all that is there after it.
    pub fn add(&mut self, before: &Recorder, line: &[u8], answer: &str, player: &mut Player) {
        let words: Vec<&[u8]> = line.split(|&byte| byte == b' ').collect();
        let call = String::from_utf8_lossy(words[0]).to_string();
        if call == "week" {
            return self.add_week(&words, answer, player);
        }
        let Some(number) = answer.split(' ').next().and_then(|number| number.parse().ok()) else { return };
        if LENT.contains(&call.as_str()) {
            self.sides.meet(room_lent(&call), player.room_lent as u64, number);
        }
        match words[..] {
            [b"read", _] => self.sides.meet(READ, player.room_lent as u64, number),
            [b"rate", rate] if before.loaded => {
                let rate = calendar::digits(rate).unwrap_or_default();
                self.sides.meet(RATE_CHOSEN, rate, number);
                if rate == before.rate {
                    self.sides.meet(RATE_KEPT, rate, number);
                }
            }
            _ => {}
        }
        if FOLLOWING.contains(&call.as_str()) && number == DONE && player.recorder.loaded {
            self.follow(&call, line, player);
        }
    }

    /// The day and the rate that a table was asked for.
    fn follow(&mut self, call: &str, line: &[u8], player: &mut Player) {
        let asked = line.strip_prefix(b"rateat @").and_then(calendar::digits);
        let time = if call == "rateat" { asked } else { Some(player.recorder.time) };
        let Some(time) = time.filter(|&time| time <= calendar::LAST_TIME) else { return };
        let room = player.room();
        if tariff::judge(room).is_ok() {
            let day = calendar::day_of(time);
            let kind = ruling_kind(room, day).unwrap_or(UNUSED);
            self.sides.meet(ruled(call, kind), calendar::weekday(day), DONE);
        } else {
            self.sides.meet(damaged_room(call), tariff::rate_at(room, time).into(), DONE);
        }
    }

    fn add_week(&mut self, words: &[&[u8]], answer: &str, player: &Player) {
        let [_, day] = words[..] else { return };
        let day = day.strip_prefix(b"@").map_or_else(|| calendar::read_date(day), calendar::digits);
        let Some(day) = day else { return };
        let number = match answer.strip_prefix(REFUSED) {
            Some(number) => number.parse().unwrap_or_default(),
            None => DONE,
        };
        let judged = tariff::judge(&player.edited).err().unwrap_or(DONE);
        self.sides.meet(week_of(judged), day, number);
        for line in answer.lines().take(WEEKDAYS as usize) {
            let drawn = line.split(' ').nth(3).unwrap_or_default();
            for (half_hour, character) in drawn.bytes().enumerate() {
                let what = if character == b'+' { CHANGED } else { UNCHANGED };
                self.sides.meet(what, half_hour as u64, DONE);
            }
        }
    }

    pub fn told(&self) -> bool {
        self.sides.told("days ruled, rates refused, rooms lent and weeks drawn under a table", &all())
    }
}
