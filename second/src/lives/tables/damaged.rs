//! Damaged rooms: bytes of a loaded table poked, rooms of zeros and of junk said to be loaded, and rooms lent with
//! other lengths to every call.

use super::limits::plain;
use super::{default, every_year, exception, weekdays};
use crate::block::RATES;
use crate::calendar::{DAYS, LAST_DAY, LAST_TIME, MINUTES, MINUTES_PER_DAY, SECONDS_PER_DAY, WEEKDAYS};
use crate::lives::outages::pass;
use crate::lives::{hostile, Life, Script, IDENTIFIER, UNIT_A_PULSE};
use crate::random::Random;
use crate::recorder::{Class, Phase};
use crate::script::MOST_TABLE_BYTES;
use crate::tariff::{Slot, DEFAULT, EXCEPTION, SLOTS, SLOT_BYTES, TABLE_BYTES, TIME, UNUSED, WEEKDAY_RUN};

fn begin(life: &mut Life, phase: Phase) {
    let day = life.random.below(DAYS - 20);
    let time = day * SECONDS_PER_DAY + life.random.below(SECONDS_PER_DAY);
    life.set_up_as(phase, Class::A, UNIT_A_PULSE, time, 0, 0);
}

/// Of either phase kind.
fn begin_any(life: &mut Life) {
    let phase = life.random_phase();
    begin(life, phase);
}

/// Time passes, by Clock or by On, and is adjusted; the rate follows where the room names one.
fn follow(life: &mut Life) {
    let passed = life.random.below(2 * SECONDS_PER_DAY);
    let time = (life.time() + passed).min(LAST_TIME);
    life.rate_at(time);
    let by_on = life.random.once_in(3);
    pass(life, by_on, time);
    life.pulses(1);
    life.say("show");
    if life.random.once_in(2) {
        life.random_adjust();
        life.say("show");
    }
}

/// Loaded tables of which bytes are poked, one after the other.
pub fn pokes(seed: u64) -> Script {
    let mut life = Life::new(seed);
    for _ in 0..12 {
        begin_any(&mut life);
        let today = life.today();
        let entries = life.edit_random(today);
        life.say_all(&["load", "show"]);
        for _ in 0..40 {
            let slot = life.random.below(entries.len() as u64 + 3);
            let byte = slot * SLOT_BYTES as u64 + life.random.below(SLOT_BYTES as u64);
            let number = *life.random.pick(&[0, 1, 2, 3, 4, 5, 7, 8, 9, 23, 24, 59, 60, 99, 100, 101, 255]);
            life.say(format!("poke table {byte} {number}"));
            follow(&mut life);
            if life.random.once_in(8) {
                life.say_all(&["table", "rate 3", "load", "show", "single", "show"]);
            }
        }
        life.say_all(&["table", "read 2", "listing"]);
    }
    every_rate(&mut life);
    life.finish("damaged rooms")
}

/// Every byte as the rate that a damaged room names, by Clock, by On and by Adjust.
fn every_rate(life: &mut Life) {
    begin(life, Phase::Poly);
    life.say_all(&["blank", "at 1 0000 1", "default 1", "load"]);
    life.say(format!("poke table {} 1", TABLE_BYTES - 1));
    for rate in 0..=u8::MAX {
        life.say(format!("poke table {} {rate}", SLOT_BYTES - 1));
        for by_on in [false, true] {
            let time = life.time() + 1;
            pass(life, by_on, time);
            life.say("show");
        }
        // Another byte, so that it is the adjustment by which a rate is met.
        life.say(format!("poke table {} {}", SLOT_BYTES - 1, u8::MAX - rate));
        life.say_all(&["adjust 0", "show"]);
    }
}

/// Rooms that no load has filled: zeros, junk, and entries that no table may have, which rule in the order of slots.
pub fn junk(seed: u64) -> Script {
    let mut life = Life::new(seed);
    for round in 0..24 {
        begin_any(&mut life);
        let rate = life.random.between(1, RATES as u64);
        life.say(format!("rate {rate}"));
        life.say_all(&["poke loaded 1", "show"]);
        follow(&mut life);
        life.say("rate 2");
        for slot in 0..SLOTS {
            for (field, byte) in junk_entry(&mut life, round).into_iter().enumerate() {
                life.say(format!("poke table {} {byte}", SLOT_BYTES * slot + field));
            }
        }
        life.say("table");
        for _ in 0..12 {
            follow(&mut life);
        }
        life.say_all(&["poke loaded 0", "rate 7"]);
        follow(&mut life);
        life.say_all(&["poke loaded 1", "rate 7", "load", "single", "show", "poke loaded 0", "single", "show"]);
    }
    life.finish("rooms of junk")
}

/// Five bytes, from any to entries nearly right.
fn junk_entry(life: &mut Life, round: u64) -> Slot {
    let today = life.today();
    let random = &mut life.random;
    match round % 4 {
        0 => [(); SLOT_BYTES].map(|()| random.bits() as u8),
        1 => [(); SLOT_BYTES].map(|()| below(random, 10)),
        2 => crowded_entry(random, today),
        _ => odd_time(random),
    }
}

fn below(random: &mut Random, end: u64) -> u8 {
    random.below(end) as u8
}

/// Few day types, 0 among them: equal times, and days that several entries cover.
fn crowded_entry(random: &mut Random, today: u64) -> Slot {
    let day_type = below(random, 3);
    let day = (today + random.below(8)).min(LAST_DAY);
    match *random.pick(&[UNUSED, TIME, TIME, TIME, EXCEPTION, EXCEPTION, WEEKDAY_RUN, DEFAULT, DEFAULT + 1]) {
        TIME => [TIME, day_type, below(random, 3) * 8, below(random, 2) * 30, below(random, RATES as u64 + 2)],
        EXCEPTION if random.once_in(2) => exception(day_type, day),
        EXCEPTION => every_year(day_type, day),
        WEEKDAY_RUN => weekdays(day_type, below(random, WEEKDAYS + 2), below(random, WEEKDAYS + 2)),
        kind => [kind, day_type, 0, 0, 0],
    }
}

/// Hours and minutes that name a minute of the day, or of none, by a way of their own.
fn odd_time(random: &mut Random) -> Slot {
    let day_type = below(random, 2);
    if random.once_in(4) {
        return default(day_type);
    }
    let minute = random.below(MINUTES_PER_DAY as u64 + MINUTES);
    let hours = minute / MINUTES;
    let hour = hours - random.below(hours + 1).min(3);
    [TIME, day_type, hour as u8, (minute - MINUTES * hour) as u8, below(random, RATES as u64 + 2)]
}

/// The room lent with other lengths, to every event, load, set-up and read.
pub fn lengths(seed: u64) -> Script {
    let mut life = Life::new(seed);
    for length in [0, 1, SLOT_BYTES, TABLE_BYTES - SLOT_BYTES, TABLE_BYTES - 1, TABLE_BYTES, MOST_TABLE_BYTES] {
        for loaded in [false, true] {
            life.say("lend");
            begin(&mut life, Phase::Poly);
            life.edit(&plain());
            if loaded {
                life.say("load");
            }
            life.say(format!("lend table {length}"));
            life.say("table");
            hostile::every_call(&mut life);
            let time = life.time();
            life.rate_at(time);
            for at in [0, length.saturating_sub(1), length, TABLE_BYTES - 1, TABLE_BYTES] {
                life.say(format!("poke table {at} 9"));
            }
            life.say_all(&["table", "show", "read 1", "listing", "day 240229"]);
            for class in ["a", "b", "e"] {
                life.say(format!("setup {IDENTIFIER} {class} p 1000 240229 110000 0 0"));
                life.say_all(&["show", "table", "read 0", "load", "show"]);
            }
            let [right, long] = [TABLE_BYTES, MOST_TABLE_BYTES].map(|length| format!("lend table {length}"));
            life.say_all(&["lend 0 0 0", &right, "load", "rate 2", "lend", "table", "load", "show"]);
            life.say_all(&[&long, "table", "load"]);
        }
    }
    life.finish("lengths of a table's room")
}
