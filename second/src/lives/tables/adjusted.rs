//! Clocks adjusted under a table that switches inside half-hours: back to a switching time and over it, where the rate
//! of before is active again, and forward to it once more.

use super::{default, exception, switching_time};
use crate::block::RATES;
use crate::calendar::{MINUTES_PER_HALF_HOUR, SECONDS, SECONDS_PER_DAY, SECONDS_PER_HALF_HOUR};
use crate::lives::{Life, Script, LATEST_START, UNIT_A_PULSE};
use crate::recorder::{Class, MOST_SHIFT};

/// Each minute of a half-hour as a switching time, with each rate before it.
pub fn minutes(seed: u64) -> Script {
    let mut life = Life::new(seed);
    for minute in 0..MINUTES_PER_HALF_HOUR {
        for rate in 1..=RATES as u8 {
            let day = life.random.between(1, LATEST_START);
            let half_hour = life.random.between(1, SECONDS_PER_DAY / SECONDS_PER_HALF_HOUR - 1);
            let of_day = half_hour as usize * MINUTES_PER_HALF_HOUR + minute;
            load(&mut life, day, of_day, rate);
            let switching = day * SECONDS_PER_DAY + of_day as u64 * SECONDS;
            there_and_back(&mut life, switching);
        }
        midnight(&mut life, minute as u64);
    }
    life.finish("adjustments over switching times")
}

/// A table of that day alone: a rate until the minute, another one from then on; it is loaded at midnight.
fn load(life: &mut Life, day: u64, minute: usize, rate: u8) {
    let other = 1 + rate % RATES as u8;
    let from_midnight = switching_time(2, 0, rate);
    let any = life.random.between(1, RATES as u64) as u8;
    let mut entries =
        vec![default(1), exception(2, day), switching_time(1, 0, any), from_midnight, switching_time(2, minute, other)];
    life.random.shuffle(&mut entries);
    life.edit(&entries);
    life.set_up(Class::A, UNIT_A_PULSE, day * SECONDS_PER_DAY, 0, 0);
    life.say("load");
}

/// Back to the switching time and over it, forward to the second before it and to it again, and by any seconds about it,
/// with energy for the rate of each.
fn there_and_back(life: &mut Life, switching: u64) {
    let left = SECONDS_PER_HALF_HOUR - switching % SECONDS_PER_HALF_HOUR;
    let past = life.random.below(left.min(MOST_SHIFT as u64)) as i64;
    life.clock(switching + past as u64);
    for seconds in [0, -past, -2, 1, 0, 1, past, -past - 1, past] {
        life.adjust(seconds);
        life.pulses(10);
    }
    life.say("show");
    for _ in 0..2 {
        life.random_adjust();
        life.pulses(1);
    }
    life.say_all(&["show", "off"]);
    let time = life.time() + life.random.below(2);
    life.on(time);
    life.say_all(&["show", "read 1", "listing"]);
}

/// Forward over midnight into a day of another type, or out of it; the half-hour before has the mark.
fn midnight(life: &mut Life, seconds: u64) {
    for later in [0, 1] {
        let day = life.random.between(1, LATEST_START);
        load(life, day, 1, 5);
        let midnight = (day + later) * SECONDS_PER_DAY;
        life.set_up(Class::A, UNIT_A_PULSE, midnight - seconds - 1, 0, 0);
        life.say_all(&["load", "show"]);
        for shift in [seconds as i64, 1, SECONDS as i64 - 1, 1] {
            life.adjust(shift);
            life.pulses(1);
            life.say("show");
        }
        life.day(midnight / SECONDS_PER_DAY - 1);
    }
}
