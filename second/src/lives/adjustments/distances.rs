//! Adjustments by every number of seconds, one past either end of the range among them, each to a boundary and to the
//! second before it: in one life, at midnights, in the half-hour of set-up, and at both ends of the calendar.

use crate::calendar::{self, DAYS, LAST_TIME, SECONDS_PER_DAY, SECONDS_PER_HALF_HOUR};
use crate::lives::{Life, Script, LATEST_START, UNIT_A_PULSE};
use crate::quantities::TOTAL_MODULUS;
use crate::recorder::{Class, MOST_SHIFT};
use std::ops::RangeInclusive;

/// A move must go this many seconds short of a boundary, or not.
const SHORT: [i64; 2] = [1, 0];

fn every_distance() -> RangeInclusive<i64> {
    -MOST_SHIFT - 1..=MOST_SHIFT + 1
}

/// Boundary after boundary in one life.
pub fn boundaries(seed: u64) -> Script {
    let mut life = Life::new(seed);
    along(&mut life, SECONDS_PER_HALF_HOUR);
    life.finish("adjustments to boundaries")
}

/// Midnight after midnight in one life.
pub fn midnights(seed: u64) -> Script {
    let mut life = Life::new(seed);
    along(&mut life, SECONDS_PER_DAY);
    life.finish("adjustments to midnights")
}

/// One life that is told the time from which each move begins; the boundaries lie so many seconds apart.
fn along(life: &mut Life, apart: u64) {
    let tries = SHORT.len() as u64 * every_distance().count() as u64;
    let first = life.random.below(DAYS - 2 * tries * apart / SECONDS_PER_DAY - 2);
    let (class, total) = (*life.random.pick(&Class::ALL), life.random.below(TOTAL_MODULUS));
    life.set_up(class, UNIT_A_PULSE, first * SECONDS_PER_DAY, total, 0);
    for seconds in every_distance() {
        for short in SHORT {
            let boundary = (life.time() / apart + 2) * apart;
            life.clock((boundary as i64 - short - seconds) as u64);
            if life.random.once_in(4) {
                life.pulses(3);
                life.say("reverse");
            }
            adjust_and_look(life, seconds);
        }
    }
    life.say_all(&[&format!("read {}", Class::A.days()), "check", "listing", "block"]);
}

/// What the move did, and the day of a half-hour that it closed.
fn adjust_and_look(life: &mut Life, seconds: i64) {
    let began = life.time();
    life.adjust(seconds);
    life.say("show");
    if life.time() / SECONDS_PER_HALF_HOUR != began / SECONDS_PER_HALF_HOUR {
        life.day(calendar::day_of(began));
    }
}

/// Boundaries anywhere, each move in a half-hour of set-up: back to before the second of set-up, too.
pub fn set_ups(seed: u64) -> Script {
    let mut life = Life::new(seed);
    for seconds in every_distance() {
        let boundary = life.random.between(1, LATEST_START * SECONDS_PER_DAY / SECONDS_PER_HALF_HOUR);
        about(&mut life, seconds, boundary * SECONDS_PER_HALF_HOUR);
    }
    life.finish("adjustments in half-hours of set-up")
}

/// The first half-hour of 2000: back to its beginning, and forward to its end.
pub fn first(seed: u64) -> Script {
    let mut life = Life::new(seed);
    for seconds in every_distance() {
        about(&mut life, seconds, if seconds < 0 { 0 } else { SECONDS_PER_HALF_HOUR });
    }
    life.finish("adjustments in the first half-hour")
}

/// The last half-hour of 2099: back to its beginning, and forward to its end, which no clock shows.
pub fn last(seed: u64) -> Script {
    let mut life = Life::new(seed);
    let end = LAST_TIME + 1;
    for seconds in every_distance() {
        about(&mut life, seconds, if seconds < 0 { end - SECONDS_PER_HALF_HOUR } else { end });
    }
    life.finish("adjustments in the last half-hour")
}

/// A fresh recorder for each move to a boundary and to the second before it, where there is a time to begin at.
fn about(life: &mut Life, seconds: i64, boundary: u64) {
    for short in SHORT {
        let begin = boundary as i64 - short - seconds;
        if (0..=LAST_TIME as i64).contains(&begin) {
            life.set_up(Class::A, UNIT_A_PULSE, begin as u64, 0, 0);
            adjust_and_look(life, seconds);
        }
    }
}
