//! Ordinary lives: weeks of counts, clocks, adjustments, outages, accesses, resets, PPPs, conversions and reads,
//! and the ledgers that take their blocks lost, repeated and shuffled.

use super::{letter, phase_letter, with_ppp, write_into, Life, Script, IDENTIFIER, UNIT_A_PULSE};
use crate::block::{self, RATES};
use crate::calendar::{self, SECONDS_PER_DAY, SECONDS_PER_HALF_HOUR};
use crate::ledger;
use crate::listing;
use crate::quantities::{LEAST_WEIGHT, MOST_WEIGHT, THOUSANDTHS_PER_KWH, TOTAL_MODULUS};
use crate::recorder::{Class, MOST_ASKED};
use crate::script::KEPT_BLOCKS;

/// Some weeks of one outstation, read out and delivered to ledgers.
pub fn weeks(seed: u64) -> Script {
    let mut life = Life::new(seed);
    let class = *life.random.pick(&[Class::A, Class::A, Class::B, Class::C, Class::D]);
    let days = life.random.between(3, Class::A.days() as u64 + 12);
    let first = begin(&mut life, class, days);
    let end = (first + days) * SECONDS_PER_DAY;
    let mut reads = 0;
    while life.time() < end && !life.is_full() {
        step(&mut life, &mut reads, 40);
    }
    life.say("show");
    for day in first..=life.today() {
        life.day(day);
    }
    for _ in 0..3 {
        deliveries(&mut life, first, days);
    }
    life.finish("ordinary weeks")
}

/// More than a year of a class d outstation: reads of hundreds of days and a full ledger.
pub fn year(seed: u64) -> Script {
    let mut life = Life::new(seed);
    let held = Class::D.days() as u64;
    let listed = listing::MOST_DAYS as u64;
    let asked_most = u64::from(MOST_ASKED);
    let first = begin(&mut life, Class::D, held + 20);
    let mut kept = 0;
    for day in 0..=held + 10 {
        for _ in 0..life.random.between(1, 4) {
            let pulses = life.random.below(life.pulses_left() + 1);
            life.pulses(pulses);
            let event = *life.random.pick(&["adjust -9", "reverse", "reset", "rate 4", "rate 5", "ppp y2K", "show"]);
            life.say(event);
            let time = life.time() + life.random.below(20_000);
            life.clock(time);
        }
        if day % 97 == 0 || day.abs_diff(listed) <= 1 || day.abs_diff(held) <= 1 {
            let asked = *life.random.pick(&[held, held - 1, asked_most, listed, listed + 1]);
            life.say(format!("read {asked}"));
            life.say_all(&["check", "listing", "fields", &write_into(block::MOST_BYTES), "check"]);
            life.say(format!("keep {kept}"));
            kept += 1;
        }
        let next = (first + day + 1) * SECONDS_PER_DAY + life.random.below(30_000);
        life.clock(next);
    }
    for asked in [listed - 1, listed, listed + 1, held - 1, held, held + 1, asked_most] {
        life.say(format!("read {asked}"));
        life.say_all(&["check", "listing"]);
    }
    life.say("block");
    let last_kept = KEPT_BLOCKS - 1;
    life.say(format!("keep {last_kept}"));
    let mut order: Vec<usize> = (0..kept).chain([last_kept]).collect();
    life.random.shuffle(&mut order);
    for days in [ledger::MOST_DAYS, ledger::MOST_DAYS - 1] {
        let day = life.day_word(first + 5);
        life.say(format!("open {IDENTIFIER} {day} {days}"));
        for kept in &order {
            life.say(format!("deliver {kept}"));
        }
    }
    for day in first + 3..first + ledger::MOST_DAYS + 8 {
        life.summary_and_missing(day);
    }
    life.say("ledger");
    life.finish("ordinary year")
}

/// One outstation read often, and many small ledgers of its blocks.
pub fn ledgers(seed: u64) -> Script {
    let mut life = Life::new(seed);
    let days = life.random.between(2, 6);
    let first = begin(&mut life, Class::A, days);
    let end = (first + days) * SECONDS_PER_DAY;
    let mut reads = 0;
    while life.time() < end {
        step(&mut life, &mut reads, 5);
    }
    for _ in 0..20 {
        deliveries(&mut life, first, days);
    }
    life.finish("ordinary ledgers")
}

/// Sets an outstation up somewhere in the calendar with so many days to come, of either phase kind and with any PPP; the
/// day's number.
fn begin(life: &mut Life, class: Class, days: u64) -> u64 {
    let first = life.random.below(calendar::DAYS - days - 5);
    let time = first * SECONDS_PER_DAY + life.random.below(SECONDS_PER_DAY);
    let weight = match life.random.below(4) {
        0 => LEAST_WEIGHT,
        1 => UNIT_A_PULSE,
        2 => MOST_WEIGHT,
        _ => life.random_weight(),
    };
    let total = match life.random.below(3) {
        0 => 0,
        1 => TOTAL_MODULUS - life.random.between(1, 3_000 * THOUSANDTHS_PER_KWH),
        _ => life.random.below(TOTAL_MODULUS),
    };
    let counter = match life.random.below(2) {
        0 => u32::MAX - life.random.below(1_000_000) as u32,
        _ => life.random.bits() as u32,
    };
    let (identifier, time) = (with_ppp(&life.random_ppp()), life.time_words(time));
    let (class, phase) = (letter(class), phase_letter(life.random_phase()));
    life.say(format!("setup {identifier} {class} {phase} {weight} {time} {total} {counter}"));
    first
}

/// One thing that happens, a read about once in `reading` other things.
fn step(life: &mut Life, reads: &mut usize, reading: u64) {
    if life.random.once_in(reading) {
        return read(life, reads);
    }
    match life.random.below(100) {
        0..=44 => count(life),
        45..=75 => {
            let time = later(life);
            life.clock(time);
        }
        76..=79 => life.random_adjust(),
        80..=83 => outage(life),
        84..=86 => {
            life.say("access");
        }
        87..=88 => {
            life.say("reverse");
        }
        89..=90 => {
            let counter = life.random.bits() as u32;
            life.say(format!("meter {counter}"));
        }
        91..=92 => {
            life.say("reset");
        }
        93..=95 => {
            let rate = life.random.between(1, RATES as u64);
            life.say(format!("rate {rate}"));
        }
        96 => life.rewrite_ppp(),
        97 => {
            let day = life.today().saturating_sub(life.random.below(Class::A.days() as u64 + 5));
            life.day(day);
        }
        98 if life.random.once_in(9) => {
            life.say("single");
        }
        _ => {
            life.say("show");
        }
    }
}

/// Mostly few pulses, now and then about the most that the half-hour takes, or none, or any.
fn count(life: &mut Life) {
    let left = life.pulses_left();
    let pulses = match life.random.below(40) {
        0 => left,
        1 => left + 1,
        2 => 0,
        3 => life.random.bits(),
        _ => life.random.below(left / 8 + 2),
    };
    life.pulses(pulses);
}

/// A time not long after the present one, often a boundary or a second beside it.
fn later(life: &mut Life) -> u64 {
    let now = life.time();
    let boundary = (now / SECONDS_PER_HALF_HOUR + 1) * SECONDS_PER_HALF_HOUR;
    match life.random.below(6) {
        0 => boundary,
        1 => boundary - 1,
        2 => now + 1,
        3 => now + life.random.below(6 * SECONDS_PER_HALF_HOUR),
        _ => now + life.random.below(2_000),
    }
}

/// Power lost and restored, with what is tried in between.
fn outage(life: &mut Life) {
    life.say("off");
    for _ in 0..life.random.below(3) {
        let time = life.time() + 60;
        let last = life.player.recorder.last.wrapping_add(3);
        let mut tried: Vec<String> = super::plain_events(time, last).to_vec();
        tried.remove(3);
        tried.push("read 1".to_string());
        let line = life.random.pick(&tried).clone();
        life.say(line);
    }
    let length = match life.random.below(5) {
        0 => 0,
        1 => life.random.below(3 * SECONDS_PER_DAY),
        2 => SECONDS_PER_DAY - life.time() % SECONDS_PER_DAY,
        _ => life.random.below(5_000),
    };
    let time = life.time() + length;
    life.on(time);
}

/// A read, looked at in some way and kept.
fn read(life: &mut Life, reads: &mut usize) {
    let asked = match life.random.below(6) {
        0 => 0,
        1 => u64::from(MOST_ASKED),
        2 => life.player.recorder.days,
        _ => life.random.between(1, 5),
    };
    life.say(format!("read {asked}"));
    life.say("check");
    match life.random.below(4) {
        0 => {
            life.say("block");
        }
        1 => {
            life.say("listing");
        }
        2 => life.say_all(&["fields", &write_into(block::MOST_BYTES), "check", "listing"]),
        _ => {}
    }
    life.say(format!("keep {}", *reads % KEPT_BLOCKS));
    *reads += 1;
}

/// A ledger opened about the outstation's days and with any PPP, kept blocks delivered to it lost,
/// repeated and shuffled, and then asked for every day and those beside its window.
fn deliveries(life: &mut Life, first: u64, days: u64) {
    let from = first.saturating_sub(life.random.below(3)) + life.random.below(4);
    let number = life.random.between(1, days + 4).min(calendar::DAYS - from);
    let from_word = life.day_word(from);
    let identifier = with_ppp(&life.random_ppp());
    life.say(format!("open {identifier} {from_word} {number}"));
    let mut order: Vec<usize> = (0..KEPT_BLOCKS).chain(0..KEPT_BLOCKS).filter(|_| life.random.below(3) > 0).collect();
    life.random.shuffle(&mut order);
    for kept in order {
        life.say(format!("deliver {kept}"));
        if life.random.once_in(10) {
            let day = from + life.random.below(number);
            life.summary_and_missing(day);
        }
    }
    for day in from.saturating_sub(1)..=from + number {
        life.summary_and_missing(day);
    }
    life.say("ledger");
}
