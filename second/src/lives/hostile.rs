//! Hostile lives: set-ups refused, the blank recorder, recorders and stores poked, and every call to them.

use super::{letter, plain_events, Life, Script, IDENTIFIER, MOST_32_BITS, UNIT_A_PULSE};
use crate::block::{DEMAND_RESET, FLAGS, MARKS_MODULUS, METER_CHANGED, POWER_LOST, RATES};
use crate::calendar::{self, DAYS, HALF_HOURS, LAST_TIME, SECONDS_PER_DAY};
use crate::quantities::{
    self, DEMAND_MODULUS, LEAST_WEIGHT, MOST_UNITS, MOST_WEIGHT, READING_MODULUS, RESETS_MODULUS, THOUSANDTHS_PER_UNIT,
    TOTAL_MODULUS, VALUE_MODULUS,
};
use crate::recorder::{Class, StoreLength, FLAGS_WORD, MOST_ASKED, MOST_SHIFT, WORDS_PER_DAY};
use crate::script::{LONGEST_STORE, MOST_NUMBER};

/// Every call of the recorder, each tried with its own plain values.
pub fn every_call(life: &mut Life) {
    let (time, last) = (life.time(), life.player.recorder.last);
    for event in plain_events(time, last) {
        life.say(event);
    }
    life.say_all(&["read 1", "read 0", &rate_too_many(), "rate 0", "ppp a-c", &asked_too_many(), "read 1 0"]);
    life.adjust(MOST_SHIFT + 1);
    life.adjust(-MOST_SHIFT);
}

pub fn rate_too_many() -> String {
    format!("rate {}", RATES + 1)
}

pub fn asked_too_many() -> String {
    format!("read {}", MOST_ASKED + 1)
}

/// Every set-up value in and out of range, with lengths lent right and wrong.
pub fn set_ups(seed: u64) -> Script {
    let mut life = Life::new(seed);
    life.say_all(&["show", "read 0", "count 0", "off", "on @0", "day 000101", "block", "check", "listing", "ledger"]);
    every_call(&mut life);
    let date_and_seconds = |time| calendar::write_date(calendar::day_of(time)) + " " + &calendar::write_seconds(time);
    let times = [0, LAST_TIME, LAST_TIME + 1, MOST_32_BITS + 1, MOST_NUMBER].map(|time| format!("@{time}"));
    let times: Vec<String> = times.into_iter().chain([LAST_TIME, 0].map(date_and_seconds)).collect();
    for class in ["a", "b", "c", "d", "e", "z", "A", "D"] {
        for weight in [LEAST_WEIGHT - 1, LEAST_WEIGHT, UNIT_A_PULSE, MOST_WEIGHT, MOST_WEIGHT + 1, MOST_32_BITS] {
            for time in &times {
                for total in [0, MOST_32_BITS + 1, TOTAL_MODULUS - 1, TOTAL_MODULUS, MOST_NUMBER] {
                    if life.random.once_in(3) {
                        let counter = *life.random.pick(&[0, MOST_32_BITS, MOST_32_BITS + 1]);
                        let phase = *life.random.pick(&["s", "p"]);
                        life.say(format!("setup {IDENTIFIER} {class} {phase} {weight} {time} {total} {counter}"));
                        life.say_all(&["show", "off"]);
                    }
                }
            }
        }
    }
    for class in Class::ALL {
        let right = class.store_length();
        for lent in wrong_lengths(right) {
            life.lend(lent);
            life.say(format!("setup {IDENTIFIER} {} p {UNIT_A_PULSE} 240229 110000 0 0", letter(class)));
            life.say_all(&["show", "count 0"]);
            life.say(format!("setup {IDENTIFIER} {} p {} 240229 110000 0 0", letter(class), LEAST_WEIGHT - 1));
            life.say(format!("setup {IDENTIFIER} e p {UNIT_A_PULSE} 240229 110000 0 0"));
        }
        life.lend(right);
        life.say(format!("setup {IDENTIFIER} {} p {UNIT_A_PULSE} 240229 110000 123456789012 0", letter(class)));
        life.say_all(&["show", "day 240229", "lend", "count 4", "show"]);
        // A refused set-up leaves the store; an accepted one clears it.
        life.say("clock 240302 120000");
        life.say(format!("setup {IDENTIFIER} {} p {} 240229 110000 0 0", letter(class), MOST_WEIGHT + 1));
        life.say("show");
        life.say(format!("setup {IDENTIFIER} {} p {MOST_WEIGHT} 240229 110000 0 0", letter(class)));
        life.say_all(&["day 240229", "day 240301", "day 240302", "show"]);
    }
    life.finish("hostile set-ups")
}

/// Lengths that are not the right one.
pub fn wrong_lengths(right: StoreLength) -> Vec<StoreLength> {
    let mut lengths = vec![StoreLength::default()];
    for class in Class::ALL {
        if class.store_length() != right {
            lengths.push(class.store_length());
        }
    }
    for length in [right.values - 1, right.values + 1, right.values - HALF_HOURS, right.values + HALF_HOURS] {
        lengths.push(StoreLength { values: length, ..right });
    }
    for length in [right.starts - 1, right.starts + 1, 0] {
        lengths.push(StoreLength { starts: length, ..right });
    }
    for length in [right.marks - 1, right.marks + 1, right.marks - WORDS_PER_DAY] {
        lengths.push(StoreLength { marks: length, ..right });
    }
    let longest = LONGEST_STORE;
    lengths.retain(|l| l.values <= longest.values && l.starts <= longest.starts && l.marks <= longest.marks);
    lengths
}

/// Each field of the recorder poked to values in and out of range, then every call.
pub fn pokes(seed: u64) -> Script {
    let mut life = Life::new(seed);
    let [a, b, _, d] = Class::ALL.map(|class| class.days() as u64);
    let (day, ring) = (SECONDS_PER_DAY, a * SECONDS_PER_DAY);
    let (rates, demand) = (RATES as u64, DEMAND_MODULUS);
    let fields: [(&str, &[u64]); 16] = [
        ("weight", &[LEAST_WEIGHT - 1, LEAST_WEIGHT, MOST_WEIGHT, MOST_WEIGHT + 1, MOST_32_BITS]),
        ("time", &[0, 1, day - 1, day, ring, LAST_TIME, LAST_TIME + 1, MOST_32_BITS + 1, MOST_NUMBER]),
        ("power", &[0, 1]),
        ("days", &[0, 1, 2, 3, a - 1, a, a + 1, b, d, d + 1, MOST_32_BITS]),
        ("total", &[0, THOUSANDTHS_PER_UNIT - 1, MOST_32_BITS, TOTAL_MODULUS - 1, TOTAL_MODULUS, MOST_NUMBER]),
        ("last", &[0, MOST_32_BITS]),
        ("rate", &[0, 1, rates, rates + 1, 256, MOST_32_BITS]),
        ("current", &[0, quantities::demand(MOST_UNITS), demand - 1, demand, MOST_32_BITS]),
        ("previous", &[0, demand - 1, demand, MOST_32_BITS]),
        ("summed", &[0, demand - 1, demand, MOST_32_BITS]),
        ("reset", &[0, 1, DAYS, DAYS + 1, MOST_32_BITS]),
        ("resets", &[0, 1, RESETS_MODULUS - 1, RESETS_MODULUS, MOST_32_BITS]),
        ("base", &[0, 1, READING_MODULUS - 1, READING_MODULUS, MOST_32_BITS]),
        ("reverse", &[0, 1]),
        ("level2", &[0, 1]),
        ("loaded", &[0, 1]),
    ];
    for (name, values) in fields {
        for value in values {
            life.lived(Class::A, 1);
            poke_and_try(&mut life, &format!("poke {name} {value}"));
        }
    }
    for rate in 1..=RATES {
        for value in [0, TOTAL_MODULUS - 1, TOTAL_MODULUS, MOST_NUMBER] {
            life.lived(Class::A, 1);
            life.say(format!("rate {rate}"));
            poke_and_try(&mut life, &format!("poke register {rate} {value}"));
        }
    }
    // Two fields at once: a never reset date with a count, a base far from the reading.
    for (reset, resets) in [(0, 1), (0, 0), (DAYS, 0), (1, RESETS_MODULUS - 1), (0, RESETS_MODULUS - 1)] {
        life.lived(Class::A, 1);
        life.say(format!("poke reset {reset}"));
        poke_and_try(&mut life, &format!("poke resets {resets}"));
    }
    let (value, reading) = (VALUE_MODULUS, READING_MODULUS);
    let small = [1, value / 2, value - 2, value - 1, value, value + 1, 2 * value - 1];
    for distance in small.into_iter().chain([reading / 2, reading - value + 1, reading - 1]) {
        life.lived(Class::A, 1);
        let base = (quantities::reading(life.player.recorder.total) + reading - distance) % reading;
        life.say(format!("poke base {base}"));
        for pulses in [0, 1, 9, 10, MOST_32_BITS] {
            life.pulses(pulses);
            life.say("show");
        }
        let time = life.time() + 4_000;
        life.clock(time);
        life.say_all(&["show", "read 1", "read 2", "listing"]);
    }
    // Each class poked over another's store, with lengths of either.
    for class in Class::ALL {
        for poked in 0..=Class::ALL.len() {
            life.lived(class, 2);
            life.say(format!("poke class {poked}"));
            life.lend(class.store_length());
            every_call(&mut life);
            life.say_all(&["lend", "show", "access", "count 5", "reverse"]);
            let today = life.today();
            life.day(today);
        }
        life.say("lend");
    }
    life.finish("hostile pokes")
}

fn poke_and_try(life: &mut Life, poke: &str) {
    life.say(poke);
    life.say_all(&["show", "read 2", "read 0", "listing"]);
    let time = life.time();
    let times = [
        time.saturating_sub(1),
        time,
        time.saturating_add(1),
        time.saturating_add(5_000),
        time.saturating_add(100_000),
    ];
    life.say("count 77");
    for time in times {
        life.say(format!("clock @{time}"));
    }
    for _ in 0..3 {
        life.random_adjust();
    }
    life.pulses(3);
    life.say_all(&[
        "show", "reset", "meter 9", "access", "reverse", "rate 4", "ppp b7Y", "show", "off", "off", "read 1",
    ]);
    life.say(format!("on @{}", times[4] + 90_000));
    life.say_all(&["on @5", "show", "read 3", "listing"]);
    let today = life.today().min(DAYS);
    life.day(today);
}

/// Elements of the store poked, then read and lived on.
pub fn stores(seed: u64) -> Script {
    let mut life = Life::new(seed);
    let held = Class::A.days() as u64;
    let last = HALF_HOURS as u64 - 1;
    for round in 0..160 {
        if round % 4 == 0 {
            let days = life.random.between(1, held + 2);
            life.lived(Class::A, days);
        }
        let back = life.random.below(life.player.recorder.days.min(4));
        let room = Class::A.room(life.today() - back);
        let half_hour = life.random.below(last + 1);
        let ended = calendar::ended(life.time(), life.today()) as u64;
        let half_hour = *life.random.pick(&[half_hour, ended.saturating_sub(1), ended.min(last), last, 0]);
        let value =
            *life.random.pick(&[0, 1, VALUE_MODULUS / 2, VALUE_MODULUS - 1, VALUE_MODULUS, u64::from(u16::MAX)]);
        let start = *life.random.pick(&[0, 1, READING_MODULUS - 1, READING_MODULUS, MOST_32_BITS]);
        let first_mark = MARKS_MODULUS / 2;
        let words = [0, 1, first_mark - 1, first_mark, MARKS_MODULUS - 1, MARKS_MODULUS, MOST_NUMBER];
        let word = *life.random.pick(&words);
        let low_bits = DEMAND_RESET - 1;
        let right = [DEMAND_RESET, METER_CHANGED, POWER_LOST, FLAGS];
        let past = [FLAGS | low_bits, 2 * POWER_LOST, FLAGS | 2 * POWER_LOST, MOST_NUMBER];
        let flags: Vec<u64> = [0, 1, DEMAND_RESET / 2, low_bits].into_iter().chain(right).chain(past).collect();
        let flags = *life.random.pick(&flags);
        let poke = match life.random.below(5) {
            0 => format!("poke value {} {value}", HALF_HOURS * room + half_hour as usize),
            1 => format!("poke start {room} {start}"),
            2 => format!("poke mark {} {word}", WORDS_PER_DAY * room),
            3 => format!("poke mark {} {word}", WORDS_PER_DAY * room + 1),
            _ => format!("poke mark {} {flags}", WORDS_PER_DAY * room + FLAGS_WORD),
        };
        life.say(poke);
        for asked in [0, 1, 2, 3, 4, 5, held] {
            life.say(format!("read {asked}"));
        }
        life.say_all(&["check", "listing"]);
        let day = life.today() - back;
        life.day(day);
        life.say_all(&["access", "reset", "meter 4", "reverse", "ppp c8X", "adjust -5"]);
        life.pulses(2);
        if life.random.once_in(2) {
            let time = life.time() + life.random.below(5_000);
            life.clock(time);
        } else {
            life.say("off");
            let time = life.time() + life.random.below(50_000);
            life.on(time);
        }
        life.day(day);
        life.say_all(&["show", &format!("read {held}"), "read 1", "listing"]);
    }
    life.finish("hostile stores")
}
