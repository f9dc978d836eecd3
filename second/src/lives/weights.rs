//! Pulse weights of any thousandths of a watt-hour: the most that a half-hour takes of each, what stays under a unit
//! and under a kWh, run-rounds of counter, total and registers, and the limits of weight, total and registers.

use super::{Life, Script, FULL_HALF_HOUR, IDENTIFIER, LATEST_START, MOST_32_BITS, WATT_HOUR};
use crate::block::{bytes_for, HEADER_BYTES, RATES};
use crate::calendar::{write_digits, HALF_HOURS, LAST_TIME, SECONDS_PER_DAY, SECONDS_PER_HALF_HOUR};
use crate::quantities::{
    self, LEAST_WEIGHT, MOST_UNITS, MOST_WEIGHT, THOUSANDTHS_PER_KWH, THOUSANDTHS_PER_UNIT, TOTAL_MODULUS,
};
use crate::recorder::{Class, MOST_ASKED};
use crate::script::{MOST_DIGITS, MOST_NUMBER};

const UNIT: u64 = THOUSANDTHS_PER_UNIT;

/// At the limits, about a watt-hour and about a unit, and between them; 1,250 is a meter's of 800 pulses a kWh.
pub const WEIGHTS: [u64; 15] = [
    LEAST_WEIGHT,
    2,
    3,
    333,
    WATT_HOUR - 1,
    WATT_HOUR,
    WATT_HOUR + 1,
    1_250,
    2_500,
    UNIT - 1,
    UNIT,
    UNIT + 1,
    33_333,
    MOST_WEIGHT - 1,
    MOST_WEIGHT,
];

/// Start totals about a unit and about the run-round.
const TOTALS: [u64; 5] = [0, UNIT - 1, UNIT, TOTAL_MODULUS - 1, TOTAL_MODULUS - UNIT];

/// Each weight with each start total: half-hours that each end at a limit of their own, read out and filed.
pub fn crossed(seed: u64) -> Script {
    let mut life = Life::new(seed);
    for weight in WEIGHTS {
        for total in TOTALS {
            begin(&mut life, weight, total);
            let first = life.today();
            fill(&mut life);
            fill_under_rates(&mut life);
            read_and_keep(&mut life, 0);
            next_unit(&mut life);
            next_kwh(&mut life);
            outage(&mut life);
            fill(&mut life);
            read_and_keep(&mut life, 1);
            file(&mut life, first);
        }
    }
    life.finish("weights crossed with totals")
}

/// Somewhere in the calendar, with a counter that runs round in the first half-hour if that is filled.
fn begin(life: &mut Life, weight: u64, total: u64) {
    let time = life.random.below(LATEST_START * SECONDS_PER_DAY);
    let counter = u32::MAX - life.random.below(least_refused(weight, total) - 1) as u32;
    life.set_up(Class::A, weight, time, total, counter);
}

/// The fewest pulses that a half-hour refuses, if it begins with this total.
fn least_refused(weight: u64, total: u64) -> u64 {
    (FULL_HALF_HOUR - total % UNIT).div_ceil(weight)
}

/// The fewest pulses that reach the next multiple of so many thousandths.
fn pulses_to_next(life: &Life, multiple: u64) -> u64 {
    let recorder = &life.player.recorder;
    (multiple - recorder.total % multiple).div_ceil(recorder.weight)
}

/// The running half-hour ends.
fn close(life: &mut Life) {
    let time = (life.time() / SECONDS_PER_HALF_HOUR + 1) * SECONDS_PER_HALF_HOUR;
    life.clock(time);
    life.say("show");
}

/// A half-hour that has just begun is offered one pulse too many and far more, takes its most, and is offered one more.
fn fill(life: &mut Life) {
    let recorder = life.player.recorder;
    let refused = least_refused(recorder.weight, recorder.total);
    life.pulses(refused);
    // Just past 32 bits of thousandths, once round the total, and the largest Count.
    let reaching = |thousandths: u64| thousandths.div_ceil(recorder.weight).min(MOST_32_BITS);
    for pulses in [reaching(MOST_32_BITS + 1), reaching(TOTAL_MODULUS), MOST_32_BITS] {
        life.pulses(pulses);
    }
    life.say("show");
    life.pulses(refused - 1);
    life.say("show");
    life.pulses(1);
    life.pulses(0);
    close(life);
}

/// A half-hour's most, under one rate after the other.
fn fill_under_rates(life: &mut Life) {
    let recorder = life.player.recorder;
    let most = least_refused(recorder.weight, recorder.total) - 1;
    let (first, second) = (life.random.below(most / 2 + 1), life.random.below(most / 2 + 1));
    for (rate, pulses) in [(2, first), (5, second), (RATES, most - first - second)] {
        life.say(format!("rate {rate}"));
        life.pulses(pulses);
    }
    life.pulses(1);
    close(life);
}

/// A half-hour that ends a pulse before the next unit, and one that takes that pulse.
fn next_unit(life: &mut Life) {
    let under = pulses_to_next(life, UNIT) - 1;
    life.pulses(under);
    close(life);
    life.pulses(1);
    close(life);
}

/// The kWh registers, of the total and of a rate not used before, a pulse before they step and with that pulse.
fn next_kwh(life: &mut Life) {
    let to_next = pulses_to_next(life, THOUSANDTHS_PER_KWH);
    reach(life, to_next);
    life.say("rate 7");
    let to_first = THOUSANDTHS_PER_KWH.div_ceil(life.player.recorder.weight);
    reach(life, to_first);
    close(life);
}

/// So many pulses, with the header seen before and after the last of them.
fn reach(life: &mut Life, pulses: u64) {
    for pulses in [pulses - 1, 1] {
        life.pulses(pulses);
        life.say_all(&["read 0", "block"]);
    }
}

/// Power lost within a half-hour, and restored in it, in the next or on the next day; then a Reset.
fn outage(life: &mut Life) {
    let pulses = life.random.below(life.pulses_left() / 2 + 1);
    life.pulses(pulses);
    life.say("off");
    life.pulses(1);
    let time = life.time() + *life.random.pick(&[0, 1, SECONDS_PER_HALF_HOUR, SECONDS_PER_DAY]);
    life.on(time);
    life.pulses(1);
    life.say("reset");
    close(life);
}

fn read_and_keep(life: &mut Life, place: usize) {
    life.say_all(&["read 3", "check", "block", "listing", &format!("keep {place}")]);
}

/// A ledger of three days takes the two blocks kept.
fn file(life: &mut Life, first: u64) {
    let word = life.day_word(first);
    life.say(format!("open {IDENTIFIER} {word} 3"));
    life.say_all(&["deliver 0", "deliver 1", "deliver 0"]);
    for day in first..first + 3 {
        life.summary_and_missing(day);
    }
    life.say("ledger");
}

/// Few pulses a half-hour for more than a day: what stays under a unit goes over every boundary, and comes into a
/// value later. Weights drawn at random stand beside the chosen ones.
pub fn remainders(seed: u64) -> Script {
    let mut life = Life::new(seed);
    let drawn: Vec<u64> = WEIGHTS.iter().map(|_| life.random_weight()).collect();
    for weight in WEIGHTS.into_iter().chain(drawn) {
        let total = life.random.below(TOTAL_MODULUS);
        begin(&mut life, weight, total);
        let first = life.today();
        for half_hour in 0..HALF_HOURS + 4 {
            let pulses = life.random.below(3 * UNIT / weight + 3);
            life.pulses(pulses);
            match half_hour % 12 {
                3 => life.say_all(&["rate 4", "access"]),
                7 => life.say_all(&["off", "show"]),
                11 => read_and_keep(&mut life, 0),
                _ => {}
            }
            let time = life.time() + SECONDS_PER_HALF_HOUR;
            if life.player.recorder.power {
                life.clock(time);
            } else {
                life.on(time);
            }
        }
        life.say("show");
        read_and_keep(&mut life, 1);
        file(&mut life, first);
    }
    beside(&mut life);
    life.finish("remainders of weights")
}

/// Outstations that start less than a unit or just a unit apart and count the same: the ledger of one takes the
/// other's block as long as the readings are the same.
fn beside(life: &mut Life) {
    for weight in WEIGHTS {
        for more in [0, 1, UNIT - 1, UNIT] {
            let first = life.random.below(LATEST_START);
            let total = UNIT * life.random.below(TOTAL_MODULUS / UNIT - 1);
            for (place, total) in [total, total + more].into_iter().enumerate() {
                life.set_up(Class::A, weight, first * SECONDS_PER_DAY, total, 0);
                for pulses in [0, UNIT.div_ceil(weight) - 1, 1] {
                    life.pulses(pulses);
                    close(life);
                }
                life.say_all(&["read 1", &format!("keep {place}")]);
            }
            file(life, first);
        }
    }
}

/// Weights, totals and registers on either side of their limits: at set-up, poked, and where they run round.
pub fn limits(seed: u64) -> Script {
    let mut life = Life::new(seed);
    set_ups(&mut life);
    for weight in [LEAST_WEIGHT - 1, LEAST_WEIGHT, MOST_WEIGHT, MOST_WEIGHT + 1, MOST_32_BITS] {
        poke(&mut life, &format!("weight {weight}"));
    }
    let about_the_round = [TOTAL_MODULUS - 1, TOTAL_MODULUS, MOST_NUMBER];
    for total in about_the_round {
        poke(&mut life, &format!("total {total}"));
    }
    for rate in 1..=RATES {
        for register in about_the_round {
            poke(&mut life, &format!("register {rate} {register}"));
        }
    }
    for weight in WEIGHTS {
        run_rounds(&mut life, weight);
        poked_units(&mut life, weight);
    }
    life.finish("limits of weights")
}

fn set_ups(life: &mut Life) {
    // Where the limits would be if weight and total were whole watt-hours.
    let (weight, total) = (MOST_WEIGHT / WATT_HOUR, TOTAL_MODULUS / WATT_HOUR);
    let weights = [LEAST_WEIGHT - 1, LEAST_WEIGHT, weight, weight + 1, MOST_WEIGHT, MOST_WEIGHT + 1, MOST_32_BITS];
    let (past_32_bits, round) = (MOST_32_BITS + 1, TOTAL_MODULUS);
    let totals = [0, total - 1, total, MOST_32_BITS, past_32_bits, round - 1, round, round + 1, MOST_NUMBER];
    for weight in weights {
        for total in totals {
            let time = life.random.below(LATEST_START * SECONDS_PER_DAY);
            life.set_up(Class::A, weight, time, total, u32::MAX);
            life.say("show");
            life.pulses(1);
            close(life);
            life.say_all(&["read 1", "listing"]);
            // 6 before 4.
            life.say("lend 0 0 0");
            life.set_up(Class::A, weight, time, total, u32::MAX);
            life.say("lend");
        }
    }
    // Zeros in front, of as many digits as a number may have.
    let (weight, total) = (write_digits(1_250, MOST_DIGITS), write_digits(TOTAL_MODULUS - 1_250, MOST_DIGITS));
    life.say(format!("setup {IDENTIFIER} a p {weight} @0 {total} 0"));
    life.say_all(&["show", "count 1", "show"]);
}

/// A field poked, then every call: right, and with a fault of its own that comes before or after the field's.
fn poke(life: &mut Life, field: &str) {
    let (weight, total) = (life.random_weight(), life.random.below(TOTAL_MODULUS));
    begin(life, weight, total);
    let rate = life.random.between(1, RATES as u64);
    life.say(format!("rate {rate}"));
    life.say(format!("poke {field}"));
    life.say("show");
    every_call(life);
    life.say("show");
    life.say("lend 0 0 0");
    every_call(life);
    life.say_all(&["lend", "read 2", "block"]);
}

fn every_call(life: &mut Life) {
    let now = life.time();
    life.pulses(1);
    life.pulses(MOST_32_BITS);
    for time in [now.saturating_sub(1), now, LAST_TIME + 1] {
        life.say(format!("clock @{time}"));
    }
    life.say_all(&[
        "access", "reverse", "meter 5", "reset", "rate 0", "rate 6", "ppp d4W", "read 1", "read 1 0", "off",
    ]);
    life.say_all(&[&format!("read {}", MOST_ASKED + 1), &format!("read 0 {HEADER_BYTES}")]);
    life.pulses(1);
    life.say(format!("on @{}", LAST_TIME + 1));
    life.say(format!("on @{now}"));
    life.say_all(&[&format!("read {}", MOST_ASKED + 1), &format!("read 1 {}", bytes_for(1))]);
    life.pulses(1);
}

/// A pulse that brings total and register just under the run-round, to it and just past it.
fn run_rounds(life: &mut Life, weight: u64) {
    for total in [TOTAL_MODULUS - weight - 1, TOTAL_MODULUS - weight, TOTAL_MODULUS - weight + 1] {
        begin(life, weight, total);
        life.say(format!("poke register 1 {total}"));
        life.pulses(1);
        life.say_all(&["show", "read 0", "block"]);
        close(life);
    }
}

/// Totals poked about the last thousandth that a half-hour takes: no part of a unit counts.
fn poked_units(life: &mut Life, weight: u64) {
    let total = life.random.below(TOTAL_MODULUS);
    begin(life, weight, total);
    let last = (quantities::reading(total) + MOST_UNITS) * UNIT + UNIT - 1;
    for total in [last - UNIT, last - weight, last - weight + 1, last, last + 1] {
        for pulses in [0, 1] {
            life.say(format!("poke total {}", total % TOTAL_MODULUS));
            life.pulses(pulses);
            life.say("show");
        }
    }
    close(life);
}
