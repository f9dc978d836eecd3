//! Lives at every boundary: of half-hours, days and years, of units, totals, counters,
//! demands and counts, and of a class's days.

use super::{write_into, Life, Script, FULL_HALF_HOUR, IDENTIFIER, LATEST_START, UNIT_A_PULSE, WATT_HOUR};
use crate::block::{bytes_for, MOST_BYTES, RATES};
use crate::calendar::{self, HALF_HOURS, SECONDS_PER_DAY, SECONDS_PER_HALF_HOUR};
use crate::quantities::{
    DEMAND_MODULUS, LEAST_WEIGHT, MOST_UNITS, MOST_WEIGHT, RESETS_MODULUS, THOUSANDTHS_PER_KWH, THOUSANDTHS_PER_UNIT,
    TOTAL_MODULUS,
};
use crate::recorder::{Class, MOST_ASKED};
use crate::script::KEPT_BLOCKS;

/// A total at half a unit below the run-round.
const LATE_TOTAL: u64 = TOTAL_MODULUS - THOUSANDTHS_PER_UNIT / 2;

fn instant(text: &str) -> u64 {
    calendar::read_time(text.as_bytes()).unwrap_or(0)
}

/// Shows all that can be seen of a recorder.
pub fn look(life: &mut Life) {
    life.say("show");
    let today = life.today();
    life.day(today);
    if today > 0 {
        life.day(today - 1);
    }
    life.say_all(&["read 2", "check", "listing", "block"]);
}

/// The second before a boundary, the boundary and the second after it, by Clock and by On.
pub fn instants(seed: u64) -> Script {
    let mut life = Life::new(seed);
    let boundaries = [
        "000101003000",
        "000101233000",
        "000102000000",
        "000229000000",
        "000301000000",
        "010101000000",
        "040228000000",
        "040229000000",
        "040301000000",
        "230228233000",
        "230301000000",
        "240229003000",
        "240229233000",
        "240301000000",
        "480229120000",
        "500701000000",
        "960301000000",
        "991231000000",
        "991231233000",
    ];
    for boundary in boundaries.map(instant) {
        for before in [1, 2, SECONDS_PER_HALF_HOUR, SECONDS_PER_HALF_HOUR - 1, SECONDS_PER_DAY + 5] {
            let Some(start) = boundary.checked_sub(before) else { continue };
            let total = life.random.below(TOTAL_MODULUS);
            life.set_up(Class::A, UNIT_A_PULSE, start, total, 0);
            for time in [boundary - 1, boundary, boundary + 1] {
                let pulses = life.random.below(500);
                life.pulses(pulses);
                let mark = *life.random.pick(&["access", "reverse", "reset", "meter 5", "rate 2", "ppp xY9"]);
                life.say(mark);
                if life.random.once_in(2) {
                    life.clock(time);
                } else {
                    life.say("off");
                    life.on(time);
                }
                look(&mut life);
            }
        }
    }
    // Power lost at 23:50 on the 1st, restored at 00:10 on the 3rd: three days flagged.
    life.set_up(Class::A, UNIT_A_PULSE, instant("240301120000"), 0, 0);
    life.say_all(&[
        "clock 240301 235000",
        "off",
        "on 240303 001000",
        "read 3",
        "block",
        "listing",
        "day 240301",
        "day 240302",
        "day 240303",
    ]);
    // Clock to the same second, and one earlier.
    life.say_all(&["clock 240303 001000", "clock 240303 000959", "show"]);
    // The first two half-hours of the listing example, and its ledger in either order.
    life.say_all(&[
        "setup ABCX24000017 a p 10000 240229 000000 4711000000 0",
        "count 50",
        "clock 240229 003000",
        "count 130",
        "clock 240229 011000",
        "read 1",
        "listing",
        "keep 0",
        "clock 240229 020500",
        "read 1",
        "keep 1",
        "listing",
        "open ABCX24000017 240229 1",
        "deliver 0",
        "deliver 1",
        "summary 240229",
        "missing 240229",
        "ledger",
        "open ABCX24000017 240229 1",
        "deliver 1",
        "deliver 0",
        "summary 240229",
        "missing 240229",
        "ledger",
    ]);
    life.finish("boundary instants")
}

/// Exactly the most units and one more, with remainders under a unit and several weights.
pub fn units(seed: u64) -> Script {
    let mut life = Life::new(seed);
    let start = instant("240229110000");
    let unit = THOUSANDTHS_PER_UNIT;
    let totals = [
        0,
        1,
        WATT_HOUR,
        unit / 2,
        unit - 1,
        unit,
        MOST_UNITS * unit,
        LATE_TOTAL,
        TOTAL_MODULUS - unit,
        TOTAL_MODULUS - 1,
        TOTAL_MODULUS - FULL_HALF_HOUR + 1,
        123_456_789_012,
    ];
    let whole = [1, 2, 3, 7, 11, 50].map(|watt_hours| watt_hours * WATT_HOUR);
    for weight in whole.into_iter().chain([LEAST_WEIGHT, unit, MOST_WEIGHT - 1, MOST_WEIGHT]) {
        for total in totals {
            for counter in [0, u32::MAX - 5, u32::MAX / 2] {
                life.set_up(Class::A, weight, start, total, counter);
                let left = life.pulses_left();
                life.pulses(left + 1);
                life.say("show");
                life.pulses(left);
                life.pulses(1);
                life.pulses(0);
                life.say_all(&["show", "clock 240229 113000", "show"]);
                let left = life.pulses_left();
                let part = life.random.below(left + 1);
                life.pulses(part);
                life.pulses(left + 1 - part);
                life.pulses(left - part);
                life.say_all(&["show", "clock 240229 120000", "read 1", "listing", "day 240229"]);
            }
        }
    }
    for line in ["setup ABCX24000017 a p 10000 240229 110000 0 4294967290", "count 5", "show", "count 5", "show"] {
        life.say(line);
    }
    for (total, weight, pulses) in [
        (0, unit, MOST_UNITS),
        (0, unit, MOST_UNITS + 1),
        (9 * WATT_HOUR, WATT_HOUR, 99_990),
        (9 * WATT_HOUR, WATT_HOUR, 99_991),
        (unit - 1, 1, MOST_UNITS * unit),
        (unit - 1, 1, MOST_UNITS * unit + 1),
        (0, 1, FULL_HALF_HOUR - 1),
        (0, 1, FULL_HALF_HOUR),
    ] {
        life.set_up(Class::A, weight, start, total, 0);
        life.pulses(pulses);
        life.say("show");
    }
    life.finish("boundary units")
}

/// Totals, registers, counters, demands and the reset count run round.
pub fn run_rounds(seed: u64) -> Script {
    let mut life = Life::new(seed);
    // Every half-hour at its most: its demand reset, and summed past the run-round.
    life.set_up(Class::A, UNIT_A_PULSE, instant("071231000000"), LATE_TOTAL, 4_294_900_000);
    for half_hour in 0..120 {
        let left = life.pulses_left();
        life.pulses(left);
        if half_hour % 7 == 3 {
            let rate = life.random.between(1, RATES as u64);
            life.say(format!("rate {rate}"));
        }
        let time = life.time() + SECONDS_PER_HALF_HOUR;
        life.clock(time);
        life.say_all(&["reset", "show"]);
    }
    life.say_all(&["read 3", "check", "listing", "block"]);
    // Registers about their run-round.
    let below = [1, WATT_HOUR, THOUSANDTHS_PER_UNIT, THOUSANDTHS_PER_KWH, TOTAL_MODULUS];
    for rate in 1..=RATES {
        life.say(format!("rate {rate}"));
        for register in below.map(|below| TOTAL_MODULUS - below) {
            life.say(format!("poke register {rate} {register}"));
            for pulses in [0, 1, 5, 100] {
                life.pulses(pulses);
                life.say_all(&["show", "read 0", "block"]);
            }
        }
        let time = life.time() + SECONDS_PER_HALF_HOUR;
        life.clock(time);
    }
    // Demands and the count at their ends.
    let (demand, count) = (DEMAND_MODULUS, RESETS_MODULUS);
    for (cumulative, current, resets) in [
        (demand - 1, 2, count - 1),
        (demand - 1, demand - 1, count - 1),
        (0, 0, 0),
        (demand - 2, 1, count - 2),
        (demand / 2, demand / 2, count / 2),
    ] {
        life.say(format!("poke summed {cumulative}"));
        life.say(format!("poke current {current}"));
        life.say(format!("poke resets {resets}"));
        life.say_all(&["reset", "show", "read 1", "block"]);
    }
    // Small advances round a value and a reading.
    let unit = THOUSANDTHS_PER_UNIT;
    for total in [LATE_TOTAL, FULL_HALF_HOUR - unit * 3 / 2, TOTAL_MODULUS - THOUSANDTHS_PER_KWH, 9 * unit] {
        life.set_up(Class::A, UNIT_A_PULSE, instant("240228230000"), total, u32::MAX);
        for _ in 0..60 {
            let pulses = life.random.below(30);
            life.pulses(pulses);
            let time = life.time() + life.random.between(300, 2_400);
            life.clock(time);
        }
        life.say_all(&["show", "read 3", "check", "listing", "fields", &write_into(MOST_BYTES), "block"]);
    }
    life.finish("boundary run-rounds")
}

/// Days of a class full and overrun, by days one at a time and by outages longer than the ring.
pub fn rings(seed: u64) -> Script {
    let mut life = Life::new(seed);
    let [a, b, c, d] = Class::ALL.map(|class| class.days() as u64);
    let first = life.random.between(0, 30_000);
    life.set_up(Class::A, UNIT_A_PULSE, first * SECONDS_PER_DAY + 7_000, 5_000 * THOUSANDTHS_PER_KWH, 0);
    for day in 0..2 * a + 5 {
        for _ in 0..3 {
            let pulses = life.random.below(3_000);
            life.pulses(pulses);
            let mark = *life.random.pick(&["access", "reverse", "reset", "ppp Qr0", "adjust -30", "#", "#"]);
            life.say(mark);
            let time = life.time() + life.random.below(20_000);
            life.clock(time);
        }
        if day >= a - 3 {
            for asked in [1, a - 2, a - 1, a, a + 1, u64::from(MOST_ASKED)] {
                life.say(format!("read {asked}"));
            }
            life.say_all(&["check", "listing", "show"]);
            life.say(format!("keep {}", day % KEPT_BLOCKS as u64));
        }
        let time = (first + day + 1) * SECONDS_PER_DAY + life.random.below(9_000);
        life.clock(time);
    }
    let days = 2 * a + 10;
    for day in first + a..first + days {
        life.day(day);
    }
    let window = life.day_word(first);
    life.say(format!("open {IDENTIFIER} {window} {days}"));
    for kept in (0..KEPT_BLOCKS).rev() {
        life.say(format!("deliver {kept}"));
    }
    for day in first..first + days {
        life.summary_and_missing(day);
    }
    for (class, days) in [
        (Class::A, a - 1),
        (Class::A, a),
        (Class::A, a + 1),
        (Class::A, a + 5),
        (Class::A, 3 * a + 1),
        (Class::B, b - 1),
        (Class::B, b + 1),
        (Class::B, 2 * b + 30),
        (Class::C, c + 10),
        (Class::D, d - 1),
        (Class::D, d + 10),
    ] {
        for by_on in [false, true] {
            life.lived(class, 3);
            life.say_all(&["access", "reverse", "show"]);
            let time = life.time() + days * SECONDS_PER_DAY;
            if by_on {
                life.say("off");
                life.on(time);
            } else {
                life.clock(time);
            }
            life.say("show");
            for back in 0..(days + 4).min(a + 5) {
                let day = life.today().saturating_sub(back);
                life.day(day);
            }
            let oldest = life.today() + 1 - life.player.recorder.days;
            life.day(oldest);
            life.say_all(&[&format!("read {MOST_ASKED}"), "check", "listing", &format!("read {a}"), "listing"]);
        }
    }
    life.finish("boundary rings")
}

/// Set-up and a read at the same second in each half-hour of a day.
pub fn starts(seed: u64) -> Script {
    let mut life = Life::new(seed);
    for half_hour in 0..HALF_HOURS as u64 {
        for offset in [0, 1, SECONDS_PER_HALF_HOUR - 1] {
            let day = life.random.below(LATEST_START);
            let time = day * SECONDS_PER_DAY + half_hour * SECONDS_PER_HALF_HOUR + offset;
            let total = life.random.below(TOTAL_MODULUS);
            let class = *life.random.pick(&Class::ALL);
            life.set_up(class, UNIT_A_PULSE, time, total, 9);
            life.say_all(&["show", "read 1", "check", "listing", "fields", &write_into(bytes_for(1)), "keep 0"]);
            life.day(day);
            life.say_all(&["count 20", "access"]);
            life.clock(time + SECONDS_PER_HALF_HOUR);
            life.say_all(&["reverse", "read 1", "check", "listing"]);
            life.clock(time + 2 * SECONDS_PER_HALF_HOUR);
            life.say_all(&["read 2", "listing", "fields", &write_into(bytes_for(2)), "block"]);
            let word = life.day_word(day);
            life.say(format!("open {IDENTIFIER} {word} 1"));
            life.say_all(&["file", "deliver 0", "ledger"]);
            life.say(format!("open {IDENTIFIER} {word} 1"));
            life.say_all(&["deliver 0", "file", "ledger"]);
            life.summary_and_missing(day);
        }
    }
    life.finish("boundary starts")
}
