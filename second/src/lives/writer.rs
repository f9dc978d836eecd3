//! Given fields for the writer: built from nothing, in range, at its edges and past
//! them, each field in turn; outputs of every interesting length.

use super::{write_into, Life, Script, IDENTIFIER, MOST_32_BITS};
use crate::answer::DONE;
use crate::block::{
    self, bytes_for, Day, Header, DEMAND_RESET, FLAGS, FRAME_BYTES, HEADER_BYTES, LENGTH_BYTES, MARKS_MODULUS,
    MOST_BYTES, POWER_LOST, RATES,
};
use crate::calendar::{self, DAYS, HALF_HOURS, LAST_TIME, SECONDS_PER_DAY, SECONDS_PER_HALF_HOUR};
use crate::identifier;
use crate::listing;
use crate::quantities::{
    self, DEMAND_MODULUS, KWH_MODULUS, MOST_UNITS, READING_MODULUS, RESETS_MODULUS, VALUE_MODULUS,
};
use crate::recorder::MOST_ASKED;
use crate::script::MOST_NUMBER;

/// Numbers about one that runs round.
fn about(modulus: u64) -> [u64; 5] {
    [0, 1, modulus - 1, modulus, MOST_32_BITS]
}

/// The writer from fields built up, then spoiled one at a time.
pub fn given(seed: u64) -> Script {
    let mut life = Life::new(seed);
    let write = &write_into(MOST_BYTES);
    life.say_all(&[write, "write 0", "given days 1", write, "given days 0"]);
    for (at, byte) in IDENTIFIER.bytes().enumerate() {
        life.say(write_into(HEADER_BYTES));
        life.say(format!("given letter {at} {byte}"));
    }
    let headers = [HEADER_BYTES - 1, HEADER_BYTES, HEADER_BYTES + 1];
    for room in [0, 1, LENGTH_BYTES, FRAME_BYTES].into_iter().chain(headers).chain([MOST_BYTES]) {
        life.say(write_into(room));
    }
    life.say_all(&["block", "check", "listing", "given days 1"]);
    life.say_all(&[&write_into(bytes_for(1) - 1), &write_into(bytes_for(1)), "block", "listing"]);
    life.say_all(&["given days 2", write, "write 0"]);
    life.say(format!("given time {SECONDS_PER_DAY}"));
    life.say_all(&[write, "check", "given days 3", write]);
    life.say(format!("given time {LAST_TIME}"));
    let (listed, most, asked) = (listing::MOST_DAYS as u64, block::MOST_DAYS as u64, u64::from(MOST_ASKED));
    let numbers = [0, 1, listed, listed + 1, most - 1, most, most + 1, most + 2, asked, asked + 1];
    for days in numbers.into_iter().chain([65_536, MOST_32_BITS]) {
        life.say(format!("given days {days}"));
        life.say_all(&[write, &write_into(MOST_BYTES - 1), &write_into(HEADER_BYTES - 1), "check", "listing"]);
    }
    for _ in 0..3 {
        let number = life.random.between(1, 4);
        let (header, days) = random_fields(&mut life, number);
        give_all(&mut life, &header, &days);
        life.say_all(&[write, "check", "listing", "block", "keep 0", "fields", write, "check", "block"]);
        spoil_header(&mut life, &header);
        spoil_days(&mut life, &header, &days);
        outputs(&mut life, days.len());
    }
    life.finish("given fields")
}

/// Fields that the writer accepts, read in the day's last half-hour, which is filled and unmarked.
fn random_fields(life: &mut Life, number: u64) -> (Header, Vec<Day>) {
    let today = life.random.between(10, calendar::LAST_DAY);
    let time = (today + 1) * SECONDS_PER_DAY - life.random.between(1, SECONDS_PER_HALF_HOUR);
    let mut days = Vec::new();
    let mut start = life.random.below(READING_MODULUS);
    for _ in 0..number {
        let mut values = [0; HALF_HOURS];
        let mut reading = start;
        for value in &mut values {
            reading += *life.random.pick(&[0, 0, 1, MOST_UNITS, VALUE_MODULUS / 2, 130]);
            *value = quantities::value(reading);
        }
        let flags = life.random_flags();
        let reverse = life.random.below(MARKS_MODULUS / 2);
        let level2 = life.random.below(MARKS_MODULUS / 2) & life.random.bits();
        days.insert(0, Day { start: start as u32, flags, reverse, level2, values });
        start = reading % READING_MODULUS;
    }
    let newest = &mut days[0];
    newest.values[HALF_HOURS - 1] = newest.values[HALF_HOURS - 2];
    newest.reverse &= !1;
    newest.level2 &= !1;
    let mut registers = [0; RATES];
    for register in &mut registers {
        *register = *life.random.pick(&[0, KWH_MODULUS - 1, 123_456]);
    }
    let header = Header {
        identifier: IDENTIFIER.as_bytes().try_into().unwrap_or_default(),
        time,
        kwh: life.random.below(KWH_MODULUS),
        current: life.random.below(DEMAND_MODULUS),
        previous: life.random.below(DEMAND_MODULUS),
        cumulative: life.random.below(DEMAND_MODULUS),
        reset: life.random.between(1, DAYS),
        resets: life.random.below(RESETS_MODULUS),
        registers,
        days: number,
    };
    (header, days)
}

fn give_header(life: &mut Life, header: &Header) {
    for (name, number) in [
        ("time", header.time),
        ("kwh", header.kwh),
        ("current", header.current),
        ("previous", header.previous),
        ("summed", header.cumulative),
        ("reset", header.reset),
        ("resets", header.resets),
        ("days", header.days),
    ] {
        life.say(format!("given {name} {number}"));
    }
    for (register, rate) in header.registers.iter().zip(1..) {
        life.say(format!("given register {rate} {register}"));
    }
}

fn give_day(life: &mut Life, index: usize, day: &Day) {
    life.say(format!("given start {index} {}", day.start));
    life.say(format!("given flags {index} {}", day.flags));
    life.say(format!("given reversed {index} {}", day.reverse));
    life.say(format!("given level2 {index} {}", day.level2));
    for (half_hour, value) in day.values.iter().enumerate() {
        life.say(format!("given value {index} {half_hour} {value}"));
    }
}

fn give_all(life: &mut Life, header: &Header, days: &[Day]) {
    give_header(life, header);
    for (index, day) in days.iter().enumerate() {
        give_day(life, index, day);
    }
}

fn write(life: &mut Life) {
    if life.say(write_into(MOST_BYTES)).starts_with(&format!("{DONE} ")) {
        life.say_all(&["check", "listing"]);
    }
    life.say(write_into(HEADER_BYTES - 1));
}

fn spoil_header(life: &mut Life, header: &Header) {
    for (name, right, modulus) in [
        ("kwh", header.kwh, KWH_MODULUS),
        ("current", header.current, DEMAND_MODULUS),
        ("previous", header.previous, DEMAND_MODULUS),
        ("summed", header.cumulative, DEMAND_MODULUS),
    ] {
        for number in about(modulus) {
            life.say(format!("given {name} {number}"));
            write(life);
        }
        life.say(format!("given {name} {right}"));
    }
    for (right, rate) in header.registers.iter().zip(1..) {
        for number in about(KWH_MODULUS) {
            life.say(format!("given register {rate} {number}"));
            write(life);
        }
        life.say(format!("given register {rate} {right}"));
    }
    for reset in [0, 1, DAYS, DAYS + 1, 60, MOST_32_BITS] {
        for resets in about(RESETS_MODULUS) {
            life.say(format!("given reset {reset}"));
            life.say(format!("given resets {resets}"));
            write(life);
        }
    }
    for at in 0..identifier::LENGTH {
        for byte in [b'A', b'Z', b'0', b'9', b'a', b'@', b'[', b'/', b':', b' ', 0, 127, 128, 255] {
            life.say(format!("given letter {at} {byte}"));
            life.say_all(&[&write_into(MOST_BYTES), &write_into(HEADER_BYTES - 1)]);
        }
        life.say(format!("given letter {at} {}", header.identifier[at]));
    }
    let midnight = header.time - header.time % SECONDS_PER_DAY;
    let times = [
        0,
        1,
        SECONDS_PER_DAY,
        2 * SECONDS_PER_DAY,
        midnight,
        midnight + SECONDS_PER_HALF_HOUR - 1,
        midnight + SECONDS_PER_HALF_HOUR,
        midnight + 40_000,
        LAST_TIME,
        LAST_TIME + 1,
        MOST_32_BITS + 1,
        MOST_NUMBER,
    ];
    for time in times {
        life.say(format!("given time {time}"));
        write(life);
        life.say_all(&["fields", &write_into(MOST_BYTES)]);
        give_header(life, header);
        life.say("take 0");
        life.say("fields");
    }
}

fn spoil_days(life: &mut Life, header: &Header, days: &[Day]) {
    for (index, day) in days.iter().enumerate() {
        for half_hour in 0..HALF_HOURS {
            let other = u64::from(day.values[half_hour]);
            let next = (other + 1) % VALUE_MODULUS;
            let before = (other + VALUE_MODULUS - 1) % VALUE_MODULUS;
            for value in [VALUE_MODULUS, u64::from(u16::MAX), next, before, 0, VALUE_MODULUS - 1] {
                life.say(format!("given value {index} {half_hour} {value}"));
                write(life);
            }
            life.say(format!("given value {index} {half_hour} {other}"));
        }
        let right = u64::from(day.start);
        for start in [0, right ^ 1, right + VALUE_MODULUS, READING_MODULUS - 1, READING_MODULUS, MOST_32_BITS] {
            life.say(format!("given start {index} {start}"));
            write(life);
        }
        life.say(format!("given start {index} {right}"));
        for bit in (0..9).chain([15, 31, 32, 58]) {
            life.say(format!("given flags {index} {}", 1_u64 << bit));
            write(life);
        }
        for flags in [0, FLAGS, FLAGS | 2 * POWER_LOST, FLAGS | (DEMAND_RESET - 1), MOST_NUMBER] {
            life.say(format!("given flags {index} {flags}"));
            write(life);
        }
        life.say(format!("given flags {index} {}", day.flags));
        for (name, right) in [("reversed", day.reverse), ("level2", day.level2)] {
            for bit in [0, 1, HALF_HOURS - 2, HALF_HOURS - 1, HALF_HOURS, HALF_HOURS + 1, 58] {
                life.say(format!("given {name} {index} {}", 1_u64 << bit));
                write(life);
            }
            for marks in [MARKS_MODULUS / 2 - 1, MARKS_MODULUS - 1, MOST_NUMBER] {
                life.say(format!("given {name} {index} {marks}"));
                write(life);
            }
            life.say(format!("given {name} {index} {right}"));
        }
    }
    for number in [0, 1, header.days.saturating_sub(1), header.days] {
        life.say(format!("given days {number}"));
        write(life);
    }
}

fn outputs(life: &mut Life, days: usize) {
    for number in 0..=days {
        life.say(format!("given days {number}"));
        let needed = bytes_for(number);
        for room in [0, 1, HEADER_BYTES - 1, needed - 1, needed, needed + 1, MOST_BYTES] {
            life.say(write_into(room));
        }
        life.say("block");
    }
}
