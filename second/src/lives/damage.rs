//! Damaged blocks and ledgers: each byte position changed, lengths cut and grown, and
//! blocks of other meters.

use super::{write_into, Life, Script, IDENTIFIER, MOST_32_BITS, OTHER_METER};
use crate::block::{self, AT_NUMBER, AT_RESET, AT_TIME, FRAME_BYTES, LENGTH_BYTES, NUMBER_DIGITS};
use crate::calendar::{write_date, DATE_DIGITS, DAYS, HALF_HOURS, LAST_DAY, SECONDS_PER_DAY};
use crate::ledger::{self, AT_DAYS, AT_FIRST, DAY_FLAGS, DAY_REVERSE, DAY_START, DAY_VALUES, VALUE_BYTES};
use crate::listing;
use crate::quantities::{modulus, READING_MODULUS, VALUE_MODULUS};
use crate::recorder::Class;

/// Each byte of a one-day and of a two-day block changed, several ways.
pub fn blocks(seed: u64) -> Script {
    let mut life = Life::new(seed);
    life.lived(Class::A, 2);
    let time = life.today() * SECONDS_PER_DAY + SECONDS_PER_DAY + life.random.below(80_000);
    life.clock(time);
    life.say_all(&["reset", "read 1", "keep 0", "read 2", "keep 1"]);
    let first = life.day_word(life.today() - 1);
    for kept in [0, 1] {
        life.say(format!("take {kept}"));
        let block = life.player.block.clone();
        life.say(format!("open {IDENTIFIER} {first} 2"));
        life.say_all(&["file", "block", "listing"]);
        for (at, &byte) in block.iter().enumerate() {
            for other in other_bytes(&mut life, byte) {
                life.say(format!("take {kept}"));
                life.say(format!("byte {at} {other}"));
                life.say("check");
                match life.random.below(8) {
                    0 => life.say_all(&["listing", "file"]),
                    1 => life.say_all(&["fields"]),
                    2 => life.say_all(&["file"]),
                    _ => {}
                }
            }
        }
        // Two bytes at once: the first wrong field counts.
        for _ in 0..600 {
            life.say(format!("take {kept}"));
            for _ in 0..2 {
                let at = life.random.below(block.len() as u64);
                let byte = *life.random.pick(&[b'0', b'9', b'x', b'3', 0x20, 0xff]);
                life.say(format!("byte {at} {byte}"));
            }
            life.say_all(&["check", "listing", "file"]);
        }
    }
    reset_dates(&mut life);
    life.say("ledger");
    life.finish("damaged blocks")
}

/// For a digit all other digits and some that are none; for another byte its single bits and some.
fn other_bytes(life: &mut Life, byte: u8) -> Vec<u8> {
    let mut bytes = if byte.is_ascii_digit() {
        (b'0'..=b'9').chain([b'/', b':', b' ', b'A', b'a', 0, 0xff]).collect()
    } else {
        let mut bytes: Vec<u8> = (0..8).map(|bit| byte ^ (1 << bit)).collect();
        bytes.extend([b'0', b'A', b'Z', b'a', b'@', b'[', 0, 0xff]);
        bytes
    };
    bytes.push(life.random.bits() as u8);
    bytes.retain(|&other| other != byte);
    bytes
}

/// Fields of dates and times overwritten whole, real and unreal.
fn reset_dates(life: &mut Life) {
    let dates = [
        "000000", "000101", "000100", "000001", "000229", "230229", "240229", "240230", "991231", "991232", "991301",
        "240431", "240430",
    ];
    let days = [block::bytes_for(0), block::bytes_for(1), AT_TIME].map(|at| (at, ""));
    for (at, resets) in [(AT_RESET, "00"), (AT_RESET, "01"), (AT_RESET, "99")].into_iter().chain(days) {
        for date in dates {
            life.say("take 1");
            for (offset, byte) in date.bytes().chain(resets.bytes()).enumerate() {
                life.say(format!("byte {} {byte}", at + offset));
            }
            life.say_all(&["check", "file", "listing"]);
        }
    }
    for time in ["000000", "235959", "240000", "236000", "235960", "003000", "002959", "999999"] {
        life.say("take 1");
        for (offset, byte) in time.bytes().enumerate() {
            life.say(format!("byte {} {byte}", AT_TIME + DATE_DIGITS + offset));
        }
        life.say_all(&["check", "file", "listing", "fields", &write_into(block::MOST_BYTES)]);
    }
}

/// Lengths cut and grown, with and without length bytes and day number made to fit.
pub fn sizes(seed: u64) -> Script {
    let mut life = Life::new(seed);
    let (most, most_bytes) = (block::MOST_DAYS, block::MOST_BYTES);
    life.lived(Class::D, 3);
    life.say_all(&["read 3", "keep 0", "read 0", "keep 1"]);
    let first = life.day_word(life.today());
    life.say(format!("open {IDENTIFIER} {first} 1"));
    for kept in [0, 1] {
        life.say(format!("take {kept}"));
        let length = life.player.block.len();
        let longer = [length + block::DAY_BYTES, length + 2 * block::DAY_BYTES];
        let limits = [listing::MOST_BYTES, listing::MOST_BYTES + 1, most_bytes - 1, most_bytes];
        for size in (0..=length + 3).chain(longer).chain(limits) {
            life.say(format!("take {kept}"));
            life.say(format!("cut {size}"));
            life.say("check");
            if size >= FRAME_BYTES {
                fit_length(&mut life, size);
                life.say_all(&["check", "file", "listing"]);
            }
        }
    }
    for days in [0, 1, 2, 3, 4, 9, 99, most - 1, most, most + 1, modulus(NUMBER_DIGITS) as usize - 1] {
        for records in [0, 1, 2, 3, 4, most] {
            life.say("take 0");
            let size = block::bytes_for(records);
            life.say(format!("cut {size}"));
            fit_length(&mut life, size);
            for (offset, byte) in format!("{days:0NUMBER_DIGITS$}").bytes().enumerate() {
                life.say(format!("byte {} {byte}", AT_NUMBER + offset));
            }
            life.say_all(&["check", "listing", "file", "fields"]);
        }
    }
    // Length bytes that promise more than the most records, and other versions.
    let after = |days| block::bytes_for(days) - LENGTH_BYTES;
    let none = after(0);
    for length in [after(most + 1), after(most), after(most) + 1, u32::MAX as usize, 0, none - 1, none, none + 1] {
        life.say("take 0");
        give_length(&mut life, length);
        life.say_all(&["check", "file"]);
    }
    for version in 0..=255 {
        life.say("take 0");
        life.say(format!("byte {LENGTH_BYTES} {version}"));
        life.say("check");
    }
    // A true block of the most days, damaged here and there.
    let time = life.time() + (Class::D.days() as u64 + 10) * SECONDS_PER_DAY;
    life.clock(time);
    life.say_all(&["count 0", &format!("read {most}"), "check", "keep 2", "listing", "file", "fields"]);
    life.say_all(&[&write_into(most_bytes), &write_into(most_bytes - 1), "check"]);
    for _ in 0..40 {
        life.say("take 2");
        let at = life.random.below(life.player.block.len() as u64);
        let byte = *life.random.pick(&[b'0', b'1', b'/', 0xff, 0]);
        life.say(format!("byte {at} {byte}"));
        life.say_all(&["check", "file"]);
    }
    life.finish("damaged sizes")
}

pub fn fit_length(life: &mut Life, size: usize) {
    give_length(life, size - LENGTH_BYTES);
}

fn give_length(life: &mut Life, length: usize) {
    for (at, byte) in (length as u32).to_be_bytes().iter().enumerate() {
        life.say(format!("byte {at} {byte}"));
    }
}

/// Each byte of a small ledger changed, and its length.
pub fn ledgers(seed: u64) -> Script {
    let mut life = Life::new(seed);
    life.say_all(&["summary 000101", "missing 000101", "file", "deliver 0", "ledger"]);
    life.lived(Class::A, 2);
    life.say_all(&["read 3", "keep 0", "read 1", "keep 1"]);
    let today = life.today();
    let first = life.day_word(today - 1);
    let opened = format!("open {IDENTIFIER} {first} 3");
    life.say(&opened);
    life.say_all(&["deliver 0", "ledger"]);
    let right = life.player.ledger.clone();
    for (at, &byte) in right.iter().enumerate() {
        let chance = life.random.bits() as u8;
        let mut others =
            vec![0, 1, 0xff, byte ^ 1, byte ^ 0x80, byte ^ 0x10, byte ^ 0x20, byte.wrapping_add(1), chance];
        others.retain(|&other| other != byte);
        for other in others {
            life.say(format!("poke ledger {at} {other}"));
            let day = today - 2 + life.random.below(5);
            life.summary_and_missing(day);
            life.say_all(&["deliver 0", "ledger"]);
            if life.player.ledger != right {
                life.say(&opened);
                life.say("deliver 0");
            }
        }
    }
    edges(&mut life, &opened, &right);
    // The same with only the day's last half-hour missing.
    let late = (today + 1) * SECONDS_PER_DAY - 1_000;
    if late > life.time() {
        life.clock(late);
    }
    life.say_all(&["read 3", "keep 0", &opened, "deliver 0", "ledger"]);
    let right = life.player.ledger.clone();
    edges(&mut life, &opened, &right);
    let length = right.len();
    let most = ledger::MOST_DAYS;
    let sizes = [0, 1]
        .into_iter()
        .chain(AT_FIRST - 1..=ledger::HEADER_BYTES + 1)
        .chain(ledger::bytes_for(1) - 1..=ledger::bytes_for(1) + 1)
        .chain([length - ledger::DAY_BYTES, length - 1, length, length + 1, length + ledger::DAY_BYTES])
        .chain([ledger::MOST_BYTES]);
    for size in sizes {
        life.say(&opened);
        life.say("deliver 0");
        life.say(format!("lend ledger {size}"));
        life.summary_and_missing(today);
        life.summary_and_missing(today + 9);
        life.say_all(&["deliver 0", "deliver 1", "deliver 9", "ledger"]);
        // The ledger's own day count, made to fit and past its range.
        for days in [0, 1, 2, 3, 4, most - 1, most, most + 1, u64::from(u16::MAX)] {
            if size >= ledger::HEADER_BYTES {
                let [high, low] = (days as u16).to_be_bytes();
                life.say(format!("poke ledger {AT_DAYS} {high}"));
                life.say(format!("poke ledger {} {low}", AT_DAYS + 1));
                life.summary_and_missing(today);
                life.say("deliver 0");
            }
        }
    }
    // The order 4, 5, 6, 8, 9, 10, 11, 12 at the ledger.
    let wrong_field = &format!("byte {AT_TIME} 120");
    let inconsistent = &format!("byte {AT_NUMBER} 57");
    let wrong_ways = ["cut 0", "file", "take 0", wrong_field, "file", "take 0", inconsistent, "file"];
    life.say(&opened);
    life.say_all(&wrong_ways);
    life.say_all(&[wrong_field, "file", &format!("cut {FRAME_BYTES}"), "file"]);
    life.say(format!("open {OTHER_METER} {first} 3"));
    life.say_all(&wrong_ways);
    life.say_all(&["take 0", "file", "ledger"]);
    life.say(&opened);
    life.say_all(&["take 0", wrong_field, "keep 5", "take 0", inconsistent, "keep 6"]);
    life.say_all(&["take 0", &format!("cut {}", block::HEADER_BYTES - 1), "keep 7"]);
    for kept in [5, 6, 7, 0, 6, 5, 7] {
        life.say(format!("deliver {kept}"));
        life.say("ledger");
    }
    for identifier in ["BBCX24000017", "ABCY24000017", "ABCX25000017", "ABCX24000016", "ABCX2400001A"] {
        life.say(format!("open {identifier} {first} 3"));
        life.say_all(&["deliver 0", "ledger"]);
    }
    life.say(format!("poke ledger 0 {}", b'-'));
    life.say_all(&["cut 0", "file"]);
    life.summary_and_missing(0);
    life.say(format!("lend ledger {}", ledger::HEADER_BYTES + 4));
    life.summary_and_missing(0);
    life.say_all(&["cut 0", "file"]);
    // Openings out of range.
    let far = ["@65536".to_string(), format!("@{MOST_32_BITS}")];
    let latest = DAYS - most;
    let days = [latest - 1, latest, latest + 1, LAST_DAY, LAST_DAY + 1].map(|day| format!("@{day}"));
    let days: Vec<String> = [write_date(0)].into_iter().chain(days).chain(far.clone()).collect();
    for number in [0, 1, most - 1, most, most + 1, 65_537, MOST_32_BITS] {
        for day in &days {
            for identifier in [IDENTIFIER, "abcx24000017"] {
                life.say(format!("open {identifier} {day} {number}"));
                life.say(format!("summary {day}"));
                life.say(format!("missing {day}"));
                life.say("deliver 1");
            }
        }
    }
    let ends = [0, LAST_DAY, LAST_DAY + 1].map(|day| format!("@{day}"));
    for day in ends.iter().chain(&far) {
        life.say(format!("summary {day}"));
        life.say(format!("missing {day}"));
    }
    life.finish("damaged ledgers")
}

/// Whole fields of a ledger at the edges of their ranges, and each mark by itself.
fn edges(life: &mut Life, opened: &str, right: &[u8]) {
    let today = life.today();
    let mut changes: Vec<(usize, Vec<u8>)> = Vec::new();
    for first in [0, 1].into_iter().chain(DAYS - 4..=DAYS).chain([u64::from(u16::MAX)]) {
        changes.push((AT_FIRST, (first as u16).to_be_bytes().to_vec()));
    }
    for day in 0..3 {
        let at = ledger::bytes_for(day);
        changes.extend((0..=HALF_HOURS as u8 + 3).map(|state| (at, vec![state])));
        for start in [0, READING_MODULUS - 1, READING_MODULUS, MOST_32_BITS] {
            changes.push((at + DAY_START, (start as u32).to_be_bytes().to_vec()));
        }
        for half_hour in 0..HALF_HOURS {
            for value in [0, VALUE_MODULUS - 1, VALUE_MODULUS, u64::from(u16::MAX)] {
                changes.push((at + DAY_VALUES + VALUE_BYTES * half_hour, (value as u16).to_be_bytes().to_vec()));
            }
        }
        for place in [at + DAY_FLAGS].into_iter().chain(at + DAY_REVERSE..at + ledger::DAY_BYTES) {
            let byte = right.get(place).copied().unwrap_or(0);
            changes.extend((0..8).map(|bit| (place, vec![byte ^ (1 << bit)])));
        }
    }
    for (at, bytes) in changes {
        for (place, byte) in (at..).zip(bytes) {
            life.say(format!("poke ledger {place} {byte}"));
        }
        let day = today - 2 + life.random.below(5);
        life.summary_and_missing(day);
        life.summary_and_missing(today);
        life.say_all(&["deliver 0", opened, "deliver 0"]);
    }
}
