//! The longest blocks, windows and listings, those of one day fewer and those of one more, and both ends of all that a
//! script keeps.

use super::damage::fit_length;
use super::outages::{begin_anywhere, live, live_until};
use super::{write_into, Life, Script, IDENTIFIER};
use crate::block::{self, bytes_for, AT_IDENTIFIER, AT_NUMBER, FLAGS, MARKS_MODULUS, NUMBER_DIGITS};
use crate::calendar::{DAYS, HALF_HOURS, LAST_DAY};
use crate::identifier;
use crate::ledger::{self, AT_DAYS};
use crate::listing;
use crate::quantities::{READING_MODULUS, VALUE_MODULUS};
use crate::recorder::{Class, MOST_ASKED};
use crate::script::{KEPT_BLOCKS, LONGEST_STORE};

/// A full store of class d, every day with its own readings, marks and flags.
pub fn longest(seed: u64) -> Script {
    let mut life = Life::new(seed);
    begin_anywhere(&mut life, Class::D, 0);
    live(&mut life, Class::D.days() as u64 + 1);
    live_until(&mut life, 0);
    life.say(format!("read {MOST_ASKED}"));
    life.say("keep 0");
    open_longest(&mut life);
    blocks(&mut life);
    given_days(&mut life);
    windows(&mut life);
    own_counts(&mut life);
    last_windows(&mut life);
    listings(&mut life);
    kept_blocks(&mut life);
    store_ends(&mut life);
    life.finish("longest blocks, windows and listings")
}

/// The first day of the longest block.
fn oldest(life: &Life) -> u64 {
    life.today() + 1 - block::MOST_DAYS as u64
}

/// The longest window, of the longest block's days.
fn open_longest(life: &mut Life) {
    let first = life.day_word(oldest(life));
    life.say(format!("open {IDENTIFIER} {first} {}", ledger::MOST_DAYS));
}

/// Reads into outputs that just take the block or just don't; blocks of one record fewer than their header says, and of
/// as many as bytes are taken.
fn blocks(life: &mut Life) {
    let (most, most_bytes) = (block::MOST_DAYS, block::MOST_BYTES);
    for asked in most - 1..=most + 1 {
        let needed = bytes_for(asked.min(most));
        for room in [needed - 1, needed, most_bytes, most_bytes + 1] {
            life.say(format!("read {asked} {room}"));
        }
        life.say_all(&["check", "listing", "fields"]);
    }
    for records in [most - 1, most] {
        for number in most - 1..=most + 1 {
            life.say("take 0");
            life.say(format!("cut {}", bytes_for(records)));
            life.say("check");
            fit_length(life, bytes_for(records));
            for (offset, byte) in format!("{number:0NUMBER_DIGITS$}").bytes().enumerate() {
                life.say(format!("byte {} {byte}", AT_NUMBER + offset));
            }
            life.say_all(&["check", "fields", "file"]);
        }
    }
    life.say("take 0");
    for at in [most_bytes - 1, most_bytes, 0] {
        life.say(format!("byte {at} 1"));
        life.say("check");
    }
    for size in [most_bytes, most_bytes + 1] {
        life.say(format!("cut {size}"));
        life.say(format!("hex {}", "5a".repeat(size)));
        life.say_all(&["check", "keep 1"]);
    }
}

/// The writer from as many days as are given, and one more; the newest and the oldest of them changed.
fn given_days(life: &mut Life) {
    let most = block::MOST_DAYS;
    life.say_all(&["take 0", "fields"]);
    for days in most - 2..=most + 1 {
        life.say(format!("given days {days}"));
        for room in [bytes_for(days) - 1, bytes_for(days), block::MOST_BYTES] {
            life.say(write_into(room));
        }
        life.say("check");
    }
    life.say(format!("given days {most}"));
    let marks = [(FLAGS, 1, MARKS_MODULUS / 2), (0, MARKS_MODULUS / 2, 1)];
    for (flags, reverse, level2) in marks {
        for day in [most - 1, most] {
            life.say(format!("given flags {day} {flags}"));
            life.say(format!("given reversed {day} {reverse}"));
            life.say(format!("given level2 {day} {level2}"));
        }
        life.say(write_into(block::MOST_BYTES));
        file_oldest(life, IDENTIFIER);
    }
    for half_hour in [0, HALF_HOURS - 1] {
        for day in [most - 1, most] {
            life.say("fields");
            life.say(format!("given value {day} {half_hour} {VALUE_MODULUS}"));
            life.say(write_into(block::MOST_BYTES));
        }
    }
    for day in [most - 1, most] {
        life.say("fields");
        life.say(format!("given start {day} {READING_MODULUS}"));
        life.say(write_into(block::MOST_BYTES));
    }
}

/// The current block's oldest day, filed by itself and seen byte by byte.
fn file_oldest(life: &mut Life, identifier: &str) {
    let day = life.day_word(oldest(life));
    life.say(format!("open {identifier} {day} 1"));
    life.say_all(&["file", "ledger"]);
}

/// Windows of the longest block's days, of one fewer and of one more, begun with it, a day before it and a day after it.
fn windows(life: &mut Life) {
    let most = ledger::MOST_DAYS;
    let first = oldest(life);
    for days in most - 1..=most + 1 {
        for first in first - 1..=first + 1 {
            let word = life.day_word(first);
            life.say(format!("open {IDENTIFIER} {word} {days}"));
            life.say("deliver 0");
            for day in [first - 1, first, first + days - 1, first + days] {
                life.summary_and_missing(day);
            }
        }
    }
    open_longest(life);
    life.say_all(&["deliver 0", "ledger"]);
}

/// A ledger whose own count is another than its length says, and one of another length than its count says.
fn own_counts(life: &mut Life) {
    let most = ledger::MOST_DAYS;
    let first = oldest(life);
    for opened in [most - 1, most] {
        for lent in [most - 1, most] {
            for count in (most - 1..=most + 1).chain([0]) {
                let word = life.day_word(first);
                life.say(format!("open {IDENTIFIER} {word} {opened}"));
                life.say("deliver 0");
                life.say(format!("lend ledger {}", ledger::bytes_for(lent as usize)));
                let [high, low] = (count as u16).to_be_bytes();
                life.say(format!("poke ledger {AT_DAYS} {high}"));
                life.say(format!("poke ledger {} {low}", AT_DAYS + 1));
                life.summary_and_missing(first);
                life.summary_and_missing(first + most - 1);
                life.say("deliver 0");
            }
        }
    }
    // The last byte of the longest ledger, and the one past it.
    for at in [ledger::MOST_BYTES - 1, ledger::MOST_BYTES] {
        open_longest(life);
        life.say(format!("poke ledger {at} 1"));
        life.summary_and_missing(first);
    }
}

/// Windows that end with the calendar, a day before its end and a day past it.
fn last_windows(life: &mut Life) {
    let most = ledger::MOST_DAYS;
    for days in most - 1..=most + 1 {
        for first in DAYS - days - 1..=DAYS - days + 1 {
            let word = life.day_word(first);
            life.say(format!("open {IDENTIFIER} {word} {days}"));
            life.summary_and_missing(first);
            life.summary_and_missing(LAST_DAY);
        }
    }
}

/// True blocks about the longest that is listed, each also cut or grown to the bytes about that.
fn listings(life: &mut Life) {
    for days in listing::MOST_DAYS - 1..=listing::MOST_DAYS + 1 {
        life.say(format!("read {days}"));
        life.say_all(&["check", "listing", "keep 1"]);
        for size in listing::MOST_BYTES - 1..=listing::MOST_BYTES + 1 {
            life.say("take 1");
            life.say(format!("cut {size}"));
            life.say("listing");
            fit_length(life, size);
            life.say("listing");
        }
    }
}

/// Every kept block at the longest, each of another meter by its last letter, and with another last byte.
fn kept_blocks(life: &mut Life) {
    let letters = || (b'A'..=b'Z').chain(b'0'..=b'9').zip(0..KEPT_BLOCKS);
    let last = identifier::LENGTH - 1;
    for (letter, kept) in letters() {
        life.say(format!("read {MOST_ASKED}"));
        life.say(format!("byte {} {letter}", AT_IDENTIFIER + last));
        life.say(format!("byte {} {}", block::MOST_BYTES - 1, 3 * kept));
        life.say(format!("keep {kept}"));
    }
    for (letter, kept) in letters() {
        life.say(format!("take {kept}"));
        let identifier = format!("{}{}", &IDENTIFIER[..last], char::from(letter));
        file_oldest(life, &identifier);
    }
    life.say_all(&["check", "block"]);
}

/// The first and the last element of each slice of the longest store, and the one past it.
fn store_ends(life: &mut Life) {
    let last_room = LONGEST_STORE.starts - 1;
    for (name, last, number) in [
        ("value", LONGEST_STORE.values - 1, VALUE_MODULUS - 1),
        ("start", LONGEST_STORE.starts - 1, READING_MODULUS - 1),
        ("mark", LONGEST_STORE.marks - 1, FLAGS),
    ] {
        for (at, number) in [(0, number), (last, number - 1), (last + 1, number)] {
            life.say(format!("poke {name} {at} {number}"));
            for room in [0, last_room, last_room + 1] {
                life.say(format!("day @{room}"));
            }
        }
    }
    life.say("show");
}
