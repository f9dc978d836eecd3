//! The limits that a class's complete days, a block, a window and a listing have, and whether each was met on both its
//! sides, as far as a script reaches them: the last number that is taken, and the first that isn't.

use super::sides::{Side, Sides};
use crate::answer::*;
use crate::block::{self, bytes_for};
use crate::calendar::{self, day_of};
use crate::ledger::{self, AT_DAYS};
use crate::listing::{self, REFUSED};
use crate::lives::IDENTIFIER;
use crate::recorder::{Class, Recorder, StoreLength};
use crate::script::{Player, KEPT_BLOCKS, LONGEST_STORE};
use std::collections::BTreeSet;

const RECORDS_CHECKED: &str = "records of a block that is checked";
const DAYS_WRITTEN: &str = "days given to the writer";
const DAYS_OPENED: &str = "days of a ledger that is opened";
const LAST_DAY_OPENED: &str = "last day of the longest window that is opened";
const OWN_COUNT: &str = "a ledger's own count of days";
const BYTES_LISTED: &str = "bytes of a listing's input";
const BYTES_IN_HEXADECIMAL: &str = "bytes given in hexadecimal";
const LONGEST_TAKEN: &str = "number of a kept block that is taken, as long as a block can be";
const DAYS_LISTED: &str = "days of a true block that is listed";

fn midnights_by(call: &str, class: Class) -> String {
    format!("midnights passed at once from the day of set-up by {call}, all days of class {class:?} read")
}

fn days_stored(class: Class) -> String {
    format!("days stored in class {class:?}")
}

fn rooms_lent(class: Class) -> String {
    format!("rooms lent to class {class:?}")
}

/// Every side that is to be met.
fn all() -> BTreeSet<Side> {
    let mut sides = BTreeSet::new();
    for class in Class::ALL {
        let (complete, held) = (class.complete_days() as u64, class.days() as u64);
        for call in ["clock", "on"] {
            sides.extend((complete - 1..=complete + 1).map(|midnights| (midnights_by(call, class), midnights, DONE)));
        }
        sides.extend([(days_stored(class), held, DONE), (days_stored(class), held + 1, DAMAGED)]);
        let lent = [(complete, WRONG_LENGTH), (held, DONE), (held + 1, WRONG_LENGTH)];
        let can_be_lent = |rooms: u64| rooms <= LONGEST_STORE.starts as u64;
        sides.extend(
            lent.into_iter().filter(|side| can_be_lent(side.0)).map(|side| (rooms_lent(class), side.0, side.1)),
        );
    }
    let (records, window) = (block::MOST_DAYS as u64, ledger::MOST_DAYS);
    let (bytes, listed) = (listing::MOST_BYTES as u64, listing::MOST_DAYS as u64);
    // A script's block is no longer than the longest, so one of a record more can't be checked there.
    for (what, number, answer) in [
        (RECORDS_CHECKED, records - 1, DONE),
        (RECORDS_CHECKED, records, DONE),
        (DAYS_WRITTEN, records, DONE),
        (DAYS_WRITTEN, records + 1, DAMAGED),
        (DAYS_OPENED, window, DONE),
        (DAYS_OPENED, window + 1, OUT_OF_RANGE),
        (LAST_DAY_OPENED, calendar::LAST_DAY, DONE),
        (LAST_DAY_OPENED, calendar::LAST_DAY + 1, OUT_OF_RANGE),
        (OWN_COUNT, window, DONE),
        (OWN_COUNT, window + 1, DAMAGED),
        (BYTES_LISTED, bytes, DONE),
        (BYTES_LISTED, bytes + 1, NOT_A_BLOCK),
        (DAYS_LISTED, listed, DONE),
        (DAYS_LISTED, listed + 1, NOT_A_BLOCK),
        (BYTES_IN_HEXADECIMAL, block::MOST_BYTES as u64, DONE),
    ] {
        sides.insert((what.to_string(), number, answer));
    }
    sides.extend((0..KEPT_BLOCKS as u64).map(|kept| (LONGEST_TAKEN.to_string(), kept, DONE)));
    sides
}

#[derive(Default)]
pub struct Limits {
    sides: Sides,
    /// The call that last passed midnights from the day of set-up on, and how many.
    passed: Option<(&'static str, u64)>,
}

impl Limits {
    /// A line, as it was answered, between the recorder before it and all that is there after it.
    pub fn add(&mut self, before: &Recorder, line: &[u8], answer: &str, player: &Player) {
        let words: Vec<&[u8]> = line.split(|&byte| byte == b' ').collect();
        let number = match answer.strip_prefix(REFUSED) {
            Some(number) => number.parse().ok(),
            None if words == [b"listing"] => Some(DONE),
            None => answer.split(' ').next().and_then(|number| number.parse().ok()),
        };
        let Some(number) = number else { return };
        match words[..] {
            [b"clock", ..] if number == DONE => self.pass("clock", before, player),
            [b"on", ..] if number == DONE => self.pass("on", before, player),
            [b"setup", ..] => self.passed = None,
            [b"read", _] => self.add_read(answer, player),
            [b"access"] => self.add_access(number, player),
            [b"check"] => self.meet(RECORDS_CHECKED, records(&player.block), number),
            [b"write", _] => self.meet(DAYS_WRITTEN, player.given.days, number),
            [b"open", identifier, first, days] if identifier == IDENTIFIER.as_bytes() => {
                self.add_opening(first, days, number);
            }
            [b"summary", _] => {
                if let Some(&[high, low]) = player.ledger.get(AT_DAYS..ledger::HEADER_BYTES) {
                    self.meet(OWN_COUNT, u64::from(u16::from_be_bytes([high, low])), number);
                }
            }
            [b"hex", _] => self.meet(BYTES_IN_HEXADECIMAL, player.block.len() as u64, number),
            [b"take", kept] if player.block.len() == block::MOST_BYTES => {
                self.meet(LONGEST_TAKEN, calendar::digits(kept).unwrap_or_default(), number);
            }
            [b"listing"] => {
                self.meet(BYTES_LISTED, player.block.len() as u64, number);
                if player.block.len() >= listing::MOST_BYTES && block::check(&player.block).number == DONE {
                    self.meet(DAYS_LISTED, records(&player.block), number);
                }
            }
            _ => {}
        }
    }

    fn meet(&mut self, what: impl Into<String>, number: u64, answer: u32) {
        self.sides.meet(what, number, answer);
    }

    fn pass(&mut self, call: &'static str, before: &Recorder, player: &Player) {
        let midnights = day_of(player.recorder.time) - day_of(before.time);
        self.passed = (before.days == 1).then_some((call, midnights));
    }

    /// A read that sent the day of set-up and every day since, or as many as the class holds.
    fn add_read(&mut self, answer: &str, player: &Player) {
        let (Some(class), Some((call, midnights))) = (player.recorder.class, self.passed) else { return };
        let days = class.days().min(midnights as usize + 1);
        if answer == format!("{DONE} {}", bytes_for(days)) {
            self.meet(midnights_by(call, class), midnights, DONE);
        }
    }

    fn add_access(&mut self, number: u32, player: &Player) {
        let Some(class) = player.recorder.class else { return };
        let rooms = player.lent.starts;
        if player.lent == StoreLength::of_rooms(rooms) {
            self.meet(rooms_lent(class), rooms as u64, number);
        }
        let days = player.recorder.days;
        if player.lent == class.store_length() && days <= day_of(player.recorder.time) + 1 {
            self.meet(days_stored(class), days, number);
        }
    }

    fn add_opening(&mut self, first: &[u8], days: &[u8], number: u32) {
        let first = first.strip_prefix(b"@").map_or_else(|| calendar::read_date(first), calendar::digits);
        let (Some(first), Some(days)) = (first, calendar::digits(days)) else { return };
        let past = first + days;
        if past <= calendar::DAYS {
            self.meet(DAYS_OPENED, days, number);
        }
        if days == ledger::MOST_DAYS {
            self.meet(LAST_DAY_OPENED, past - 1, number);
        }
    }

    pub fn told(&self) -> bool {
        self.sides.told("sides of limits", &all())
    }
}

/// The whole records of a block.
fn records(block: &[u8]) -> u64 {
    (block.len().saturating_sub(block::HEADER_BYTES) / block::DAY_BYTES) as u64
}
