//! Lives at both ends of the calendar: its first and last days, jumps over the century, and the last window of a ledger.

use super::boundaries::look;
use super::{Life, Script, IDENTIFIER, UNIT_A_PULSE, WATT_HOUR};
use crate::calendar::{self, write_date, LAST_DAY, LAST_TIME, SECONDS_PER_DAY, SECONDS_PER_HALF_HOUR};
use crate::ledger;
use crate::quantities::TOTAL_MODULUS;
use crate::recorder::{Class, MOST_ASKED};
use crate::script::MOST_NUMBER;

/// The calendar's first and last days, and jumps over the century.
pub fn calendar(seed: u64) -> Script {
    let mut life = Life::new(seed);
    let (last, eve) = (write_date(LAST_DAY), write_date(LAST_DAY - 1));
    let most = ledger::MOST_DAYS;
    for class in Class::ALL {
        for by_on in [false, true] {
            life.set_up(class, UNIT_A_PULSE, 0, 70 * WATT_HOUR, 0);
            life.say_all(&["read 1", "check", "listing", "read 0", "block", "count 40", "access"]);
            if by_on {
                life.say("off");
                life.on(LAST_TIME + 1);
                life.on(LAST_TIME);
            } else {
                life.clock(LAST_TIME + 1);
                life.clock(LAST_TIME);
            }
            life.say_all(&["show", &format!("read {MOST_ASKED}"), "check"]);
            life.say_all(&[&format!("read {}", Class::A.days()), "listing"]);
            life.say_all(&[&format!("day {last}"), &format!("day {eve}"), &format!("day @{}", calendar::DAYS)]);
            life.say_all(&["count 50", "reset", "reverse"]);
            life.say(format!("clock {last} {}", calendar::write_seconds(LAST_TIME)));
            life.say("off");
            life.say_all(&[&format!("on @{}", LAST_TIME + 1), &format!("on @{LAST_TIME}"), "show"]);
            life.say_all(&["read 2", "check", "block", &format!("day {last}")]);
        }
    }
    for (class, start) in [
        (Class::A, LAST_TIME),
        (Class::D, LAST_TIME - 1),
        (Class::B, LAST_TIME + 1 - SECONDS_PER_HALF_HOUR),
        (Class::A, LAST_TIME - SECONDS_PER_DAY),
    ] {
        life.set_up(class, WATT_HOUR, start, TOTAL_MODULUS - 1, u32::MAX);
        for time in [LAST_TIME - 1, LAST_TIME, LAST_TIME + 1, LAST_TIME, MOST_NUMBER] {
            life.clock(time);
            life.pulses(7);
            look(&mut life);
        }
        let (summary, missing) = (format!("summary {last}"), format!("missing {last}"));
        life.say_all(&["keep 1", &format!("open {IDENTIFIER} {last} 1"), "deliver 1", &summary, &missing, "ledger"]);
        life.say_all(&[&format!("open {IDENTIFIER} {eve} 2"), "deliver 1", &format!("summary {eve}")]);
        life.say_all(&[&summary, &missing, "ledger"]);
    }
    // The first day: an early reading, an early ledger.
    life.say_all(&[
        "setup ABCX24000017 d p 10000 000101 000000 0 0",
        "count 5",
        "reset",
        "clock 000101 003000",
        "read 5",
        "block",
        "listing",
        "keep 0",
    ]);
    life.say_all(&["clock 000103 010000", &format!("read {MOST_ASKED}"), "check", "listing"]);
    life.say_all(&[&format!("open {IDENTIFIER} 000101 {most}"), "file", "deliver 0"]);
    life.say_all(&["summary 000101", "summary 000102", "summary 000103", "missing 000103", "missing 000104"]);
    life.say_all(&[&format!("summary @{most}"), &format!("summary @{}", most - 1)]);
    // The first day of the last window of the most days.
    let latest = calendar::DAYS - most;
    for (day, days) in [
        (last.clone(), 1),
        (last.clone(), 2),
        (format!("@{LAST_DAY}"), 1),
        (format!("@{}", LAST_DAY + 1), 1),
        (format!("@{latest}"), most),
        (format!("@{}", latest + 1), most),
        (write_date(latest), most),
        (write_date(0), most),
        (write_date(0), most + 1),
        (write_date(0), 0),
    ] {
        life.say(format!("open {IDENTIFIER} {day} {days}"));
        life.say_all(&[&format!("summary {last}"), "missing 000101", "file"]);
    }
    life.finish("boundary calendar ends")
}
