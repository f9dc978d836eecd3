//! Every byte at each of the identifier's twelve places, by each call that judges one: at set-up and opening, in a
//! recorder, in blocks read and written, in a ledger, and in the event that sets PPP.

use super::{write_into, Life, Script, IDENTIFIER};
use crate::answer::DONE;
use crate::block::{AT_IDENTIFIER, HEADER_BYTES};
use crate::calendar::SECONDS_PER_HALF_HOUR;
use crate::identifier::PPP_LENGTH;

/// The first and the last of the digits, the capitals and the small letters, and the bytes just outside them.
pub const EDGES: [u8; 12] = *b"/09:@AZ[`az{";

/// The example's meter on the calendar's first day, which is also that of the ledgers here.
const SET_UP: &str = "setup ABCX24000017 a p 1 @0 0 0";
const OPEN: &str = "open ABCX24000017 @0 1";

/// What can stand in a line, which ends at the first newline.
fn bytes_in_a_line() -> impl Iterator<Item = u8> {
    (0..=u8::MAX).filter(|&byte| byte != b'\n')
}

/// A line about the example's identifier with another byte at one place.
fn line_with(before: &str, place: usize, byte: u8, after: &str) -> Vec<u8> {
    let mut identifier = IDENTIFIER.as_bytes().to_vec();
    identifier[place] = byte;
    [before.as_bytes(), &identifier, after.as_bytes()].concat()
}

fn is_done(answer: &str) -> bool {
    answer.starts_with(&format!("{DONE} "))
}

/// At set-up; an identifier that is taken is sent, after one at an edge that isn't the recorder is blank.
pub fn set_ups(seed: u64) -> Script {
    let mut life = Life::new(seed);
    for place in 0..IDENTIFIER.len() {
        for byte in bytes_in_a_line() {
            let answer = life.say(line_with("setup ", place, byte, " a p 1 @0 0 0"));
            if is_done(&answer) {
                life.say_all(&["read 0", "listing"]);
            } else if EDGES.contains(&byte) {
                life.say_all(&["show", "access", "ppp abc"]);
            }
        }
    }
    for identifier in ["abcX24000017", "abcx24000017", "ABCX240000 1", "ABCX2400001", "ABCX240000177"] {
        for class in ["a", "d", "e", "A"] {
            life.say(format!("setup {identifier} {class} p 1 240229 110000 0 0"));
            life.say_all(&["show", "access", "read 0", "listing"]);
        }
    }
    // 6 before 4.
    life.say("lend 0 0 0");
    for place in 0..IDENTIFIER.len() {
        for byte in EDGES {
            life.say(line_with("setup ", place, byte, " a p 1 @0 0 0"));
        }
    }
    life.finish("characters at set-up")
}

/// At opening; a block of the example's meter is filed where an edge was taken.
pub fn openings(seed: u64) -> Script {
    let mut life = Life::new(seed);
    read_a_half_hour(&mut life);
    for place in 0..IDENTIFIER.len() {
        for byte in bytes_in_a_line() {
            life.say(line_with("open ", place, byte, " @0 1"));
            if EDGES.contains(&byte) {
                life.say_all(&["ledger", "missing @0", "file", "ledger"]);
            }
        }
    }
    life.finish("characters at opening")
}

/// A block of the example's meter with one half-hour, kept under 0.
fn read_a_half_hour(life: &mut Life) {
    life.say_all(&[SET_UP, "count 50000"]);
    life.clock(SECONDS_PER_HALF_HOUR);
    life.say_all(&["read 1", "keep 0"]);
}

/// In a recorder, by an event and by a read; the event that sets PPP mends nothing.
pub fn recorders(seed: u64) -> Script {
    let mut life = Life::new(seed);
    life.say(SET_UP);
    for (place, right) in IDENTIFIER.bytes().enumerate() {
        for byte in 0..=u8::MAX {
            life.say(format!("poke letter {place} {byte}"));
            life.say_all(&["access", "read 0"]);
            if EDGES.contains(&byte) {
                life.say_all(&["listing", "off", "on @0", "ppp abc", "read 0", "listing", "ppp ABC", "show"]);
            }
        }
        life.say(format!("poke letter {place} {right}"));
    }
    life.finish("characters in a recorder")
}

/// In a block that is read, and in one that is written from given fields.
pub fn blocks(seed: u64) -> Script {
    let mut life = Life::new(seed);
    life.say_all(&[SET_UP, "read 0", OPEN]);
    for (place, right) in IDENTIFIER.bytes().enumerate() {
        let at = AT_IDENTIFIER + place;
        for byte in 0..=u8::MAX {
            life.say(format!("byte {at} {byte}"));
            life.say("check");
            if EDGES.contains(&byte) {
                life.say_all(&["listing", "fields", "file"]);
            }
        }
        life.say(format!("byte {at} {right}"));
    }
    life.say("fields");
    for (place, right) in IDENTIFIER.bytes().enumerate() {
        for byte in 0..=u8::MAX {
            life.say(format!("given letter {place} {byte}"));
            life.say(write_into(HEADER_BYTES));
            if EDGES.contains(&byte) {
                life.say_all(&["block", &write_into(HEADER_BYTES - 1)]);
            }
        }
        life.say(format!("given letter {place} {right}"));
    }
    life.finish("characters in a block")
}

/// In a ledger that holds a half-hour.
pub fn ledgers(seed: u64) -> Script {
    let mut life = Life::new(seed);
    read_a_half_hour(&mut life);
    life.say_all(&[OPEN, "file"]);
    for (place, right) in IDENTIFIER.bytes().enumerate() {
        for byte in 0..=u8::MAX {
            life.say(format!("poke ledger {place} {byte}"));
            life.say("missing @0");
            if EDGES.contains(&byte) {
                life.say_all(&["summary @0", "file", "ledger", "cut 0", "file", "take 0"]);
            }
        }
        life.say(format!("poke ledger {place} {right}"));
    }
    life.finish("characters in a ledger")
}

/// In the event that sets PPP: all three characters change or none, and so does the mark.
pub fn events(seed: u64) -> Script {
    let mut life = Life::new(seed);
    life.say(SET_UP);
    for place in 0..PPP_LENGTH {
        for byte in bytes_in_a_line() {
            let mut ppp = life.random_ppp().into_bytes();
            ppp[place] = byte;
            if EDGES.contains(&byte) {
                life.say("poke level2 0");
            }
            life.say([b"ppp ", ppp.as_slice()].concat());
            life.say_all(&["read 0", "listing"]);
            if EDGES.contains(&byte) {
                life.say("show");
            }
        }
    }
    life.finish("characters of PPP")
}
