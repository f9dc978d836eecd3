//! Blocks that say otherwise than what is held, and outstations that differ in their
//! starts, their pulses or their meter, filed in one ledger.

use super::{write_into, Life, Script, IDENTIFIER, LATEST_START, OTHER_METER, UNIT_A_PULSE};
use crate::block::{self, AT_IDENTIFIER, DAY_FLAGS, DAY_REVERSE, MARK_BYTES, MOST_BYTES};
use crate::calendar::{self, HALF_HOURS, SECONDS_PER_DAY, SECONDS_PER_HALF_HOUR};
use crate::quantities::{READING_MODULUS, THOUSANDTHS_PER_UNIT, TOTAL_MODULUS, VALUE_MODULUS};
use crate::recorder::Class;

/// Blocks that agree and blocks that differ in a start, a value, a mark or flags.
pub fn conflicts(seed: u64) -> Script {
    let mut life = Life::new(seed);
    let days = life.random.between(1, 3);
    life.lived(Class::A, days);
    let time = life.today() * SECONDS_PER_DAY + life.random.between(20_000, 80_000);
    if time > life.time() {
        life.clock(time);
    }
    life.say_all(&["read 3", "keep 0", "read 1", "keep 1", "access"]);
    life.pulses(1);
    let later = life.time() + life.random.below(40_000);
    life.clock(later);
    life.say_all(&["read 4", "keep 2"]);
    let today = life.today();
    let first = life.day_word(today.saturating_sub(3));
    let opened = format!("open {IDENTIFIER} {first} 5");
    let last = HALF_HOURS as u64 - 1;
    for (held, brought) in [(0, 0), (0, 1), (1, 0), (2, 0), (0, 2)] {
        life.say(format!("take {brought}"));
        let records = (life.player.block.len() - block::HEADER_BYTES) / block::DAY_BYTES;
        for record in 0..records {
            for _ in 0..10 {
                // One field changed through the writer, so that the block stays consistent.
                let ended = calendar::ended(life.time(), today).max(1) as u64;
                let half_hour = *life.random.pick(&[0, ended - 1, ended.min(last), last - 1, last, 20]);
                let mark = 1_u64 << life.random.below(last + 1);
                let value = life.random.below(VALUE_MODULUS);
                let flags = life.random_flags();
                let start = life.random.below(READING_MODULUS);
                let changes = [
                    format!("given value {record} {half_hour} {value}"),
                    format!("given reversed {record} {mark}"),
                    format!("given level2 {record} {mark}"),
                    format!("given flags {record} {flags}"),
                    format!("given start {record} {start}"),
                ];
                for change in changes {
                    life.say(format!("take {brought}"));
                    life.say_all(&["fields", &change, &write_into(MOST_BYTES), &opened]);
                    life.say(format!("deliver {held}"));
                    life.say_all(&["file", "ledger"]);
                }
                life.summary_and_missing(today);
            }
        }
    }
    bytes_changed(&mut life, &opened);
    other_lives(&mut life);
    other_starts(&mut life);
    life.finish("conflicts")
}

/// Flags and marks of the block changed in place, against a ledger that holds it.
fn bytes_changed(life: &mut Life, opened: &str) {
    life.say("take 2");
    let length = life.player.block.len();
    let records = (length - block::HEADER_BYTES) / block::DAY_BYTES;
    for record in 0..records {
        let at = block::bytes_for(record);
        for place in (0..2 * MARK_BYTES).map(|offset| at + DAY_REVERSE + offset).chain([at + DAY_FLAGS]) {
            for bit in 0..8 {
                life.say("take 2");
                let byte = life.player.block.get(place).copied().unwrap_or(0) ^ (1 << bit);
                life.say(format!("byte {place} {byte}"));
                life.say_all(&["check", opened, "deliver 2", "file"]);
            }
        }
    }
    life.say("ledger");
}

/// Two outstations that differ in their start readings alone, read before and after the first
/// half-hour has ended and after the day.
fn other_starts(life: &mut Life) {
    let day = life.random.between(100, LATEST_START);
    let word = life.day_word(day);
    let total = life.random.below(TOTAL_MODULUS / 10 * 9);
    let (half_hour, whole_day) = (SECONDS_PER_HALF_HOUR, SECONDS_PER_DAY);
    let seconds = [600, half_hour - 1, half_hour, 4_200, whole_day - 1, whole_day, whole_day + 3_600];
    for one in seconds {
        for two in seconds {
            for other_total in [total, total + THOUSANDTHS_PER_UNIT, total + THOUSANDTHS_PER_UNIT * VALUE_MODULUS] {
                for (kept, total, seconds) in [(0, total, one), (1, other_total, two)] {
                    life.say(format!("setup {IDENTIFIER} a p {UNIT_A_PULSE} @{} {total} 0", day * SECONDS_PER_DAY));
                    life.clock(day * SECONDS_PER_DAY + seconds);
                    life.say("read 2");
                    life.say(format!("keep {kept}"));
                }
                let days = life.random.between(1, 2);
                life.say(format!("open {IDENTIFIER} {word} {days}"));
                life.say_all(&["deliver 0", "deliver 1", "deliver 0"]);
                life.summary_and_missing(day);
                life.say("ledger");
            }
        }
    }
}

/// Two outstations of one meter, and one of another, filed in one ledger.
fn other_lives(life: &mut Life) {
    for _ in 0..30 {
        let day = life.random.between(100, LATEST_START);
        let total = life.random.below(TOTAL_MODULUS);
        for kept in [0, 1, 2] {
            let identifier = if kept == 2 { OTHER_METER } else { IDENTIFIER };
            life.say(format!("setup {identifier} b p {UNIT_A_PULSE} @{} {total} 0", day * SECONDS_PER_DAY));
            for _ in 0..life.random.between(1, 6) {
                let pulses = life.random.below(3);
                life.pulses(pulses);
                let mark = *life.random.pick(&["access", "#", "#", "#", "#", "reverse", "ppp aBc"]);
                life.say(mark);
                let time = life.time() + life.random.between(1, 5_000);
                life.clock(time);
            }
            if life.random.once_in(3) {
                life.clock((day + 1) * SECONDS_PER_DAY + 100);
            }
            life.say("read 2");
            life.say(format!("keep {kept}"));
        }
        let word = life.day_word(day);
        life.say(format!("open {IDENTIFIER} {word} 2"));
        for _ in 0..4 {
            let kept = life.random.below(3);
            life.say(format!("deliver {kept}"));
            life.summary_and_missing(day);
            life.say("ledger");
        }
    }
    // An identifier changed in the block alone.
    for (at, byte) in IDENTIFIER.bytes().enumerate() {
        life.say("take 0");
        let other = if byte.is_ascii_digit() { b'7' } else { b'Q' };
        life.say(format!("byte {} {other}", AT_IDENTIFIER + at));
        life.say_all(&["check", "file", "listing"]);
    }
}
