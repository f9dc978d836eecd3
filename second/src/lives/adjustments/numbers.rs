//! Hostile adjustments: numbers in range, out of it and past 32 bits, of recorders in all states; and lines that are
//! nearly one.

use crate::calendar::{write_digits, LAST_TIME, SECONDS, SECONDS_PER_HALF_HOUR};
use crate::lives::hostile::rate_too_many;
use crate::lives::{Life, Script, IDENTIFIER, MOST_32_BITS, UNIT_A_PULSE};
use crate::recorder::{Class, MOST_SHIFT};
use crate::script::{MOST_DIGITS, MOST_NUMBER};
use crate::tariff::TABLE_BYTES;

/// A half-hour begins at 02:00, and a recorder is set up five minutes later.
const BEGIN: u64 = 1_000_000_800;
const LATER: u64 = BEGIN + 5 * SECONDS;

fn set_up() -> String {
    format!("setup {IDENTIFIER} a p {UNIT_A_PULSE} @{LATER} 0 0")
}

/// Numbers at the ends of the range and of what can be written, each of them forward and back.
fn numbers() -> Vec<String> {
    let (most, passed) = (MOST_SHIFT as u64, LATER - BEGIN);
    let in_range = [0, 1, passed - 1, passed, passed + 1, 2 * passed, most - 1, most];
    let past_range =
        [most + 1, SECONDS_PER_HALF_HOUR, 32_768, 65_535, 65_536 + most, MOST_32_BITS / 2, MOST_32_BITS / 2 + 1];
    let past_32_bits = [MOST_32_BITS, MOST_32_BITS + 1, MOST_32_BITS + 1 + most, MOST_NUMBER, MOST_NUMBER + 1];
    let plain = in_range.into_iter().chain(past_range).chain(past_32_bits).map(|number| number.to_string());
    let padded = [(0, 0), (most, 0), (most + 1, 0), (0, 1), (most, 1)]
        .map(|(number, more)| write_digits(number, MOST_DIGITS + more));
    plain.chain(padded).flat_map(|number| [format!("adjust {number}"), format!("adjust -{number}")]).collect()
}

/// Every number in recorders that take adjustments, and in recorders that refuse them for another cause.
pub fn states(seed: u64) -> Script {
    let mut life = Life::new(seed);
    // The blank recorder.
    for line in numbers() {
        life.say(line);
    }
    life.say_all(&["at 1 0000 4", "at 1 0203 6", "default 1"]);
    let short_room = &format!("lend table {}", TABLE_BYTES - 1);
    let past_last = &format!("poke time {}", LAST_TIME + 1);
    let past_rates = &format!("poke {}", rate_too_many());
    let (on, in_time) = (&format!("on @{LATER}"), &format!("poke time {LATER}"));
    let states: [(&[&str], &[&str]); 11] = [
        (&[], &[]),
        (&["load"], &[]),
        (&["off"], &[on]),
        (&["lend 0 0 0"], &["lend"]),
        (&[short_room], &["lend"]),
        (&["poke class 0"], &["poke class 1"]),
        (&["poke weight 0"], &["poke weight 1"]),
        (&[past_last], &[in_time]),
        (&["off", past_rates], &["poke rate 1", on]),
        (&["off", past_rates, "lend 0 0 0"], &["lend", "poke rate 1", on]),
        (&["off", short_room], &["lend", on]),
    ];
    for (spoil, mend) in states {
        in_state(&mut life, spoil, mend);
    }
    life.finish("adjustments in all states")
}

/// Every number in a recorder that is spoiled; now and then it is mended, and the number tried again.
fn in_state(life: &mut Life, spoil: &[&str], mend: &[&str]) {
    for line in numbers() {
        life.say_all(&["lend", &set_up()]);
        life.say_all(spoil);
        life.say_all(&[&line, "show"]);
        if !mend.is_empty() && life.random.once_in(10) {
            life.say_all(mend);
            life.say_all(&[&line, "show"]);
        }
    }
}

/// Lines that are not understood.
fn not_understood() -> Vec<&'static str> {
    let lines = "adjust\n\
        adjust \n\
        adjust -\n\
        adjust --1\n\
        adjust +1\n\
        adjust -+1\n\
        adjust +-1\n\
        adjust - 1\n\
        adjust 1-\n\
        adjust 1-1\n\
        adjust @5\n\
        adjust -@5\n\
        adjust @-5\n\
        adjust x\n\
        adjust -x\n\
        adjust 0x1\n\
        adjust 1.0\n\
        adjust -1.0\n\
        adjust 1e2\n\
        adjust 1 2\n\
        adjust -1 -2\n\
        adjust -1 \n\
        adjust  1\n\
        adjust  -1\n\
        adjust\t1\n\
        adjust -1\t\n\
        adjust -1\r\n\
        adjust \u{2212}1\n\
        adjust 000000 000001\n\
        -adjust 1\n\
        adjust-1\n\
        adjusts 1\n\
        adjus 1\n\
        Adjust 1\n\
        ADJUST 1";
    lines.split('\n').collect()
}

/// Zero in both its forms, at the first and the last second of a half-hour; and lines that are not understood, each in a
/// life in which nothing has changed behind it. Other commands take no sign.
pub fn forms(seed: u64) -> Script {
    let mut life = Life::new(seed);
    for line in ["adjust 0", "adjust -0"] {
        let end = BEGIN + SECONDS_PER_HALF_HOUR;
        for time in [BEGIN, end - 1] {
            life.set_up(Class::A, UNIT_A_PULSE, time, 0, 0);
            life.say_all(&[line, "show"]);
            life.clock(end);
            life.say_all(&["show", "read 1", "listing"]);
        }
    }
    life.say(set_up());
    for line in not_understood() {
        life.say_all(&[line, "show", "adjust -1", "adjust 1"]);
    }
    for byte in 0..=u8::MAX {
        if byte != b'\n' {
            life.say([b"adjust ", [byte].as_slice(), b"9"].concat());
            life.say([b"adjust 9", [byte].as_slice()].concat());
        }
    }
    life.say("show");
    for line in ["count -1", "count -0", "meter -1", "rate -1", "clock @-1", "read -1", "read -0", "keep -0", "cut -0"]
    {
        life.say(line);
    }
    life.say(format!("open {IDENTIFIER} @0 -1"));
    life.say_all(&["show", "read 1", "listing"]);
    life.finish("lines that are nearly adjustments")
}
