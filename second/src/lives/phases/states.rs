//! Conversions of outstations in all states: power off, lengths lent wrong, fields at their ends and past them, no class,
//! the blank recorder; and set-ups accepted and refused behind them.

use super::{begin, load, Made, LATER_RATE, MADE};
use crate::block::RATES;
use crate::calendar::{DAYS, LAST_TIME};
use crate::identifier;
use crate::lives::hostile::wrong_lengths;
use crate::lives::{Life, Script, IDENTIFIER};
use crate::quantities::{
    DEMAND_MODULUS, LEAST_WEIGHT, MOST_WEIGHT, READING_MODULUS, RESETS_MODULUS, THOUSANDTHS_PER_KWH, TOTAL_MODULUS,
};
use crate::recorder::{Class, Phase};
use crate::script::MOST_TABLE_BYTES;
use crate::tariff::TABLE_BYTES;

/// What is in the room: nothing, a table that a conversion takes, or one that it refuses.
#[derive(Clone, Copy)]
enum Room {
    Empty,
    Right,
    TooHigh,
}

const ROOMS: [Room; 3] = [Room::Empty, Room::Right, Room::TooHigh];

fn begin_with(life: &mut Life, made: Made, room: Room) {
    begin(life, made);
    if matches!(room, Room::Right | Room::TooHigh) {
        load(life);
    }
    if matches!(room, Room::TooHigh) {
        life.say(format!("poke table {LATER_RATE} {}", Phase::Single.most_rate() + 1));
    }
}

/// Every state alone and beside another fault; then it is mended, and the conversion tried again.
pub fn states(seed: u64) -> Script {
    let mut life = Life::new(seed);
    life.say_all(&["single", "show", "lend table 0", "single", "lend", "off", "single", "load", "rate 5", "show"]);
    let too_high = &format!("poke rate {}", RATES + 1);
    let [short, long] = &[TABLE_BYTES - 1, MOST_TABLE_BYTES].map(|length| format!("lend table {length}"));
    let states: [&[&str]; 15] = [
        &[],
        &["off"],
        &["lend 0 0 0"],
        &["lend table 0"],
        &[short],
        &[long],
        &["poke class 0"],
        &["poke class 2"],
        &["poke class 0", "lend 0 0 0"],
        &[too_high],
        &["off", too_high],
        &["poke rate 0", "off", short],
        &["off", "lend 0 0 0"],
        &["off", "poke class 0"],
        &["off", "poke rate 5"],
    ];
    for made in MADE {
        for room in ROOMS {
            for spoil in states {
                begin_with(&mut life, made, room);
                life.say_all(spoil);
                life.say_all(&["single", "show", "read 1"]);
                life.say_all(&["poke class 1", "lend", "poke rate 4", "poke power 1", "single", "show", "table"]);
            }
        }
        for lent in wrong_lengths(Class::A.store_length()) {
            begin(&mut life, made);
            life.lend(lent);
            life.say_all(&["single", "lend", "show"]);
        }
    }
    life.finish("conversions in all states")
}

/// Each field at an end of its range and past it.
pub fn fields(seed: u64) -> Script {
    let mut life = Life::new(seed);
    let days = Class::A.days() as u64;
    let demands = ["current", "previous", "summed"].map(|name| (name.to_string(), DEMAND_MODULUS - 1, DEMAND_MODULUS));
    let registers = (1..=RATES).map(|rate| (format!("register {rate}"), TOTAL_MODULUS - 1, TOTAL_MODULUS));
    let others = [
        ("weight", LEAST_WEIGHT, LEAST_WEIGHT - 1),
        ("weight", MOST_WEIGHT, MOST_WEIGHT + 1),
        ("time", LAST_TIME, LAST_TIME + 1),
        ("days", 1, 0),
        ("days", days, days + 1),
        ("total", TOTAL_MODULUS - 1, TOTAL_MODULUS),
        ("reset", DAYS, DAYS + 1),
        ("resets", RESETS_MODULUS - 1, RESETS_MODULUS),
        ("base", READING_MODULUS - 1, READING_MODULUS),
        ("letter 0", u64::from(b'z'), u64::from(b'-')),
    ];
    let others = others.map(|(name, right, wrong)| (name.to_string(), right, wrong));
    let letters = (0..identifier::LENGTH).map(|at| (format!("letter {at}"), u64::from(IDENTIFIER.as_bytes()[at]), 0));
    let fields: Vec<(String, u64, u64)> =
        demands.into_iter().chain(registers).chain(others).chain(letters.skip(1)).collect();
    for made in MADE {
        for (name, right, wrong) in &fields {
            for number in [right, wrong] {
                begin(&mut life, made);
                life.say(format!("poke {name} {number}"));
                life.say_all(&["single", "show"]);
            }
        }
    }
    for register in 1..=RATES {
        kept(&mut life, register);
    }
    life.finish("conversions with fields at their ends")
}

/// A register as full as can be is kept and sent, and where it is the active rate's, it runs round.
fn kept(life: &mut Life, register: usize) {
    begin(life, Made::Poly);
    life.say_all(&[&format!("poke register {register} {}", TOTAL_MODULUS - 1), &format!("rate {register}"), "single"]);
    life.pulses(3);
    life.say_all(&["show", "read 0", "block"]);
    begin(life, Made::Poly);
    life.say(format!("poke register {register} {}", 50 * THOUSANDTHS_PER_KWH));
    life.say_all(&["single", "show", "read 1", "block", "listing"]);
}

/// Set-ups of either phase kind behind each: refused for each cause, they leave the blank recorder, which is polyphase.
pub fn set_ups(seed: u64) -> Script {
    let mut life = Life::new(seed);
    let short = &format!("lend table {}", TABLE_BYTES - 1);
    let causes: [(&str, u64, &[&str]); 6] = [
        ("a", MOST_WEIGHT, &[]),
        ("a", LEAST_WEIGHT - 1, &[]),
        ("e", MOST_WEIGHT, &[]),
        ("a", MOST_WEIGHT, &["lend 0 0 0"]),
        ("a", MOST_WEIGHT, &[short]),
        ("a", MOST_WEIGHT + 1, &["lend 0 0 0"]),
    ];
    for made in MADE {
        for (class, weight, lent) in causes {
            for phase in ["s", "p"] {
                begin_with(&mut life, made, Room::Right);
                life.say_all(lent);
                life.say(format!("setup {IDENTIFIER} {class} {phase} {weight} 240229 110000 0 0"));
                life.say_all(&["lend", "show", "table", "single", "rate 5", "count 3", "show"]);
                life.say_all(&["read 1", "single", "show", "load", "show"]);
            }
        }
    }
    life.finish("set-ups of both phase kinds")
}
