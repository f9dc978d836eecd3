//! What can be chosen on each phase kind: every rate by the event, and tables that name each rate, in day types that are
//! used and in others, alone and beside another fault.

use super::{begin, load, Made, MADE, SWITCHING};
use crate::block::RATES;
use crate::calendar::{HOURS, MINUTES_PER_DAY};
use crate::lives::tables::{default, every_year, random_entries, switching_time, weekdays};
use crate::lives::{Life, Script, MOST_32_BITS};
use crate::recorder::Phase;
use crate::script::MOST_TABLE_BYTES;
use crate::tariff::{Slot, DAY_TYPES, SLOTS, SLOT_BYTES, TABLE_BYTES, TIME};

/// The first rate that single phase has not.
const TOO_HIGH: u8 = Phase::Single.most_rate() as u8 + 1;

/// Rates by the event, with a table loaded or not, and with power on or off.
pub fn rates(seed: u64) -> Script {
    let mut life = Life::new(seed);
    for made in MADE {
        for loaded in [false, true] {
            for power in [true, false] {
                begin(&mut life, made);
                if loaded {
                    load(&mut life);
                }
                if !power {
                    life.say("off");
                }
                for rate in (0..=RATES as u64 + 2).chain([255, 256, 257, 65_537, MOST_32_BITS]) {
                    life.say(format!("rate {rate}"));
                    life.pulses(1);
                    life.say("show");
                }
            }
        }
    }
    life.finish("rates on both phase kinds")
}

/// A table of rates that single phase has, with days of three types.
fn three_types() -> Vec<Slot> {
    let midnights = (1..=3).map(|day_type| switching_time(day_type, 0, day_type));
    midnights.chain([default(1), weekdays(2, 6, 7), every_year(3, 59)]).collect()
}

/// Where a switching time is put, and its day type and minute: from 00:00 or later, in types that are used and in others.
fn places() -> [(usize, u8, usize); 9] {
    let free = three_types().len();
    [
        (0, 1, 0),
        (1, 2, 0),
        (2, 3, 0),
        (free, 1, SWITCHING),
        (free, 2, 1),
        (free, 3, MINUTES_PER_DAY - 1),
        (free, DAY_TYPES, 0),
        (free, DAY_TYPES, SWITCHING),
        (free, 4, 1),
    ]
}

/// Entries beside the time tried: none; each way to clash; and values out of range.
fn beside(tried: Slot) -> Vec<Slot> {
    let [kind, day_type, hour, minute, rate] = tried;
    let other_rate = [kind, day_type, hour, minute, 1 + rate % Phase::Single.most_rate() as u8];
    let late = [TIME, 1, HOURS as u8, 0, 1];
    let clashes = [default(1), weekdays(1, 7, 7), every_year(1, 59), tried, other_rate];
    [Slot::default()].into_iter().chain(clashes).chain([late, default(7), [TIME, 1, 1, 0, RATES as u8 + 1]]).collect()
}

fn put(life: &mut Life, slot: usize, [k, t, x, y, z]: Slot) {
    life.say(format!("slot {slot} {k} {t} {x} {y} {z}"));
}

/// Each rate at each place of a table, offered on each phase kind, and loaded at a conversion.
pub fn loads(seed: u64) -> Script {
    let mut life = Life::new(seed);
    for made in MADE {
        for (slot, day_type, minute) in places() {
            life.edit(&three_types());
            for rate in (0..=RATES as u8 + 1).chain([u8::MAX]) {
                let tried = switching_time(day_type, minute, rate);
                put(&mut life, slot, tried);
                begin(&mut life, made);
                offer(&mut life, tried);
                if made == Made::Poly {
                    life.say_all(&["single", "show"]);
                }
            }
        }
    }
    life.finish("tables on both phase kinds")
}

/// The table beside every other fault, with other lengths, and at last by itself.
fn offer(life: &mut Life, tried: Slot) {
    let last = SLOTS - 1;
    for other in beside(tried).into_iter().rev() {
        put(life, last, other);
        life.say("load");
    }
    life.say("show");
    for length in [0, TABLE_BYTES - SLOT_BYTES, TABLE_BYTES - 1, MOST_TABLE_BYTES] {
        life.say(format!("load {length}"));
    }
}

/// One rate that single phase has not, of a day type that is not used, in each slot: offered, and loaded at a conversion.
pub fn slots(seed: u64) -> Script {
    let mut life = Life::new(seed);
    life.edit(&[&[switching_time(DAY_TYPES, 1, TOO_HIGH)], &three_types()[..]].concat());
    for slot in 0..SLOTS {
        begin(&mut life, Made::Single);
        life.say_all(&["load", "show"]);
        begin(&mut life, Made::Poly);
        life.say_all(&["load", "single", "show"]);
        life.say(format!("swap {slot} {}", (slot + 1).min(SLOTS - 1)));
    }
    life.finish("a rate too high in each slot")
}

/// Tables by chance, and tables that have the numbers of the higher rates in every place but a rate's.
pub fn by_chance(seed: u64) -> Script {
    let mut life = Life::new(seed);
    for made in MADE {
        for number in TOO_HIGH..=RATES as u8 {
            begin(&mut life, made);
            life.edit(&elsewhere(number));
            life.say_all(&["load", "show", "single", "show"]);
        }
        for most_rate in [Phase::Single.most_rate(), TOO_HIGH.into(), RATES as u64] {
            for _ in 0..6 {
                begin(&mut life, made);
                let today = life.today();
                let entries = random_entries(&mut life.random, today, most_rate);
                life.edit(&entries);
                life.say_all(&["load", "show", "single", "show", "table"]);
            }
        }
    }
    life.finish("tables by chance on both phase kinds")
}

/// A day type, a weekday, a month, a day, an hour and a minute of that number.
fn elsewhere(number: u8) -> Vec<Slot> {
    let run = weekdays(number, 5.min(number), number.min(7));
    let dated = [every_year(number, 0)[0], number, number, number, number];
    let at = [TIME, number, number, number, Phase::Single.most_rate() as u8];
    vec![default(number), run, dated, switching_time(number, 0, 3), at]
}
