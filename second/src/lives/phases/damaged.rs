//! Damage on both phase kinds: active rates poked before every kind of call, and rooms poked before the rate is asked for
//! and before a conversion.

use super::{begin, load, switching, Made, BEFORE, LATER_RATE, MADE};
use crate::block::RATES;
use crate::calendar::{HOURS, MINUTES, SECONDS_PER_DAY, WEEKDAYS};
use crate::lives::hostile::asked_too_many;
use crate::lives::outages::pass;
use crate::lives::{plain_events, Life, Script, MOST_32_BITS};
use crate::recorder::Phase;
use crate::tariff::{Slot, DAY_TYPES, DEFAULT, EVERY_YEAR, EXCEPTION, SLOTS, SLOT_BYTES, TIME, UNUSED, WEEKDAY_RUN};

/// Active rates of every number about those that there are, before every kind of call.
pub fn rates(seed: u64) -> Script {
    let mut life = Life::new(seed);
    let most = Phase::Single.most_rate();
    let rates = RATES as u64;
    for made in MADE {
        for loaded in [false, true] {
            for rate in (0..=rates + 1).chain([most + 256, MOST_32_BITS]) {
                let poke = &format!("poke rate {rate}");
                before_each_call(&mut life, made, loaded, &[poke]);
                before_each_call(&mut life, made, loaded, &["off", poke]);
            }
            let poke = &format!("poke rate {}", most + 1);
            before_each_call(&mut life, made, loaded, &["lend 0 0 0", poke]);
            before_each_call(&mut life, made, loaded, &["lend table 0", "off", poke]);
        }
    }
    life.finish("damaged rates on both phase kinds")
}

/// Each call to an outstation of its own, which is spoiled before it.
fn before_each_call(life: &mut Life, made: Made, loaded: bool, spoil: &[&str]) {
    life.edit(&switching(1, 2));
    let reads = ["read 1".to_string(), "read 0".to_string(), asked_too_many(), "read 1 0".to_string()];
    let calls = plain_events(0, 1).len() + reads.len();
    for index in 0..calls {
        life.say("lend");
        begin(life, made);
        if loaded {
            life.say("load");
        }
        life.say_all(spoil);
        let call = plain_events(life.time(), 1).into_iter().chain(reads.clone()).nth(index);
        life.say(call.unwrap_or_default());
        life.say("show");
    }
    life.say("lend");
}

/// Rooms that name each rate from the switching on: by Clock, by On and by Adjust over it, back and over it again, and
/// a conversion with the table loaded and without.
pub fn rooms(seed: u64) -> Script {
    let mut life = Life::new(seed);
    for made in MADE {
        for rate in (0..=RATES as u8 + 1).chain([100, u8::MAX]) {
            for by in 0..3 {
                begin(&mut life, made);
                load(&mut life);
                life.say(format!("poke table {LATER_RATE} {rate}"));
                life.pulses(5);
                let time = life.time() + BEFORE;
                if by == 0 {
                    life.adjust(BEFORE as i64);
                } else {
                    pass(&mut life, by == 1, time);
                }
                life.say("show");
                life.pulses(7);
                life.say_all(&["adjust -1", "show", "adjust 1", "show", "single", "show"]);
                life.say_all(&["poke loaded 0", "single", "show", "read 1", "block"]);
            }
        }
    }
    life.finish("damaged rooms on both phase kinds")
}

/// Entries, and others that are none, with the number of a rate as their last byte.
fn entries(rate: u8) -> [Slot; 12] {
    [
        [TIME, DAY_TYPES, 0, 0, rate],
        [TIME, 0, 0, 0, rate],
        [TIME, DAY_TYPES + 1, 1, 1, rate],
        [TIME, u8::MAX, u8::MAX, u8::MAX, rate],
        [TIME, 1, HOURS as u8, 0, rate],
        [TIME, 1, 0, MINUTES as u8, rate],
        [UNUSED, 1, 0, 0, rate],
        [EXCEPTION, 1, EVERY_YEAR, 5, rate],
        [WEEKDAY_RUN, 1, 1, WEEKDAYS as u8, rate],
        [DEFAULT, 1, 0, 0, rate],
        [DEFAULT + 1, 1, 0, 0, rate],
        [u8::MAX, 1, 0, 0, rate],
    ]
}

/// Entries poked into a room in which a table is loaded, and into one in which none is: a conversion looks at the times
/// of a loaded one alone.
pub fn conversions(seed: u64) -> Script {
    let mut life = Life::new(seed);
    let (most, rates) = (Phase::Single.most_rate() as u8, RATES as u8);
    life.edit(&switching(2, 3));
    for made in MADE {
        for rate in [0, most, most + 1, rates, rates + 1, u8::MAX] {
            for entry in entries(rate) {
                convert_over(&mut life, made, entry);
            }
        }
    }
    life.finish("conversions over damaged rooms")
}

fn convert_over(life: &mut Life, made: Made, entry: Slot) {
    for loaded in [0, 1] {
        begin(life, made);
        life.say("load");
        let slot = *life.random.pick(&[3, 4, SLOTS / 2, SLOTS - 2, SLOTS - 1]);
        for (place, byte) in entry.iter().enumerate() {
            life.say(format!("poke table {} {byte}", SLOT_BYTES * slot + place));
        }
        life.say(format!("poke loaded {loaded}"));
        life.say_all(&["single", "show"]);
        let time = life.time() + SECONDS_PER_DAY;
        life.clock(time);
        life.say("show");
    }
}
