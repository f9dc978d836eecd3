//! Outstations with energy under all eight rates that are made single phase in service: from each active rate, under
//! tables and without, read before and after it; and lives of anything, conversions among it.

use super::{begin, load, switching, Made, MADE, SWITCHING};
use crate::block::{MOST_BYTES, RATES};
use crate::calendar::{MINUTES_PER_DAY, SECONDS_PER_DAY, SECONDS_PER_HALF_HOUR};
use crate::lives::outages::pass;
use crate::lives::tables::{default, random_entries, switching_time, weekdays};
use crate::lives::{write_into, Life, Script, IDENTIFIER};
use crate::recorder::Phase;
use crate::tariff::{Slot, DAY_TYPES};
use std::ops::RangeInclusive;

/// The blocks of a life, kept from 0 on: before its conversion, after it, and a half-hour later.
const BLOCKS: u64 = 3;

fn rates_too_high() -> RangeInclusive<u64> {
    Phase::Single.most_rate() + 1..=RATES as u64
}

/// Whole kWh for the active rate.
fn use_energy(life: &mut Life) {
    let pulses = life.random.between(100, 700);
    life.pulses(pulses);
}

/// Whole kWh under each rate, and the next half-hour.
fn fill(life: &mut Life) {
    for rate in 1..=RATES {
        life.say(format!("rate {rate}"));
        use_energy(life);
    }
    let time = life.time() + SECONDS_PER_HALF_HOUR;
    life.clock(time);
}

/// From each active rate; under a table of lower ones a higher one is active by damage alone.
pub fn from_each_rate(seed: u64) -> Script {
    let mut life = Life::new(seed);
    for active in 1..=RATES {
        for loaded in [false, true] {
            for again in [Made::Single, Made::Poly] {
                begin(&mut life, Made::Poly);
                fill(&mut life);
                life.say(format!("rate {active}"));
                if loaded {
                    load(&mut life);
                    life.say(format!("poke rate {active}"));
                }
                convert(&mut life);
                deliver(&mut life);
                set_up_again(&mut life, again);
            }
        }
    }
    life.finish("conversions from each rate")
}

/// Read, converted, counted on, converted again, and read with all eight registers.
fn convert(life: &mut Life) {
    use_energy(life);
    life.say_all(&["access", "read 2", "keep 0", "show", "single", "show"]);
    use_energy(life);
    life.say_all(&["show", "single", "show"]);
    for rate in rates_too_high() {
        life.say(format!("rate {rate}"));
        life.pulses(1);
    }
    life.say_all(&["show", "read 2", "check", "listing", "block", "keep 1"]);
    life.say_all(&["fields", &write_into(MOST_BYTES), "check"]);
    let rate = life.random.between(1, Phase::Single.most_rate());
    life.say(format!("rate {rate}"));
    use_energy(life);
    later(life);
    life.say_all(&["show", "single", "read 3", "block", "keep 2"]);
}

/// The running half-hour ends, by Clock or by On, or it does not, by Adjust.
fn later(life: &mut Life) {
    let time = life.time() + SECONDS_PER_HALF_HOUR;
    match life.random.below(3) {
        0 => life.random_adjust(),
        by => pass(life, by == 1, time),
    }
    use_energy(life);
}

/// The blocks in any order, some twice.
fn deliver(life: &mut Life) {
    let today = life.day_word(life.today());
    for by_number in [false, true] {
        life.say(format!("open {IDENTIFIER} {today} 1"));
        let mut order: Vec<u64> = (0..BLOCKS).chain((0..BLOCKS).filter(|_| life.random.once_in(3))).collect();
        life.random.shuffle(&mut order);
        for kept in order {
            if by_number {
                life.say(format!("deliver {kept}"));
            } else {
                life.say_all(&[&format!("take {kept}"), "file"]);
            }
        }
        life.say_all(&["ledger", &format!("summary {today}")]);
    }
}

/// A new set-up is the only way back: the highest rate is tried behind it, and a table that names it.
fn set_up_again(life: &mut Life, again: Made) {
    begin(life, again);
    life.say_all(&["show", "table", &format!("rate {RATES}"), "count 9", "show"]);
    life.edit(&switching(1, RATES as u8));
    life.say_all(&["load", "show", "read 1", "block"]);
}

/// Each rate in turn, in any order, over the day.
fn every_rate(life: &mut Life) -> Vec<Slot> {
    let mut rates: Vec<u8> = (1..=RATES as u8).collect();
    life.random.shuffle(&mut rates);
    let times = rates.into_iter().enumerate();
    let times = times.map(|(index, rate)| switching_time(3, index * MINUTES_PER_DAY / RATES, rate));
    times.chain([default(3)]).collect()
}

/// A day under a table that names every rate: a conversion is refused until another table is loaded, and then so is the
/// first table.
pub fn under_tables(seed: u64) -> Script {
    let mut life = Life::new(seed);
    for _ in 0..10 {
        begin(&mut life, Made::Poly);
        let first = every_rate(&mut life);
        life.edit(&first);
        life.say_all(&["load", "show"]);
        for _ in 0..2 * RATES {
            use_energy(&mut life);
            let time = life.time() + SECONDS_PER_DAY / (2 * RATES as u64);
            let by_on = life.random.once_in(3);
            pass(&mut life, by_on, time);
            life.random_adjust();
        }
        life.say_all(&["single", "show", "off", "single"]);
        let time = life.time();
        life.on(time);
        another_table(&mut life, &first);
    }
    life.finish("conversions under tables")
}

/// Another table, of rates that single phase has, and a conversion; then the first one offered again.
fn another_table(life: &mut Life, first: &[Slot]) {
    let today = life.today();
    let entries = random_entries(&mut life.random, today, Phase::Single.most_rate());
    life.edit(&entries);
    life.say_all(&["load", "show"]);
    convert(life);
    life.edit(first);
    life.say_all(&["load", "show", "rate 5", "rate 3", "single", "show", "table"]);
    for _ in 0..6 {
        let time = life.time() + life.random.below(SECONDS_PER_DAY);
        life.clock(time);
        use_energy(life);
        life.say("show");
    }
    life.say_all(&["read 3", "block", "listing"]);
}

/// Each rate too high at each place of a loaded table, of day types that are used and of others.
pub fn refused(seed: u64) -> Script {
    let mut life = Life::new(seed);
    let midnights = [switching_time(1, 0, 2), switching_time(2, 0, 3), default(1), weekdays(2, 1, 3)];
    for rate in rates_too_high() {
        for (day_type, minute) in
            [(1, 1), (1, SWITCHING), (2, SWITCHING), (DAY_TYPES, 0), (DAY_TYPES, 1), (5, MINUTES_PER_DAY - 1)]
        {
            let [k, t, x, y, z] = switching_time(day_type, minute, rate as u8);
            begin(&mut life, Made::Poly);
            life.edit(&midnights);
            life.say(format!("slot 60 {k} {t} {x} {y} {z}"));
            life.say_all(&["load", "show", "single", "show", "off", "single"]);
            let time = life.time();
            life.on(time);
            life.say(format!("slot 60 {k} {t} {x} {y} {}", Phase::Single.most_rate()));
            life.say_all(&["load", "single", "show"]);
            life.say(format!("slot 60 {k} {t} {x} {y} {z}"));
            life.say_all(&["load", &format!("rate {rate}"), "rate 2", "single", "show", "table"]);
        }
    }
    life.finish("conversions refused by a table")
}

/// Lives of anything: rates, tables of either phase kind, conversions and set-ups, energy and time in between.
pub fn anything(seed: u64) -> Script {
    let mut life = Life::new(seed);
    for _ in 0..10 {
        let made = *life.random.pick(&MADE);
        begin(&mut life, made);
        for _ in 0..90 {
            step(&mut life);
            life.say("show");
        }
        life.say("poke rate 1");
        deliver(&mut life);
        life.say_all(&["show", "table", "read 3", "block", "listing"]);
    }
    life.finish("anything on both phase kinds")
}

fn step(life: &mut Life) {
    match life.random.below(24) {
        0..=5 => use_energy(life),
        6..=9 => later(life),
        10..=14 => {
            let rate = life.random.below(RATES as u64 + 2);
            life.say(format!("rate {rate}"));
        }
        15 | 16 => load_any(life),
        17 => {
            life.say("single");
        }
        18 | 19 => {
            let kept = life.random.below(BLOCKS);
            life.say_all(&["read 2", "check", &format!("keep {kept}")]);
        }
        20 => {
            let rate = life.random.between(1, RATES as u64);
            life.say(format!("poke rate {rate}"));
        }
        21 => {
            let loaded = life.random.below(2);
            life.say(format!("poke loaded {loaded}"));
        }
        22 => life.say_all(&["poke rate 1", "access", "reverse", "reset"]),
        _ if life.random.once_in(3) => {
            let made = *life.random.pick(&MADE);
            begin(life, made);
        }
        _ => life.say_all(&["off", "single", "rate 5", "poke power 1"]),
    }
}

/// A small table of rates that either phase kind has, or polyphase alone.
fn load_any(life: &mut Life) {
    let most = *life.random.pick(&[Phase::Single.most_rate(), RATES as u64]);
    let (before, after) = (life.random.between(1, most), life.random.between(1, most));
    life.edit(&switching(before as u8, after as u8));
    life.say("load");
}
