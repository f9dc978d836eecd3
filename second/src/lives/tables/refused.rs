//! Tables that clash, each way alone and beside values out of range; and which answer comes where several are due: by
//! load, by Rate, by set-up and by every other call, in recorders in all states.

use super::limits::plain;
use super::{default, every_year, exception, switching_time, weekdays};
use crate::calendar::{self, DAYS, LAST_DAY, MINUTES_PER_DAY, SECONDS_PER_DAY, WEEKDAYS};
use crate::lives::{hostile, Life, Script, IDENTIFIER, UNIT_A_PULSE};
use crate::recorder::Class;
use crate::script::MOST_TABLE_BYTES;
use crate::tariff::{Slot, DAY_TYPES, DEFAULT, EVERY_YEAR, EXCEPTION, TABLE_BYTES, TIME, WEEKDAY_RUN};

/// A recorder of class a at a time, and its power back at that time.
const SET_UP: &str = "setup ABCX24000017 a p 1000 @1000000000 0 0";
const ON: &str = "on @1000000000";

/// Two entries, and whether they clash is for the rules to say.
fn pairs(life: &mut Life) -> Vec<[Slot; 2]> {
    let leap_day = calendar::read_date(b"240229").unwrap_or_default();
    let mut pairs = Vec::new();
    for day in [leap_day, leap_day - 1, leap_day + 1, 0, LAST_DAY, life.random.below(DAYS)] {
        // Four years later the date is real, too.
        let [kind, _, year, month, date] = exception(2, day);
        let other_year = [kind, 2, (year + 4) % EVERY_YEAR, month, date];
        let next_day = every_year(3, (day + 1).min(LAST_DAY));
        for one in [every_year(2, day), exception(2, day)] {
            for other in [every_year(3, day), exception(3, day), exception(2, day), other_year, next_day] {
                pairs.push([one, other]);
            }
        }
    }
    let runs: Vec<Slot> = (1..=WEEKDAYS as u8)
        .flat_map(|first| (first..=WEEKDAYS as u8).map(move |last| weekdays(2, first, last)))
        .collect();
    for &one in &runs {
        pairs.extend(runs.iter().map(|&other| [one, other]));
    }
    for minute in [0, 1, MINUTES_PER_DAY / 3, MINUTES_PER_DAY - 1, life.random.below(MINUTES_PER_DAY as u64) as usize] {
        for (day_type, at, rate) in
            [(4, minute, 2), (4, minute, 3), (5, minute, 2), (4, (minute + 1) % MINUTES_PER_DAY, 2)]
        {
            pairs.push([switching_time(4, minute, 2), switching_time(day_type, at, rate)]);
        }
    }
    pairs.extend((1..=DAY_TYPES).map(|day_type| [default(1), default(day_type)]));
    pairs
}

/// Every pair alone, in either order.
pub fn clashes(seed: u64) -> Script {
    let mut life = Life::new(seed);
    life.set_up(Class::A, UNIT_A_PULSE, 0, 0, 0);
    for pair in pairs(&mut life) {
        let mut entries = plain();
        // The pair's own midnights and defaults are the only ones.
        entries
            .retain(|entry| !pair.iter().any(|own| own[..4] == entry[..4] || entry[0] == DEFAULT && own[0] == DEFAULT));
        let at = life.random.below(entries.len() as u64 + 1) as usize;
        entries.insert(at, pair[0]);
        let at = life.random.below(entries.len() as u64 + 1) as usize;
        entries.insert(at, pair[1]);
        life.edit(&entries);
        life.say_all(&["load", "show"]);
        let day = life.random.below(DAYS);
        life.week(day);
        life.rate_at(day * SECONDS_PER_DAY);
    }
    life.finish("tables that clash")
}

/// Tables with both faults: a value out of range, or a rate from 00:00 missing, beside a clash.
pub fn faults(seed: u64) -> Script {
    let mut life = Life::new(seed);
    life.set_up(Class::A, UNIT_A_PULSE, 0, 0, 0);
    let clashing: [&[Slot]; 4] = [
        &[default(1)],
        &[weekdays(2, 1, 5), weekdays(3, 5, 7)],
        &[every_year(2, 59), exception(3, 59)],
        &[switching_time(3, 0, 3)],
    ];
    let wrong: [&[Slot]; 8] = [
        &[],
        &[[TIME, 1, 24, 0, 1]],
        &[[TIME, 1, 1, 0, 9]],
        &[[EXCEPTION, 1, 23, 2, 29]],
        &[[WEEKDAY_RUN, 1, 7, 6, 0]],
        &[[DEFAULT, 9, 0, 0, 0]],
        &[[DEFAULT + 1, 1, 0, 0, 0]],
        &[[0, 0, 0, 0, 7]],
    ];
    for clash in clashing {
        for fault in wrong {
            let entries = [&plain()[..], clash, fault].concat();
            life.edit(&entries);
            life.say_all(&["load", "week 240226", "week 991225", "week 991226", "week @99999", "show"]);
            for length in [0, TABLE_BYTES - 1, TABLE_BYTES, MOST_TABLE_BYTES] {
                life.say(format!("load {length}"));
            }
        }
        let served: Vec<Slot> = plain().into_iter().filter(|entry| entry[1] != 8).collect();
        for named in [default(8), weekdays(8, 3, 3), every_year(8, 59), exception(8, 59)] {
            let entries = [&served[..], clash, &[named]].concat();
            life.edit(&entries);
            life.say_all(&["load", "week 240226"]);
        }
    }
    life.finish("tables with two faults")
}

/// Recorders in all states, a table loaded or not, and every call to them.
pub fn states(seed: u64) -> Script {
    let mut life = Life::new(seed);
    let [short, right, long] = [TABLE_BYTES - 1, TABLE_BYTES, MOST_TABLE_BYTES].map(|n| format!("lend table {n}"));
    let past_rates = format!("poke {}", hostile::rate_too_many());
    let states: [(&[&str], &[&str]); 12] = [
        (&[], &[]),
        (&["off"], &[ON]),
        (&["lend 0 0 0"], &["lend"]),
        (&["lend table 0"], &["lend"]),
        (&[&short], &[&right]),
        (&[&long], &["lend"]),
        (&["poke class 0"], &["poke class 1"]),
        (&["poke class 0", "lend table 1"], &["poke class 1", "lend"]),
        (&[&past_rates], &["poke rate 1"]),
        (&["poke rate 0", "off", &short], &["lend", "poke rate 1", ON]),
        (&["off", &past_rates], &["poke rate 1", ON]),
        (&["off", &long], &["lend", ON]),
    ];
    for loaded in [false, true] {
        for (spoil, mend) in states {
            life.say("lend");
            life.say(SET_UP);
            life.edit(&plain());
            if loaded {
                life.say("load");
            }
            life.say_all(spoil);
            every_load(&mut life);
            life.edit(&plain());
            hostile::every_call(&mut life);
            life.say_all(&["count 4000000000", "rate 3", "rate 1", "clock @0", "on @0", "show", "table", "read 1"]);
            life.say_all(mend);
            life.say_all(&["show", "load", "show", "table"]);
            every_set_up(&mut life, spoil);
        }
    }
    life.finish("loads and rates in all states")
}

/// Loads that are accepted, out of range, clashing and both; none of them changes what it must not.
fn every_load(life: &mut Life) {
    let lengths = [0, TABLE_BYTES - 1, MOST_TABLE_BYTES].map(|length| format!("load {length}"));
    for wrong in ["#", "default 1", "default 9"] {
        life.say_all(&[wrong, "load"]);
        for length in &lengths {
            life.say(length);
        }
    }
    life.say_all(&["show", "table"]);
}

/// Set-ups accepted and refused: an accepted one clears the room and unloads the table, a refused one leaves the room.
fn every_set_up(life: &mut Life, spoil: &[&str]) {
    for weight in ["1000", "0", "1000"] {
        for class in ["a", "e", "b"] {
            life.say("load");
            life.say_all(spoil);
            life.say(format!("setup {IDENTIFIER} {class} p {weight} @1000000000 0 0"));
            life.say_all(&["show", "lend", "table", "load", "show", "rate 2", "show", SET_UP]);
        }
    }
}
