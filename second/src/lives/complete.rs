//! Lives about the complete days of a class: midnights since set-up, passed at once and one by one, days stored and
//! lengths lent, each on both sides of its limit.

use super::outages::{begin, begin_anywhere, live, live_until, pass, use_energy};
use super::{hostile, letter, Life, Script, IDENTIFIER, UNIT_A_PULSE};
use crate::calendar::SECONDS_PER_DAY;
use crate::recorder::{Class, StoreLength, MOST_ASKED};
use crate::script::LONGEST_STORE;
use std::ops::RangeInclusive;

/// All about the complete days of one class.
pub fn days(seed: u64, class: Class) -> Script {
    let mut life = Life::new(seed);
    at_once(&mut life, class);
    one_by_one(&mut life, class);
    days_stored(&mut life, class);
    earliest_days(&mut life, class);
    lengths(&mut life, class);
    life.finish(&format!("complete days of class {}", letter(class)))
}

fn complete_days(class: Class) -> u64 {
    class.complete_days() as u64
}

/// Midnights since set-up: one fewer than the complete days, as many, and more, so that the first days go.
fn midnights(class: Class) -> RangeInclusive<u64> {
    let complete = complete_days(class);
    complete - 1..=complete + 3
}

/// By one Clock, or by Off and On, from the day of set-up or from some days later.
fn at_once(life: &mut Life, class: Class) {
    for midnights in midnights(class) {
        for by_on in [false, true] {
            for lived in [0, 3] {
                let second = life.random.below(SECONDS_PER_DAY);
                begin_anywhere(life, class, second);
                let first = life.today();
                live(life, lived);
                use_energy(life);
                let time = (first + midnights) * SECONDS_PER_DAY + life.random.below(SECONDS_PER_DAY);
                pass(life, by_on, time);
                look(life, class, first);
                // The next midnight, by the other call.
                use_energy(life);
                let time = (life.today() + 1) * SECONDS_PER_DAY;
                pass(life, !by_on, time);
                look(life, class, first);
            }
        }
    }
}

/// Each midnight by itself, every day with energy of its own.
fn one_by_one(life: &mut Life, class: Class) {
    begin_anywhere(life, class, 0);
    let first = life.today();
    for passed in 1..=*midnights(class).end() {
        use_energy(life);
        let second = life.random.below(SECONDS_PER_DAY);
        let second = *life.random.pick(&[0, 1, second]);
        let time = (first + passed) * SECONDS_PER_DAY + second;
        let by_on = life.random.once_in(4);
        pass(life, by_on, time);
        if midnights(class).contains(&passed) {
            look(life, class, first);
        }
    }
}

/// The recorder; reads about the complete days; the oldest day that must be there, the day that has just gone, whose
/// room is today's, and the two newest.
fn look(life: &mut Life, class: Class, first: u64) {
    life.say("show");
    let complete = complete_days(class);
    for asked in [complete, complete + 2, u64::from(MOST_ASKED), complete + 1] {
        life.say(format!("read {asked}"));
        life.say("check");
    }
    life.say_all(&["listing", "block"]);
    let today = life.today();
    let oldest = today.saturating_sub(complete).max(first);
    for day in [oldest, oldest.saturating_sub(1), today - 1, today] {
        life.day(day);
    }
}

/// Days stored poked about the class's, in a store that has them all and in one that hasn't.
fn days_stored(life: &mut Life, class: Class) {
    let complete = complete_days(class);
    for lived in [1, complete + 2] {
        for days in [0, 1, complete - 1, complete, complete + 1, complete + 2] {
            let day = life.random.between(2 * complete, 3 * complete);
            begin(life, class, day * SECONDS_PER_DAY);
            live(life, 1);
            use_energy(life);
            let time = life.time() + lived * SECONDS_PER_DAY;
            life.clock(time);
            poke_days(life, days);
        }
    }
}

/// In the calendar's first days no more can be stored than there are.
fn earliest_days(life: &mut Life, class: Class) {
    let complete = complete_days(class);
    for today in complete - 1..=complete + 1 {
        for days in complete..=complete + 2 {
            begin(life, class, 0);
            use_energy(life);
            life.clock(today * SECONDS_PER_DAY);
            poke_days(life, days);
        }
    }
}

/// So many days stored: reads, an event, and the next midnight.
fn poke_days(life: &mut Life, days: u64) {
    life.say(format!("poke days {days}"));
    for asked in [0, days.saturating_sub(1), days, u64::from(MOST_ASKED)] {
        life.say(format!("read {asked}"));
    }
    life.say_all(&["check", "access"]);
    live_until(life, 0);
    life.say_all(&["show", &format!("read {MOST_ASKED}"), "check"]);
}

/// A store of one room less, which has room for the complete days alone, and of one more.
fn lengths(life: &mut Life, class: Class) {
    for rooms in [class.complete_days(), class.days() + 1] {
        let length = StoreLength::of_rooms(rooms);
        if length.values > LONGEST_STORE.values {
            continue;
        }
        begin_anywhere(life, class, 0);
        live(life, 1);
        life.lend(length);
        hostile::every_call(life);
        life.say("show");
        life.say(format!("setup {IDENTIFIER} {} p {UNIT_A_PULSE} 240229 110000 0 0", letter(class)));
        life.say_all(&["show", "lend"]);
    }
}
