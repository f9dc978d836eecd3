//! Long outages and long jumps of the clock, about a class's days and over the century. A recorder
//! that writes only the days still held must leave what closing every half-hour leaves.

use super::{Life, Script, LATEST_START, UNIT_A_PULSE};
use crate::calendar::{LAST_DAY, LAST_TIME, SECONDS_PER_DAY, SECONDS_PER_HALF_HOUR};
use crate::quantities::TOTAL_MODULUS;
use crate::recorder::{Class, MOST_ASKED};

/// 12:17, within a half-hour.
const AFTER_NOON: u64 = SECONDS_PER_DAY / 2 + 17 * 60;

/// The seconds of the day at which an outage begins, and at some of which it ends.
const INSTANTS: [u64; 7] = [
    0,
    1,
    SECONDS_PER_HALF_HOUR - 1,
    SECONDS_PER_HALF_HOUR,
    AFTER_NOON,
    SECONDS_PER_DAY - SECONDS_PER_HALF_HOUR,
    SECONDS_PER_DAY - 1,
];

/// From a whole number of days on: the half-hours passed are as many as theirs, one fewer or one more.
const SHIFTS: [i64; 5] = [-(SECONDS_PER_HALF_HOUR as i64), -1, 0, 1, SECONDS_PER_HALF_HOUR as i64];

/// Where on its last day an outage ends.
#[derive(Clone, Copy)]
enum End {
    /// So far from the second of the day at which it began.
    Shifted(i64),
    /// At a second of the day.
    At(u64),
}

impl End {
    fn all() -> impl Iterator<Item = End> + Clone {
        SHIFTS.into_iter().map(End::Shifted).chain(INSTANTS.into_iter().map(End::At))
    }

    /// The end of an outage of so many days that begins at a time.
    fn of(self, begin: u64, days: u64) -> u64 {
        let whole = begin + days * SECONDS_PER_DAY;
        match self {
            End::Shifted(shift) => whole.saturating_add_signed(shift),
            End::At(second) => whole - whole % SECONDS_PER_DAY + second,
        }
    }
}

/// Days about those that a class holds, and twice as many.
fn lengths(class: Class) -> [u64; 6] {
    let held = class.days() as u64;
    [held - 2, held - 1, held, held + 1, held + 2, 2 * held]
}

/// All long outages and jumps of the clock of one class.
pub fn long(seed: u64, class: Class) -> Script {
    let mut life = Life::new(seed);
    over_a_full_store(&mut life, class);
    from_set_up(&mut life, class);
    over_the_century(&mut life, class);
    to_the_last_second(&mut life, class);
    one_after_another(&mut life, class);
    life.finish(&format!("long outages of class {}", super::letter(class)))
}

/// Every day held has its own marks, flags and values. Each beginning meets each length and each end.
fn over_a_full_store(life: &mut Life, class: Class) {
    let mut ends = End::all().cycle();
    for by_on in [false, true] {
        for days in lengths(class) {
            begin_anywhere(life, class, 0);
            live(life, class.days() as u64);
            for (second, end) in INSTANTS.into_iter().zip(&mut ends) {
                live(life, 2);
                live_until(life, second);
                mark(life);
                let time = end.of(life.time(), days);
                outage(life, by_on, time);
            }
            rooms(life, class);
        }
    }
}

/// Begun on the day of set-up or soon after it: the store fills up on the way. Each length meets each shift.
fn from_set_up(life: &mut Life, class: Class) {
    let mut begins = INSTANTS.into_iter().cycle();
    let mut shifts = SHIFTS.into_iter().cycle();
    for by_on in [false, true] {
        for lived in [0, 1, 3] {
            for (days, (second, shift)) in lengths(class).into_iter().zip((&mut begins).zip(&mut shifts)) {
                begin_anywhere(life, class, second);
                live(life, lived);
                mark(life);
                let time = End::Shifted(shift).of(life.time(), days);
                outage(life, by_on, time);
            }
        }
    }
}

/// From the calendar's first days to its last but one. Every half-hour is closed here, so each class takes its
/// turn of the beginnings.
fn over_the_century(life: &mut Life, class: Class) {
    let ends = INSTANTS.into_iter().rev();
    let all = INSTANTS.into_iter().zip(ends).zip([false, true].into_iter().cycle());
    for ((second, end), by_on) in all.skip(class as usize).step_by(3) {
        begin(life, class, second);
        live(life, 2);
        live_until(life, second);
        mark(life);
        let days = LAST_DAY - 1 - life.today();
        let time = End::At(end).of(life.time(), days);
        outage(life, by_on, time);
    }
}

/// To 2099-12-31 23:59:59; an end past it is refused first, and changes nothing.
fn to_the_last_second(life: &mut Life, class: Class) {
    for (call, by_on) in [("clock", false), ("on", true)] {
        for (days, second) in lengths(class).into_iter().zip(INSTANTS).step_by(2) {
            begin(life, class, (LAST_DAY - days - 3) * SECONDS_PER_DAY);
            live(life, 2);
            live_until(life, second);
            mark(life);
            if by_on {
                life.say("off");
            }
            life.say(format!("{call} @{}", LAST_TIME + 1));
            life.say("show");
            rooms(life, class);
            let began = life.today();
            life.say(format!("{call} @{LAST_TIME}"));
            look(life, began);
            go_on(life);
        }
    }
}

/// Two without an event between them.
fn one_after_another(life: &mut Life, class: Class) {
    for by_on in [false, true] {
        let again = [by_on, !by_on].into_iter().cycle();
        for ((days, second), by_on_again) in lengths(class).into_iter().zip(INSTANTS.into_iter().rev()).zip(again) {
            begin_anywhere(life, class, 0);
            live(life, 2);
            live_until(life, second);
            mark(life);
            let time = End::At(AFTER_NOON).of(life.time(), days);
            pass(life, by_on, time);
            let time = End::At(second).of(life.time(), days);
            outage(life, by_on_again, time);
        }
    }
}

pub fn begin(life: &mut Life, class: Class, time: u64) {
    let total = life.random.below(TOTAL_MODULUS);
    let counter = life.random.bits() as u32;
    life.set_up(class, UNIT_A_PULSE, time, total, counter);
}

/// At a second of a day that leaves the calendar long enough for what follows.
pub fn begin_anywhere(life: &mut Life, class: Class, second: u64) {
    let day = life.random.below(LATEST_START / 2);
    begin(life, class, day * SECONDS_PER_DAY + second);
}

/// Energy for the running half-hour.
pub fn use_energy(life: &mut Life) {
    let pulses = life.random.between(1, life.pulses_left() / 9);
    life.pulses(pulses);
}

/// Some days, each with a reading, marks and flags of its own.
pub fn live(life: &mut Life, days: u64) {
    for _ in 0..days {
        use_energy(life);
        let event = *life.random.pick(&["access", "reverse", "reset", "meter 7"]);
        life.say(event);
        let second = life.random.below(SECONDS_PER_DAY);
        live_until(life, second);
    }
}

/// To a second of the next day.
pub fn live_until(life: &mut Life, second: u64) {
    let time = (life.today() + 1) * SECONDS_PER_DAY + second;
    life.clock(time);
}

/// The running half-hour gets energy and both marks, the day a flag.
fn mark(life: &mut Life) {
    use_energy(life);
    let flag = *life.random.pick(&["reset", "meter 9"]);
    life.say_all(&["access", "reverse", flag, "show"]);
}

/// Time passes at once, by Clock or by Off and On.
pub fn pass(life: &mut Life, by_on: bool, time: u64) {
    if by_on {
        life.say("off");
        life.on(time);
    } else {
        life.clock(time);
    }
}

/// What is passed, what it left, and life after it.
fn outage(life: &mut Life, by_on: bool, time: u64) {
    let began = life.today();
    pass(life, by_on, time);
    look(life, began);
    go_on(life);
}

/// The recorder; the rooms at both edges of what was passed, as they lie; and all days as they are read.
fn look(life: &mut Life, began: u64) {
    life.say("show");
    let today = life.today();
    for edge in [began, today] {
        for day in [edge.saturating_sub(1), edge, edge + 1] {
            life.day(day);
        }
    }
    life.say(format!("read {MOST_ASKED}"));
    life.say_all(&["block", "read 3", "listing"]);
}

/// Every room of the store.
fn rooms(life: &mut Life, class: Class) {
    for room in 0..class.days() as u64 {
        life.say(format!("day @{room}"));
    }
}

/// A few half-hours more, and a read.
fn go_on(life: &mut Life) {
    for event in ["access", "reverse", "rate 2"] {
        use_energy(life);
        life.say(event);
        let time = life.time() + SECONDS_PER_HALF_HOUR;
        life.clock(time);
    }
    let today = life.today();
    life.day(today);
    life.say_all(&["show", "read 2", "check", "block"]);
}
