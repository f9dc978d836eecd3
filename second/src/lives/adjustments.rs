//! Lives whose clocks are adjusted: the half-hours that this marks, runs with several adjustments in a half-hour whose
//! blocks are filed in any order, and what follows a move back.

pub mod distances;
pub mod numbers;

use super::{Life, Script, IDENTIFIER, LATEST_START, UNIT_A_PULSE};
use crate::calendar::{HALF_HOURS, SECONDS_PER_DAY, SECONDS_PER_HALF_HOUR};
use crate::quantities::TOTAL_MODULUS;
use crate::recorder::{Class, MOST_SHIFT};

/// The blocks that a run keeps, from 0 on, and the days that they ask for and that its ledgers have.
const RUN_BLOCKS: u64 = 12;
const RUN_DAYS: u64 = 2;

/// Each half-hour of a day marked by an adjustment alone: forward over its end, or inside it, forward, back or by
/// nothing, and closed by what follows.
pub fn marks(seed: u64) -> Script {
    let mut life = Life::new(seed);
    for half_hour in 0..HALF_HOURS as u64 {
        for seconds in [MOST_SHIFT, 1, 0, -1, -MOST_SHIFT] {
            let day = life.random.below(LATEST_START);
            let begin = day * SECONDS_PER_DAY + half_hour * SECONDS_PER_HALF_HOUR;
            let end = begin + SECONDS_PER_HALF_HOUR;
            let start = if seconds > 0 { end - seconds as u64 } else { begin + seconds.unsigned_abs() };
            life.set_up(Class::A, UNIT_A_PULSE, start, 0, 0);
            life.say("count 5");
            life.adjust(seconds);
            life.say_all(&["show", "read 1", "listing"]);
            life.clock(end);
            life.say("count 8");
            life.clock(end + SECONDS_PER_HALF_HOUR);
            life.say("show");
            life.day(day);
            life.say_all(&["read 2", "listing", "block"]);
        }
    }
    life.finish("half-hours that an adjustment marks")
}

/// Runs of some hours, read between adjustments, and ledgers that take the blocks in any order: none is refused.
pub fn runs(seed: u64) -> Script {
    let mut life = Life::new(seed);
    for _ in 0..10 {
        let first = life.random.below(LATEST_START);
        let total = life.random.below(TOTAL_MODULUS);
        let late = *life.random.pick(&[0, 2, 20]);
        let time = (first + 1) * SECONDS_PER_DAY - late * SECONDS_PER_HALF_HOUR - life.random.below(4_000);
        life.set_up(Class::A, UNIT_A_PULSE, time, total, 0);
        for kept in 0..RUN_BLOCKS {
            half_hour(&mut life);
            let asked = life.random.between(1, RUN_DAYS);
            life.say(format!("read {asked}"));
            life.say_all(&["listing", &format!("keep {kept}")]);
        }
        for _ in 0..4 {
            ledger(&mut life, first);
        }
    }
    life.finish("runs with adjustments")
}

/// Several adjustments, most of which stay in the running half-hour, and what else may happen between them.
fn half_hour(life: &mut Life) {
    if life.random.once_in(2) {
        let time = life.time() + life.random.below(SECONDS_PER_HALF_HOUR);
        life.clock(time);
    }
    for _ in 0..life.random.between(1, 5) {
        life.random_adjust();
        let pulses = life.random.below(200);
        life.pulses(pulses);
        let events = ["access", "reverse", "reset", "meter 40", "rate 3", "rate 1", "ppp x7Y", "show", "#", "#"];
        let event = *life.random.pick(&events);
        life.say(event);
        if life.random.once_in(8) {
            life.say("off");
            let time = life.time() + life.random.below(SECONDS_PER_HALF_HOUR);
            life.on(time);
        }
    }
    life.say("show");
}

/// A run's blocks, some of them twice, in any order.
fn ledger(life: &mut Life, first: u64) {
    let word = life.day_word(first);
    life.say(format!("open {IDENTIFIER} {word} {RUN_DAYS}"));
    let mut order: Vec<u64> = (0..RUN_BLOCKS).chain((0..RUN_BLOCKS).filter(|_| life.random.once_in(3))).collect();
    life.random.shuffle(&mut order);
    for kept in order {
        life.say(format!("deliver {kept}"));
    }
    life.say("ledger");
    for day in first..first + RUN_DAYS {
        life.summary_and_missing(day);
    }
}

/// The blocks read before a move back and after it.
fn either_order(life: &mut Life) {
    let word = life.day_word(life.today());
    for order in [["deliver 0", "deliver 1"], ["deliver 1", "deliver 0"]] {
        life.say(format!("open {IDENTIFIER} {word} 1"));
        life.say_all(&order);
        life.say("ledger");
    }
}

/// Reads, Clocks and power lost after a move back: a Clock or an On is held against the time moved to, whatever the clock
/// had shown before.
pub fn moved_back(seed: u64) -> Script {
    let mut life = Life::new(seed);
    let half_hour = SECONDS_PER_HALF_HOUR as i64;
    for back in [1, 2, 60, MOST_SHIFT - 1, MOST_SHIFT] {
        for later in [0, 1, back - 1, back, back + 1, half_hour - 1, half_hour, SECONDS_PER_DAY as i64] {
            let day = life.random.between(1, LATEST_START);
            let (passed, late) = (life.random.below(SECONDS_PER_HALF_HOUR - back as u64), life.random.below(2));
            let begin = day * SECONDS_PER_DAY - late * SECONDS_PER_HALF_HOUR;
            life.set_up(Class::A, UNIT_A_PULSE, begin - SECONDS_PER_DAY / 2, 0, 0);
            life.clock(begin + passed + back as u64);
            life.pulses(9);
            life.say_all(&["read 1", "keep 0"]);
            life.adjust(-back);
            life.say_all(&["read 1", "keep 1"]);
            either_order(&mut life);
            pass_again(&mut life, later as u64);
        }
    }
    life.finish("what follows a move back")
}

/// A Clock to the second before and to the time moved to; power lost, what is tried in between, and the same by On.
fn pass_again(life: &mut Life, later: u64) {
    let moved = life.time();
    life.say_all(&[&format!("clock @{}", moved - 1), &format!("clock @{moved}"), "show", "off"]);
    for seconds in [0, -1, 1, MOST_SHIFT, -MOST_SHIFT - 1, MOST_SHIFT + 1] {
        life.adjust(seconds);
    }
    life.say_all(&[&format!("on @{}", moved - 1), &format!("on @{}", moved + later), "show"]);
    life.random_adjust();
    life.say_all(&["show", "read 2", "listing"]);
    let today = life.today();
    life.day(today);
}
