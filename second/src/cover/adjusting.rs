//! Adjustments of the clock, as far as they must be met: both ends of the range, every number of seconds to a boundary
//! and to the second before it, the half-hours marked, times that were shown before, and a table's switching times.

use super::sides::{Side, Sides};
use crate::answer::*;
use crate::block::RATES;
use crate::calendar::{
    self, HALF_HOURS, LAST_TIME, MINUTES_PER_HALF_HOUR, SECONDS, SECONDS_PER_DAY, SECONDS_PER_HALF_HOUR,
};
use crate::recorder::{Recorder, MOST_SHIFT};
use crate::script::Player;
use crate::tariff;
use std::collections::BTreeSet;

const FORWARD: &str = "seconds forward";
const BACK: &str = "seconds back";

// Where a move goes, or where the second before which it goes is.
const BOUNDARY: &str = "a boundary";
const MIDNIGHT: &str = "a midnight";
const FIRST_SECOND: &str = "the first second of 2000";
const END: &str = "the end of 2099";

const BEFORE_SET_UP: &str = "seconds back to before the second of set-up";
const CLOSED: &str = "half-hour closed with the mark by a move, the next one without it";
const RUNNING: &str = "running half-hour marked by a move";
const READ_EARLIER: &str = "seconds by which a read is earlier than the one before it";
const RATE_AGAIN: &str = "rate active again after a move back";

// The minute of a half-hour at which a table switches.
const BACK_TO: &str = "minute of a switching, gone back to";
const BACK_OVER: &str = "minute of a switching, gone back over by a second";
const FORWARD_TO: &str = "minute of a switching, gone forward to";
const FORWARD_SHORT: &str = "minute of a switching, gone forward to the second before";

/// The calls that tell the time after a move back.
const TIMED: [&str; 2] = ["clock", "on"];

fn earlier(call: &str) -> String {
    format!("seconds by which a time told by {call} is earlier than the clock had shown")
}

fn before_moved(call: &str) -> String {
    format!("seconds before the time moved back to, told by {call}")
}

fn to(way: &str, place: &str) -> String {
    format!("{way} to {place}")
}

fn short_of(way: &str, place: &str) -> String {
    format!("{way} to the second before {place}")
}

/// Zero as it is written, and the seconds of its half-hour that have passed.
fn zero(word: &str) -> String {
    format!("seconds of a half-hour passed, marked by adjust {word}")
}

/// Every side that is to be met.
fn all() -> BTreeSet<Side> {
    let most = MOST_SHIFT as u64;
    let mut sides = BTreeSet::new();
    for way in [FORWARD, BACK] {
        sides.extend([0, 1, most].map(|seconds| (way.to_string(), seconds, DONE)));
        sides.extend([most + 1, u32::MAX.into()].map(|seconds| (way.to_string(), seconds, OUT_OF_RANGE)));
        for answer in [WRONG_POWER, WRONG_LENGTH, DAMAGED] {
            sides.extend([0, most, most + 1].map(|seconds| (way.to_string(), seconds, answer)));
        }
    }
    for (what, answer) in places() {
        sides.extend((1..=most).map(|seconds| (what.clone(), seconds, answer)));
        sides.insert((what, most + 1, OUT_OF_RANGE));
    }
    sides.extend((1..=most).map(|seconds| (BEFORE_SET_UP.to_string(), seconds, DONE)));
    for word in ["0", "-0"] {
        sides.extend([0, SECONDS_PER_HALF_HOUR - 1].map(|passed| (zero(word), passed, DONE)));
    }
    let done = |what: &str, number: u64| (what.to_string(), number, DONE);
    for half_hour in 0..HALF_HOURS as u64 {
        sides.extend([CLOSED, RUNNING].map(|what| done(what, half_hour)));
    }
    sides.extend([1, most].map(|seconds| done(READ_EARLIER, seconds)));
    for call in TIMED {
        sides.extend([1, most].map(|seconds| done(&earlier(call), seconds)));
        sides.extend([(before_moved(call), 0, DONE), (before_moved(call), 1, WRONG_TIME)]);
    }
    sides.extend((1..=RATES as u64).map(|rate| done(RATE_AGAIN, rate)));
    for minute in 1..MINUTES_PER_HALF_HOUR as u64 {
        sides.extend([BACK_TO, BACK_OVER].map(|what| done(what, minute)));
    }
    for minute in 0..MINUTES_PER_HALF_HOUR as u64 {
        sides.extend([FORWARD_TO, FORWARD_SHORT].map(|what| done(what, minute)));
    }
    sides
}

/// Where a move in range may go, and how it is answered.
fn places() -> Vec<(String, u32)> {
    let mut places = Vec::new();
    for place in [BOUNDARY, MIDNIGHT] {
        places.extend([(to(FORWARD, place), DONE), (short_of(FORWARD, place), DONE)]);
    }
    places.extend([(to(FORWARD, END), WRONG_TIME), (short_of(FORWARD, END), DONE)]);
    for place in [BOUNDARY, MIDNIGHT, FIRST_SECOND] {
        places.extend([(to(BACK, place), DONE), (short_of(BACK, place), HALF_HOUR_ENDED)]);
    }
    places
}

#[derive(Default)]
pub struct Adjusting {
    sides: Sides,
    /// Since the last set-up or poke: its time, the latest time that the clock has shown, and the time of the last read.
    set_up: u64,
    shown: u64,
    read: u64,
}

/// A line about an adjustment: the number that it gives, whether it goes back, and the answer.
struct Move {
    seconds: u64,
    back: bool,
    number: u32,
}

impl Move {
    fn way(&self) -> &'static str {
        if self.back {
            BACK
        } else {
            FORWARD
        }
    }

    fn goes_to(&self, time: u64) -> i64 {
        let seconds = self.seconds as i64;
        time as i64 + if self.back { -seconds } else { seconds }
    }
}

impl Adjusting {
    /// A line, as it was answered, between the recorder before it and all that is there after it.
    pub fn add(&mut self, before: &Recorder, line: &[u8], answer: &str, player: &mut Player) {
        let Some(number) = answer.split(' ').next().and_then(|number| number.parse().ok()) else { return };
        let words: Vec<&[u8]> = line.split(|&byte| byte == b' ').collect();
        let time = player.recorder.time;
        match words[..] {
            [b"setup", ..] => (self.set_up, self.shown, self.read) = (time, time, time),
            // A poked time is none that a clock has shown.
            [b"poke", ..] => (self.set_up, self.shown, self.read) = (0, time, time),
            [b"clock", told] => self.add_time("clock", before.time, told, number),
            [b"on", told] => self.add_time("on", before.time, told, number),
            [b"read", _] if number == DONE => {
                self.sides.meet(READ_EARLIER, self.read.saturating_sub(time), DONE);
                self.read = time;
            }
            [b"adjust", word] => {
                let digits = word.strip_prefix(b"-");
                let Some(seconds) = calendar::digits(digits.unwrap_or(word)) else { return };
                self.add_move(before, word, Move { seconds, back: digits.is_some(), number }, player);
            }
            _ => {}
        }
        self.shown = self.shown.max(time);
    }

    /// A time in seconds, told after a move back to the present time.
    fn add_time(&mut self, call: &str, now: u64, told: &[u8], number: u32) {
        let Some(told) = told.strip_prefix(b"@").and_then(calendar::digits) else { return };
        if now < self.shown && told < self.shown {
            self.sides.meet(earlier(call), self.shown - told, number);
        }
        if now < self.shown && told <= now {
            self.sides.meet(before_moved(call), now - told, number);
        }
    }

    fn add_move(&mut self, before: &Recorder, word: &[u8], told: Move, player: &mut Player) {
        self.sides.meet(told.way(), told.seconds, told.number);
        let refused_anyway = [WRONG_POWER, WRONG_LENGTH, DAMAGED].contains(&told.number);
        if !refused_anyway && told.seconds > 0 {
            self.add_place(before.time, &told);
        }
        if told.number == DONE {
            let passed = before.time % SECONDS_PER_HALF_HOUR;
            if told.seconds == 0 && !before.level2 && player.recorder.level2 {
                self.sides.meet(zero(&String::from_utf8_lossy(word)), passed, DONE);
            }
            if player.recorder.time < self.set_up {
                self.sides.meet(BEFORE_SET_UP, told.seconds, DONE);
            }
            self.add_mark(before, player);
            self.add_rate(before, &told, player);
        }
    }

    /// Where the move goes, if that is a boundary or the second before one.
    fn add_place(&mut self, time: u64, told: &Move) {
        let moved = told.goes_to(time);
        for (boundary, what) in [(moved, to as fn(&str, &str) -> String), (moved + 1, short_of)] {
            if boundary % SECONDS_PER_HALF_HOUR as i64 != 0 {
                continue;
            }
            let is_end = boundary > LAST_TIME as i64;
            let is_midnight = boundary % SECONDS_PER_DAY as i64 == 0;
            let places: &[&str] = match boundary {
                0 => &[FIRST_SECOND],
                _ if is_end => &[END],
                _ if is_midnight => &[BOUNDARY, MIDNIGHT],
                _ => &[BOUNDARY],
            };
            for place in places {
                self.sides.meet(what(told.way(), place), told.seconds, told.number);
            }
        }
    }

    /// The mark of a half-hour that had none: in the store where the move closed it, and then not in the next one.
    fn add_mark(&mut self, before: &Recorder, player: &mut Player) {
        let day = calendar::day_of(before.time);
        let half_hour = calendar::ended(before.time, day);
        let closed = player.recorder.time / SECONDS_PER_HALF_HOUR > before.time / SECONDS_PER_HALF_HOUR;
        if before.level2 {
            return;
        }
        if !closed && player.recorder.level2 {
            self.sides.meet(RUNNING, half_hour as u64, DONE);
        }
        if closed && !player.recorder.level2 {
            let shown = player.play_line(0, format!("day @{day}").as_bytes()).unwrap_or_default();
            let marks: u64 = shown.split(' ').nth(3).and_then(|word| word.parse().ok()).unwrap_or_default();
            if marks % 2 == 1 {
                self.sides.meet(CLOSED, half_hour as u64, DONE);
            }
        }
    }

    /// Under an accepted table: a switching time that the move goes to or to the second before.
    fn add_rate(&mut self, before: &Recorder, told: &Move, player: &mut Player) {
        let Recorder { time, rate, loaded, .. } = player.recorder;
        let room = player.room();
        if !loaded || told.seconds == 0 || tariff::judge(room).is_err() {
            return;
        }
        if told.back && rate != before.rate {
            self.sides.meet(RATE_AGAIN, rate, DONE);
        }
        let switches = |time: u64| time > 0 && tariff::rate_at(room, time - 1) != tariff::rate_at(room, time);
        let minute = |time: u64| time % SECONDS_PER_HALF_HOUR / SECONDS;
        if switches(time) {
            self.sides.meet(if told.back { BACK_TO } else { FORWARD_TO }, minute(time), DONE);
        }
        if time < LAST_TIME && switches(time + 1) {
            self.sides.meet(if told.back { BACK_OVER } else { FORWARD_SHORT }, minute(time + 1), DONE);
        }
    }

    pub fn told(&self) -> bool {
        self.sides.told("sides of adjustments", &all())
    }
}
