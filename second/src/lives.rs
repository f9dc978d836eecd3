//! Generators of scripts. A life is written line by line and played at once, so that
//! its next line can follow from where it stands; the seed alone decides it.

mod adjustments;
mod boundaries;
mod calls;
mod characters;
mod complete;
mod conflicts;
mod damage;
mod dates;
mod ends;
mod hostile;
mod lines;
mod longest;
mod names;
mod ordinary;
mod outages;
mod phases;
mod round;
mod tables;
mod weights;
mod writer;

pub use characters::EDGES;
pub use round::round;
#[cfg(test)]
pub use tables::random_entries;
pub use weights::WEIGHTS;

use crate::block::{DEMAND_RESET, FLAGS, RATES};
use crate::calendar::{self, SECONDS_PER_HALF_HOUR};
use crate::identifier::PPP_LENGTH;
use crate::quantities::{
    LEAST_WEIGHT, MOST_UNITS, MOST_WEIGHT, THOUSANDTHS_PER_UNIT, THOUSANDTHS_PER_WATT_HOUR, TOTAL_MODULUS,
};
use crate::random::Random;
use crate::recorder::{Class, Phase, Recorder, StoreLength, MOST_SHIFT};
use crate::script::{Player, MOST_SCRIPT_BYTES};

/// The example's identifier, and another meter's.
pub const IDENTIFIER: &str = "ABCX24000017";
const OTHER_METER: &str = "ABCX24000018";

/// The characters of PPP.
const LETTERS_AND_DIGITS: &[u8] = b"ABCDEFGHIJKLMNOPQRSTUVWXYZabcdefghijklmnopqrstuvwxyz0123456789";

/// Below the most that a script may have, with room for a last long line.
const FULL_SCRIPT: usize = MOST_SCRIPT_BYTES - 300_000;

/// Most lives begin by this day, so that they can fill the longest store within the calendar.
const LATEST_START: u64 = calendar::DAYS - Class::D.days() as u64 - 75;

/// One watt-hour in thousandths, and a weight of one register unit a pulse.
const WATT_HOUR: u64 = THOUSANDTHS_PER_WATT_HOUR;
const UNIT_A_PULSE: u64 = THOUSANDTHS_PER_UNIT;
/// The thousandths of the first units that no half-hour takes.
const FULL_HALF_HOUR: u64 = (MOST_UNITS + 1) * THOUSANDTHS_PER_UNIT;

/// The greatest number of 32 bits.
const MOST_32_BITS: u64 = u32::MAX as u64;

pub struct Script {
    pub name: String,
    pub text: Vec<u8>,
}

/// A life being written.
struct Life {
    random: Random,
    player: Player,
    text: Vec<u8>,
    lines: usize,
}

impl Life {
    fn new(seed: u64) -> Life {
        Life { random: Random::new(seed), player: Player::new(), text: Vec::new(), lines: 0 }
    }

    /// Writes a line, plays it and gives its answer.
    fn say(&mut self, line: impl AsRef<[u8]>) -> String {
        self.text.extend(line.as_ref());
        self.text.push(b'\n');
        self.lines += 1;
        self.player.play_line(self.lines, line.as_ref()).unwrap_or_default()
    }

    fn say_all(&mut self, lines: &[&str]) {
        for line in lines {
            self.say(line);
        }
    }

    fn is_full(&self) -> bool {
        self.text.len() > FULL_SCRIPT
    }

    fn finish(self, name: &str) -> Script {
        Script { name: name.to_string(), text: self.text }
    }

    fn time(&self) -> u64 {
        self.player.recorder.time
    }

    fn today(&self) -> u64 {
        calendar::day_of(self.time())
    }

    /// A time in either of its two forms.
    fn time_words(&mut self, time: u64) -> String {
        if time > calendar::LAST_TIME || self.random.once_in(4) {
            format!("@{time}")
        } else {
            format!("{} {}", calendar::write_date(calendar::day_of(time)), calendar::write_seconds(time))
        }
    }

    /// A day in either of its two forms.
    fn day_word(&mut self, day: u64) -> String {
        if day >= calendar::DAYS || self.random.once_in(4) {
            format!("@{day}")
        } else {
            calendar::write_date(day)
        }
    }

    /// On polyphase, where every rate can be chosen.
    fn set_up(&mut self, class: Class, weight: u64, time: u64, total: u64, counter: u32) -> String {
        self.set_up_as(Phase::Poly, class, weight, time, total, counter)
    }

    fn set_up_as(&mut self, phase: Phase, class: Class, weight: u64, time: u64, total: u64, counter: u32) -> String {
        let (class, phase, time) = (letter(class), phase_letter(phase), self.time_words(time));
        self.say(format!("setup {IDENTIFIER} {class} {phase} {weight} {time} {total} {counter}"))
    }

    /// Mostly polyphase.
    fn random_phase(&mut self) -> Phase {
        *self.random.pick(&[Phase::Poly, Phase::Poly, Phase::Single])
    }

    fn random_ppp(&mut self) -> String {
        (0..PPP_LENGTH).map(|_| char::from(*self.random.pick(LETTERS_AND_DIGITS))).collect()
    }

    fn rewrite_ppp(&mut self) {
        let ppp = self.random_ppp();
        self.say(format!("ppp {ppp}"));
    }

    fn clock(&mut self, time: u64) -> String {
        let time = self.time_words(time);
        self.say(format!("clock {time}"))
    }

    fn on(&mut self, time: u64) -> String {
        let time = self.time_words(time);
        self.say(format!("on {time}"))
    }

    /// An adjustment; zero in either of its two forms.
    fn adjust(&mut self, seconds: i64) -> String {
        let sign = if seconds < 0 || seconds == 0 && self.random.once_in(2) { "-" } else { "" };
        self.say(format!("adjust {sign}{}", seconds.unsigned_abs()))
    }

    /// Seconds to adjust by: any, few, and those to the running half-hour's beginning, to its end and beside them.
    fn random_shift(&mut self) -> i64 {
        let passed = (self.time() % SECONDS_PER_HALF_HOUR) as i64;
        let left = SECONDS_PER_HALF_HOUR as i64 - passed;
        let any = self.random.below(2 * MOST_SHIFT as u64 + 1) as i64 - MOST_SHIFT;
        *self.random.pick(&[any, any, any, any / 60, -passed, -passed - 1, left, left - 1])
    }

    fn random_adjust(&mut self) {
        let seconds = self.random_shift();
        self.adjust(seconds);
    }

    /// A count so many pulses on.
    fn pulses(&mut self, pulses: u64) -> String {
        let counter = self.player.recorder.last.wrapping_add(pulses as u32);
        self.say(format!("count {counter}"))
    }

    fn pulses_left(&self) -> u64 {
        pulses_left(&self.player.recorder)
    }

    /// A weight of whole watt-hours, of less than one, or of any thousandths.
    fn random_weight(&mut self) -> u64 {
        match self.random.below(4) {
            0 | 1 => WATT_HOUR * self.random.between(1, MOST_WEIGHT / WATT_HOUR),
            2 => self.random.between(LEAST_WEIGHT, WATT_HOUR - 1),
            _ => self.random.between(LEAST_WEIGHT, MOST_WEIGHT),
        }
    }

    fn day(&mut self, day: u64) -> String {
        let day = self.day_word(day);
        self.say(format!("day {day}"))
    }

    fn summary_and_missing(&mut self, day: u64) {
        let day = self.day_word(day);
        self.say(format!("summary {day}"));
        self.say(format!("missing {day}"));
    }

    fn random_flags(&mut self) -> u64 {
        DEMAND_RESET * self.random.below(FLAGS / DEMAND_RESET + 1)
    }

    fn lend(&mut self, length: StoreLength) {
        self.say(format!("lend {} {} {}", length.values, length.starts, length.marks));
    }

    /// A fresh recorder with a few days behind it, power on, marks and flags among them.
    fn lived(&mut self, class: Class, days: u64) {
        let start = self.random.between(600, LATEST_START) * calendar::SECONDS_PER_DAY + self.random.below(80_000);
        let weight = self.random_weight();
        let total = self.random.below(TOTAL_MODULUS);
        let counter = self.random.bits() as u32;
        self.set_up(class, weight, start, total, counter);
        let end = start + days * calendar::SECONDS_PER_DAY;
        while self.time() < end {
            let pulses = self.random.below(self.pulses_left() / 3 + 2);
            self.pulses(pulses);
            let last_rate = format!("rate {RATES}");
            let ppp = format!("ppp {}", self.random_ppp());
            let events = ["access", "reverse", "reset", "rate 2", "meter 77", &last_rate, &ppp];
            let others = ["adjust 0", "adjust -200", "#", "#", "#", "#"];
            let event = *self.random.pick(&[&events[..], &others].concat());
            self.say(event);
            let time = (self.time() + self.random.between(1_000, 20_000)).min(end);
            self.clock(time);
        }
    }
}

/// The most pulses that a recorder's running half-hour still takes.
pub fn pulses_left(recorder: &Recorder) -> u64 {
    let units = MOST_UNITS.saturating_sub(recorder.running_units());
    let thousandths = (units + 1) * THOUSANDTHS_PER_UNIT - 1 - recorder.total % THOUSANDTHS_PER_UNIT;
    thousandths.checked_div(recorder.weight).unwrap_or(0)
}

fn letter(class: Class) -> &'static str {
    match class {
        Class::A => "a",
        Class::B => "b",
        Class::C => "c",
        Class::D => "d",
    }
}

pub fn phase_letter(phase: Phase) -> &'static str {
    match phase {
        Phase::Single => "s",
        Phase::Poly => "p",
    }
}

/// A write into an output of so many bytes.
fn write_into(room: usize) -> String {
    format!("write {room}")
}

/// An identifier of the example's meter.
fn with_ppp(ppp: &str) -> String {
    format!("{ppp}{}", &IDENTIFIER[PPP_LENGTH..])
}

/// The events at their plainest, at a present time; the load and the conversion to single phase last, since Rate is
/// refused after the one and some rates after the other.
fn plain_events(time: u64, last: u32) -> [String; 13] {
    [
        format!("count {last}"),
        format!("clock @{time}"),
        "off".to_string(),
        format!("on @{time}"),
        "access".to_string(),
        format!("meter {last}"),
        "reset".to_string(),
        "rate 3".to_string(),
        "reverse".to_string(),
        "ppp Z9z".to_string(),
        "adjust 0".to_string(),
        "load".to_string(),
        "single".to_string(),
    ]
}
