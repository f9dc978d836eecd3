//! The coverage table: how often each kind of call gave each answer number in the
//! scripts of one round, and which answers that the rules allow were not reached.

mod adjusting;
mod limits;
mod names;
mod phases;
mod sides;
mod switching;
mod tables;

use crate::answer::*;
use crate::block::*;
use crate::calendar::{self, HALF_HOURS, SECONDS_PER_DAY};
use crate::listing::REFUSED;
use crate::lives::{self, WEIGHTS};
use crate::quantities::{KWH_DIGITS, VALUE_DIGITS};
use crate::recorder::{Class, Recorder};
use crate::script::{self, Player};
use adjusting::Adjusting;
use limits::Limits;
use names::Names;
use phases::Phases;
use std::collections::{BTreeMap, BTreeSet};
use switching::Switching;
use tables::Tables;

const ANSWERS: u32 = TABLE_LOADED + 1;

const ANY_EVENT: &[u32] = &[DONE, WRONG_POWER, WRONG_LENGTH, DAMAGED];
const RANGED: &[u32] = &[DONE, WRONG_POWER, WRONG_LENGTH, DAMAGED, OUT_OF_RANGE];
const TIMED: &[u32] = &[DONE, WRONG_POWER, WRONG_TIME, WRONG_LENGTH, DAMAGED];
const READER: &[u32] = &[DONE, NOT_A_BLOCK, WRONG_FIELD, NOT_CONSISTENT];
const FILING: &[u32] = &[DONE, WRONG_LENGTH, DAMAGED, NOT_A_BLOCK, WRONG_FIELD, NOT_CONSISTENT, OTHER_METER, CONFLICT];
const ASKED_DAY: &[u32] = &[DONE, WRONG_LENGTH, DAMAGED, OUT_OF_RANGE];

/// Each call and the answer numbers that the rules allow it. Opening is always lent the right
/// length by a script, so its refusal of a wrong one can't be reached there.
const ALLOWED: [(&str, &[u32]); 25] = [
    ("setup", &[DONE, WRONG_LENGTH, OUT_OF_RANGE]),
    ("count", &[DONE, WRONG_POWER, TOO_MANY_UNITS, WRONG_LENGTH, DAMAGED]),
    ("clock", TIMED),
    ("off", ANY_EVENT),
    ("on", TIMED),
    ("access", ANY_EVENT),
    ("meter", ANY_EVENT),
    ("reset", ANY_EVENT),
    ("rate", &[DONE, WRONG_POWER, WRONG_LENGTH, DAMAGED, OUT_OF_RANGE, TABLE_LOADED]),
    ("reverse", ANY_EVENT),
    ("ppp", RANGED),
    ("adjust", &[DONE, WRONG_POWER, WRONG_TIME, WRONG_LENGTH, DAMAGED, OUT_OF_RANGE, HALF_HOUR_ENDED]),
    ("load", &[DONE, WRONG_POWER, WRONG_LENGTH, DAMAGED, OUT_OF_RANGE, TABLE_CLASH]),
    ("single", RANGED),
    ("read", &[DONE, WRONG_POWER, WRONG_LENGTH, DAMAGED, OUT_OF_RANGE, OUTPUT_SHORT]),
    ("write", &[DONE, DAMAGED, OUTPUT_SHORT]),
    ("check", READER),
    ("fields", READER),
    ("listing", READER),
    ("open", &[DONE, OUT_OF_RANGE]),
    ("file", FILING),
    ("deliver", FILING),
    ("summary", ASKED_DAY),
    ("missing", ASKED_DAY),
    ("week", &[DONE, OUT_OF_RANGE, TABLE_CLASH]),
];

/// Clock and On.
const TIMED_CALLS: usize = 2;
/// The answers to a Count of a half-hour's last pulses, and to one pulse more.
const AT_THE_MOST: [u32; 2] = [DONE, TOO_MANY_UNITS];

/// The offsets of the fields of a block of two days: a wrong field is to be refused at each.
fn field_offsets() -> BTreeSet<String> {
    let mut offsets =
        vec![AT_IDENTIFIER, AT_TIME, AT_KWH, AT_CURRENT, AT_PREVIOUS, AT_CUMULATIVE, AT_RESET, AT_RESETS, AT_NUMBER];
    offsets.extend((0..RATES).map(|rate| AT_REGISTERS + KWH_DIGITS * rate));
    for record in [bytes_for(0), bytes_for(1)] {
        offsets.extend([record, record + DAY_START, record + DAY_FLAGS]);
        offsets.extend((0..HALF_HOURS).map(|half_hour| record + DAY_VALUES + VALUE_DIGITS * half_hour));
    }
    offsets.iter().map(usize::to_string).collect()
}

#[derive(Default)]
struct Coverage {
    /// Call and answer number.
    answers: BTreeMap<(String, u32), u64>,
    /// Lines that could not be understood, by their first word.
    not_understood: BTreeMap<String, u64>,
    /// Other commands.
    others: BTreeMap<String, u64>,
    offsets: BTreeSet<String>,
}

impl Coverage {
    fn add(&mut self, line: &[u8], answer: &str) {
        let word = line.split(|&byte| byte == b' ').next().unwrap_or_default();
        let call = String::from_utf8_lossy(word).to_string();
        if answer.starts_with("? ") {
            *self.not_understood.entry(call).or_default() += 1;
        } else if !ALLOWED.iter().any(|(name, _)| *name == call) {
            *self.others.entry(call).or_default() += 1;
        } else {
            let number = if call == "listing" || call == "week" {
                answer.strip_prefix(REFUSED).map_or(DONE, |number| number.parse().unwrap_or(ANSWERS))
            } else {
                answer.split(' ').next().and_then(|number| number.parse().ok()).unwrap_or(ANSWERS)
            };
            if call == "check" && number == WRONG_FIELD {
                self.offsets.extend(answer.split(' ').nth(1).map(str::to_string));
            }
            *self.answers.entry((call, number)).or_default() += 1;
        }
    }

    fn count(&self, call: &str, number: u32) -> u64 {
        self.answers.get(&(call.to_string(), number)).copied().unwrap_or(0)
    }

    /// Prints how often each call gave each answer; true where every allowed cell is reached and no other.
    fn print_table(&self) -> bool {
        print!("{:<8}", "call");
        (0..ANSWERS).for_each(|number| print!("{number:>8}"));
        println!("{:>8}", "?");
        let mut right = true;
        for (call, allowed) in ALLOWED {
            print!("{call:<8}");
            for number in 0..=ANSWERS {
                let count = self.count(call, number);
                let is_allowed = allowed.contains(&number);
                right &= is_allowed == (count > 0);
                match (is_allowed, count) {
                    (true, 0) => print!("{:>8}", "MISSING"),
                    (false, 0) if number == ANSWERS => {}
                    (false, 0) => print!("{:>8}", "."),
                    (true, _) => print!("{count:>8}"),
                    (false, _) => print!("{:>8}", format!("!{count}")),
                }
            }
            println!("{:>8}", self.not_understood.get(call).copied().unwrap_or(0));
        }
        right
    }
}

/// What the recorder shows beside the answers.
#[derive(Default)]
struct Passed {
    /// Calls that passed more days at once than their class holds, each with those days.
    over: BTreeSet<(String, usize)>,
    /// Days of reading.
    read: BTreeSet<u64>,
    /// Pulse weights with which a half-hour took its last pulses or refused one more, each with the answer.
    filled: BTreeSet<(u64, u32)>,
    limits: Limits,
    names: Names,
    tables: Tables,
    switching: Switching,
    adjusting: Adjusting,
    phases: Phases,
}

impl Passed {
    fn add(&mut self, text: &[u8]) {
        if text.len() > script::MOST_SCRIPT_BYTES {
            return;
        }
        let mut player = Player::new();
        for (line, number) in text.split(|&byte| byte == b'\n').zip(1..) {
            let before = player.recorder;
            let answer = player.play_line(number, line).unwrap_or_default();
            self.limits.add(&before, line, &answer, &player);
            self.names.add(&before, line, &answer, &player);
            self.tables.add(line, &answer, &player);
            self.switching.add(&before, line, &answer, &mut player);
            self.adjusting.add(&before, line, &answer, &mut player);
            self.phases.add(&before, line, &answer, &mut player);
            let word = line.split(|&byte| byte == b' ').next().unwrap_or_default();
            if word == b"count" {
                self.add_count(&before, line, &answer);
            }
            if !answer.starts_with(&format!("{DONE} ")) {
                continue;
            }
            let time = player.recorder.time;
            match word {
                b"clock" | b"on" => {
                    let held = player.recorder.class.map_or(0, Class::days);
                    if (time - before.time) / SECONDS_PER_DAY > held as u64 {
                        self.over.insert((String::from_utf8_lossy(word).to_string(), held));
                    }
                }
                b"read" => {
                    self.read.insert(calendar::day_of(time));
                }
                _ => {}
            }
        }
    }

    fn add_count(&mut self, before: &Recorder, line: &[u8], answer: &str) {
        for (number, more) in AT_THE_MOST.into_iter().zip(0..) {
            if answer == format!("{number} 0") && WEIGHTS.contains(&before.weight) {
                let most = lives::pulses_left(before);
                let counter = before.last.wrapping_add((most + more) as u32);
                if most > 0 && line == format!("count {counter}").as_bytes() {
                    self.filled.insert((before.weight, number));
                }
            }
        }
    }

    /// Prints how much of each was met; true where all was.
    fn told(&self) -> bool {
        let (over, all) = (self.over.len(), TIMED_CALLS * Class::ALL.len());
        println!("classes whose days were passed over at once, by clock and by on: {over} of {all}");
        let read = self.read.len() as u64;
        println!("days of reading: {read} of {}", calendar::DAYS);
        let (filled, weights) = (self.filled.len(), AT_THE_MOST.len() * WEIGHTS.len());
        println!(
            "pulse weights with which a half-hour took its most, and refused one pulse more: {filled} of {weights}"
        );
        let limits = self.limits.told();
        let names = self.names.told();
        let tables = self.tables.told();
        let switching = self.switching.told();
        let adjusting = self.adjusting.told();
        let phases = self.phases.told();
        let told = limits && names && tables && switching && adjusting && phases;
        over == all && read == calendar::DAYS && filled == weights && told
    }
}

/// Prints what the scripts of a seed reach; true where that is all that it must be.
pub fn cover(seed: u64) -> bool {
    let mut coverage = Coverage::default();
    let mut passed = Passed::default();
    let scripts = lives::round(seed);
    for script in &scripts {
        passed.add(&script.text);
        let lines: Vec<&[u8]> = script.text.split(|&byte| byte == b'\n').collect();
        for played in script::play(&script.text) {
            let line = played.line.checked_sub(1).and_then(|index| lines.get(index)).copied();
            coverage.add(line.unwrap_or(b"(too long)"), &played.answer);
        }
    }
    let right = coverage.print_table();
    let others: Vec<String> = coverage.others.iter().map(|(command, count)| format!("{command} {count}")).collect();
    println!("other commands: {}", others.join(", "));
    let not_understood: u64 = coverage.not_understood.values().sum();
    println!("lines not understood: {not_understood}");
    let fields = field_offsets();
    let reached = fields.intersection(&coverage.offsets).count();
    println!("fields of a two-day block refused with {WRONG_FIELD}: {reached} of {}", fields.len());
    let passed = passed.told();
    println!("scripts: {}, bytes: {}", scripts.len(), scripts.iter().map(|script| script.text.len()).sum::<usize>());
    right && reached == fields.len() && passed
}
