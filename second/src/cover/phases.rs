//! Phase kinds, as far as they must be met: each rate chosen on each kind, by Rate and by a table, each active rate at a
//! conversion, what refuses one, damaged rates and rooms, the registers that are sent behind it, and set-ups.

use super::sides::{Side, Sides};
use super::ANSWERS;
use crate::answer::*;
use crate::block::{AT_REGISTERS, RATES};
use crate::calendar;
use crate::lives::phase_letter;
use crate::quantities::KWH_DIGITS;
use crate::recorder::{Phase, Recorder, BLANK};
use crate::script::{phases, Player};
use crate::tariff::{self, Slot, SLOTS, SLOT_BYTES, TABLE_BYTES, TIME};
use std::collections::BTreeSet;

/// The phase kinds, single phase as set-up and as a conversion makes it.
const POLY: (&str, Phase) = ("polyphase", Phase::Poly);
const SINGLE: (&str, Phase) = ("single phase", Phase::Single);
const CONVERTED: (&str, Phase) = ("an outstation converted", Phase::Single);
const KINDS: [(&str, Phase); 3] = [POLY, SINGLE, CONVERTED];

/// The calls that a rate out of range refuses; a read is judged by the eight rates alone.
const CALLS: [&str; 14] = [
    "count", "clock", "off", "on", "access", "meter", "reset", "rate", "reverse", "ppp", "adjust", "load", "single",
    "read",
];
/// The calls by which the rate follows a room.
const FOLLOWING: [&str; 3] = ["clock", "on", "adjust"];

const COUNTED: &str = "rate active before a conversion, energy counted behind it";
const SENT: &str = "register with whole kWh sent by an outstation converted";
const FILED: &str = "register with whole kWh in a block filed of an outstation converted";
const LETTER: &str = "phase letter not understood";
const WORD: &str = "letters of a phase word not understood";

fn told(is: bool, what: &'static str, not: &'static str) -> &'static str {
    if is {
        what
    } else {
        not
    }
}

fn with_table(loaded: bool) -> &'static str {
    told(loaded, "a table loaded", "no table loaded")
}

fn with_power(power: bool) -> &'static str {
    told(power, "power on", "power off")
}

fn chosen(kind: &str, loaded: bool, power: bool) -> String {
    format!("rate chosen on {kind}, {}, {}", with_table(loaded), with_power(power))
}

fn offered(kind: &str, used: bool, other: u32) -> String {
    let used = told(used, "used", "not used");
    format!("highest rate of a table offered to {kind}, in a day type {used}, otherwise answered {other}")
}

fn bytes(kind: &str, too_high: bool) -> String {
    let rates = told(too_high, "with a rate above four", "of rates up to four");
    format!("bytes of a table {rates} offered to {kind}")
}

fn slot_of(call: &str, kind: &str) -> String {
    format!("slot of the one rate above four, {call} on {kind}")
}

fn active(kind: &str, loaded: bool) -> String {
    format!("active rate at a conversion of {kind}, {}", with_table(loaded))
}

fn in_room(kind: &str, loaded: bool) -> String {
    format!("highest rate in the room at a conversion of {kind}, {}", with_table(loaded))
}

fn before_call(kind: &str, call: &str, power: bool) -> String {
    format!("active rate of {kind} before {call}, {}", with_power(power))
}

fn followed(kind: &str, call: &str) -> String {
    format!("rate of a room on {kind}, by {call}")
}

/// The phases that are shown behind it are the number.
fn set_up(kind: &str, letter: &str) -> String {
    format!("phases behind a set-up with {letter} of {kind}")
}

/// The rates that are tried, and the numbers beside them.
fn tried() -> impl Iterator<Item = u64> {
    (0..=RATES as u64 + 1).chain([u32::MAX.into()])
}

/// The bytes that are tried as rates of a table, from the highest of single phase on.
fn tried_bytes() -> impl Iterator<Item = u64> {
    (Phase::Single.most_rate()..=RATES as u64 + 1).chain([u8::MAX.into()])
}

/// Every side that is to be met.
fn all() -> BTreeSet<Side> {
    let mut sides: BTreeSet<Side> = KINDS.into_iter().flat_map(of_kind).collect();
    sides.extend(KINDS.into_iter().flat_map(of_conversions));
    sides.extend(KINDS.into_iter().flat_map(of_damage));
    for slot in 0..SLOTS as u64 {
        sides.insert((slot_of("load", POLY.0), slot, DONE));
        sides.insert((slot_of("load", SINGLE.0), slot, OUT_OF_RANGE));
        sides.insert((slot_of("single", POLY.0), slot, OUT_OF_RANGE));
    }
    for number in 1..=RATES as u64 {
        sides.extend([COUNTED, SENT, FILED].map(|what| (what.to_string(), number, DONE)));
    }
    // A space or a newline is no word of a line.
    let letters = (0..=u8::MAX).filter(|&byte| !b" \n".contains(&byte) && Phase::of_letter(byte).is_none());
    sides.extend(letters.map(|byte| (LETTER.to_string(), byte.into(), ANSWERS)));
    sides.extend([0, 2].map(|length| (WORD.to_string(), length, ANSWERS)));
    sides
}

/// Rates and tables chosen, and set-ups.
fn of_kind((kind, phase): (&'static str, Phase)) -> Vec<Side> {
    let most = phase.most_rate();
    let mut sides = Vec::new();
    for rate in tried() {
        let in_range = (1..=most).contains(&rate);
        for loaded in [false, true] {
            let answer = match (in_range, loaded) {
                (false, _) => OUT_OF_RANGE,
                (true, true) => TABLE_LOADED,
                (true, false) => DONE,
            };
            sides.push((chosen(kind, loaded, true), rate, answer));
            sides.push((chosen(kind, loaded, false), rate, WRONG_POWER));
        }
    }
    for rate in tried_bytes() {
        for other in [DONE, TABLE_CLASH, OUT_OF_RANGE] {
            let answer = if rate > most { OUT_OF_RANGE } else { other };
            sides.extend([false, true].map(|used| (offered(kind, used, other), rate, answer)));
        }
    }
    let table = TABLE_BYTES as u64;
    for length in [0, table - SLOT_BYTES as u64, table - 1, table + 1] {
        sides.extend([false, true].map(|too_high| (bytes(kind, too_high), length, OUT_OF_RANGE)));
    }
    for phase in [Phase::Single, Phase::Poly] {
        let what = set_up(kind, phase_letter(phase));
        sides.push((what.clone(), phases(phase), DONE));
        sides.extend([WRONG_LENGTH, OUT_OF_RANGE].map(|refused| (what.clone(), phases(BLANK.phase), refused)));
    }
    sides
}

/// Active rates and rooms at a conversion.
fn of_conversions((kind, phase): (&'static str, Phase)) -> Vec<Side> {
    let four = Phase::Single.most_rate();
    let mut sides = Vec::new();
    for loaded in [false, true] {
        for rate in 1..=RATES as u64 {
            let answer = if rate > phase.most_rate() { DAMAGED } else { DONE };
            sides.push((active(kind, loaded), rate, answer));
        }
        for rate in tried_bytes() {
            let is_too_high = (four + 1..=RATES as u64).contains(&rate);
            let answer = if loaded && is_too_high { OUT_OF_RANGE } else { DONE };
            sides.push((in_room(kind, loaded), rate, answer));
        }
    }
    for earlier in [WRONG_POWER, WRONG_LENGTH, DAMAGED] {
        sides.push((in_room(kind, true), four + 1, earlier));
    }
    sides
}

/// Active rates before each call, and rates that a room names.
fn of_damage((kind, phase): (&'static str, Phase)) -> Vec<Side> {
    let mut sides = Vec::new();
    for call in CALLS {
        let most = if call == "read" { RATES as u64 } else { phase.most_rate() };
        for rate in tried() {
            let in_range = (1..=most).contains(&rate);
            let answer = |with_power: u32| if in_range { with_power } else { DAMAGED };
            sides.push((before_call(kind, call, call != "on"), rate, answer(DONE)));
            if [most, most + 1].contains(&rate) {
                sides.push((before_call(kind, call, call == "on"), rate, answer(WRONG_POWER)));
            }
        }
    }
    for call in FOLLOWING {
        sides.extend((0..=RATES as u64 + 1).chain([u8::MAX.into()]).map(|rate| (followed(kind, call), rate, DONE)));
    }
    sides
}

/// A table's slots that are switching times, each with its number.
fn times(table: &[u8]) -> Vec<(usize, Slot)> {
    let slots = table.chunks_exact(SLOT_BYTES).map(|bytes| Slot::try_from(bytes).unwrap_or_default());
    slots.enumerate().filter(|(_, slot)| slot[0] == TIME).collect()
}

fn highest(table: &[u8]) -> Option<Slot> {
    times(table).into_iter().map(|(_, slot)| slot).max_by_key(|slot| slot[4])
}

/// The slots that have a rate above four.
fn too_high(table: &[u8]) -> Vec<usize> {
    let above = Phase::Single.most_rate() as u8 + 1..=RATES as u8;
    times(table).into_iter().filter(|(_, slot)| above.contains(&slot[4])).map(|(index, _)| index).collect()
}

#[derive(Default)]
pub struct Phases {
    sides: Sides,
    /// The rate that was active before the conversion, since the last set-up.
    converted: Option<u64>,
}

impl Phases {
    fn kind(&self, recorder: &Recorder) -> &'static str {
        match (recorder.phase, self.converted) {
            (Phase::Poly, _) => POLY.0,
            (Phase::Single, None) => SINGLE.0,
            (Phase::Single, Some(_)) => CONVERTED.0,
        }
    }

    /// A line, as it was answered, between the recorder before it and all that is there after it.
    pub fn add(&mut self, before: &Recorder, line: &[u8], answer: &str, player: &mut Player) {
        let words: Vec<&[u8]> = line.split(|&byte| byte == b' ').collect();
        if answer.starts_with("? ") {
            return self.add_not_understood(&words);
        }
        let Some(number) = answer.split(' ').next().and_then(|number| number.parse().ok()) else { return };
        let kind = self.kind(before);
        let call = String::from_utf8_lossy(words[0]).to_string();
        self.sides.meet(before_call(kind, &call, before.power), before.rate, number);
        match words[..] {
            [b"rate", rate] => {
                let rate = calendar::digits(rate).unwrap_or_default();
                self.sides.meet(chosen(kind, before.loaded, before.power), rate, number);
            }
            [b"load"] => self.add_load(kind, number, &player.edited),
            [b"load", length] => {
                let what = bytes(kind, !too_high(&player.edited).is_empty());
                self.sides.meet(what, calendar::digits(length).unwrap_or_default(), number);
            }
            [b"single"] => self.add_conversion(kind, before, number, player),
            [b"setup", _, _, letter, ..] => self.add_set_up(kind, letter, number, player),
            [b"count", _] if player.recorder.total != before.total => {
                self.sides.meet(COUNTED, self.converted.unwrap_or_default(), number);
            }
            [b"read", _] => self.add_block(SENT, number, player),
            [b"file"] => self.add_block(FILED, number, player),
            _ => {}
        }
        if FOLLOWING.contains(&call.as_str()) && player.recorder.loaded {
            let time = player.recorder.time;
            self.sides.meet(followed(kind, &call), tariff::rate_at(player.room(), time).into(), number);
        }
    }

    /// A set-up in which the phase alone may be what is wrong.
    fn add_not_understood(&mut self, words: &[&[u8]]) {
        match words {
            [b"setup", _, _, [letter], _, _, _, _, _] => self.sides.meet(LETTER, (*letter).into(), ANSWERS),
            [b"setup", _, _, word, _, _, _, _, _] => self.sides.meet(WORD, word.len() as u64, ANSWERS),
            _ => {}
        }
    }

    /// What the table would be answered if every rate were 1 is what is otherwise wrong with it.
    fn add_load(&mut self, kind: &str, number: u32, table: &[u8]) {
        let Some([_, day_type, _, _, rate]) = highest(table) else { return };
        let mut lowered = table.to_vec();
        for (index, _) in times(table) {
            lowered[SLOT_BYTES * index + 4] = 1;
        }
        let other = tariff::judge(&lowered).err().unwrap_or(DONE);
        let covers = |slot: &[u8]| slot[0] > TIME && slot[1] == day_type;
        let used = table.chunks_exact(SLOT_BYTES).any(covers);
        self.sides.meet(offered(kind, used, other), rate.into(), number);
        if let [slot] = too_high(table)[..] {
            self.sides.meet(slot_of("load", kind), slot as u64, number);
        }
    }

    fn add_conversion(&mut self, kind: &str, before: &Recorder, number: u32, player: &mut Player) {
        self.sides.meet(active(kind, before.loaded), before.rate, number);
        let room = player.room();
        if let Some([_, _, _, _, rate]) = highest(room) {
            self.sides.meet(in_room(kind, before.loaded), rate.into(), number);
        }
        if let ([slot], true) = (&too_high(room)[..], before.loaded) {
            self.sides.meet(slot_of("single", kind), *slot as u64, number);
        }
        if number == DONE && before.phase == Phase::Poly {
            self.converted = Some(before.rate);
        }
    }

    fn add_set_up(&mut self, kind: &str, letter: &[u8], number: u32, player: &Player) {
        let phases = phases(player.recorder.phase);
        self.sides.meet(set_up(kind, &String::from_utf8_lossy(letter)), phases, number);
        self.converted = None;
    }

    /// The registers of the current block that have whole kWh.
    fn add_block(&mut self, what: &str, number: u32, player: &Player) {
        if self.converted.is_none() {
            return;
        }
        let registers = player.block.get(AT_REGISTERS..).unwrap_or_default().chunks_exact(KWH_DIGITS);
        for (digits, register) in registers.take(RATES).zip(1..) {
            if calendar::digits(digits).is_some_and(|kwh| kwh > 0) {
                self.sides.meet(what, register, number);
            }
        }
    }

    pub fn told(&self) -> bool {
        self.sides.told("sides of phase kinds", &all())
    }
}
