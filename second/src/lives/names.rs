//! PPP rewritten: runs read before it and after it, filed in ledgers opened with any PPP; blocks of other meters; the
//! event refused; and the half-hour that it marks.

use super::{with_ppp, Life, Script, EDGES, IDENTIFIER, LATEST_START, LETTERS_AND_DIGITS, UNIT_A_PULSE};
use crate::block::{self, AT_IDENTIFIER, DAY_REVERSE};
use crate::calendar::{HALF_HOURS, SECONDS_PER_DAY, SECONDS_PER_HALF_HOUR};
use crate::identifier::{self, Identifier, LENGTH, PPP_LENGTH};
use crate::quantities::TOTAL_MODULUS;
use crate::recorder::Class;

/// The most reads of a run, which are kept from 0 on; the most days that they ask for and that its ledgers have.
const RUN_READS: u64 = 8;
const RUN_DAYS: u64 = 4;

/// Kept beside them: a block of a meter that differs from the run's at one place, and one that has no bytes.
const OF_OTHER_METER: u64 = 30;
const NEVER_KEPT: u64 = 31;

/// Runs of one meter under one PPP after the other, each delivered to several ledgers.
pub fn runs(seed: u64) -> Script {
    let mut life = Life::new(seed);
    for _ in 0..12 {
        let first = life.random.below(LATEST_START);
        let total = life.random.below(TOTAL_MODULUS);
        let meter = random_meter(&mut life);
        let ppps = run(&mut life, &meter, first, total);
        other_meter(&mut life, &meter, first, total);
        ledgers(&mut life, &meter, first, &ppps);
    }
    life.finish("runs of several PPPs")
}

/// Nine characters that a meter may have.
fn random_meter(life: &mut Life) -> String {
    (PPP_LENGTH..LENGTH).map(|place| char::from(*life.random.pick(&characters(place)))).collect()
}

/// The characters that may stand at a place of the identifier.
fn characters(place: usize) -> Vec<u8> {
    let stands = |&character: &u8| {
        let mut identifier: Identifier = IDENTIFIER.as_bytes().try_into().unwrap_or_default();
        identifier[place] = character;
        identifier::is_right(&identifier)
    };
    LETTERS_AND_DIGITS.iter().copied().filter(stands).collect()
}

/// Some hours between reads, in most of them another PPP; the PPPs that the run had.
fn run(life: &mut Life, meter: &str, first: u64, total: u64) -> Vec<String> {
    let mut ppps = vec![life.random_ppp()];
    life.say(format!("setup {}{meter} a p {UNIT_A_PULSE} @{} {total} 0", ppps[0], first * SECONDS_PER_DAY));
    for kept in 0..life.random.between(3, RUN_READS) {
        for _ in 0..life.random.between(1, 3) {
            let pulses = life.random.below(300);
            life.pulses(pulses);
            let event = *life.random.pick(&["access", "reverse", "reset", "ppp a-c", "ppp ab/", "#"]);
            life.say(event);
            let time = life.time() + life.random.between(1, SECONDS_PER_DAY / 4);
            life.clock(time);
        }
        if life.random.below(3) > 0 {
            let ppp = next_ppp(life, &ppps[ppps.len() - 1]);
            life.say(format!("ppp {ppp}"));
            ppps.push(ppp);
        }
        let asked = life.random.between(1, RUN_DAYS);
        life.say(format!("read {asked}"));
        life.say_all(&["listing", &format!("keep {kept}")]);
    }
    ppps
}

/// Any, the same once more, or the same in the other case.
fn next_ppp(life: &mut Life, present: &str) -> String {
    match life.random.below(4) {
        0 => present.to_string(),
        1 => in_other_case(present),
        _ => life.random_ppp(),
    }
}

fn in_other_case(ppp: &str) -> String {
    let other = |letter: char| {
        if letter.is_ascii_lowercase() {
            letter.to_ascii_uppercase()
        } else {
            letter.to_ascii_lowercase()
        }
    };
    ppp.chars().map(other).collect()
}

/// A block of the run's PPP and start, of a meter that differs at one of the nine places.
fn other_meter(life: &mut Life, meter: &str, first: u64, total: u64) {
    let ppp: String = life.player.recorder.identifier.iter().take(PPP_LENGTH).copied().map(char::from).collect();
    let place = life.random.between(PPP_LENGTH as u64, LENGTH as u64 - 1) as usize;
    let mut identifier = (ppp + meter).into_bytes();
    let mut others = characters(place);
    others.retain(|&character| character != identifier[place]);
    identifier[place] = *life.random.pick(&others);
    let identifier: String = identifier.into_iter().map(char::from).collect();
    life.say(format!("setup {identifier} a p {UNIT_A_PULSE} @{} {total} 0", first * SECONDS_PER_DAY));
    life.clock(first * SECONDS_PER_DAY + SECONDS_PER_HALF_HOUR);
    life.say_all(&["read 1", &format!("keep {OF_OTHER_METER}")]);
}

/// Ledgers opened with the first and the last PPP of the run, with others, and with zeros as by a desk that knows none.
/// Blocks of the run before, which was of yet another meter, may stand behind the last that was kept.
fn ledgers(life: &mut Life, meter: &str, first: u64, ppps: &[String]) {
    let (set_up, last) = (&ppps[0], &ppps[ppps.len() - 1]);
    let opened = [set_up.clone(), last.clone(), in_other_case(last), life.random_ppp(), "000".to_string()];
    let mut all: Vec<u64> = (0..RUN_READS).chain([OF_OTHER_METER, NEVER_KEPT]).collect();
    let days = life.random.between(1, RUN_DAYS);
    for ppp in &opened {
        life.random.shuffle(&mut all);
        let again: Vec<u64> = all.iter().copied().filter(|_| life.random.once_in(4)).collect();
        let lost = if life.random.once_in(2) { all.len() / 3 } else { 0 };
        let delivered: Vec<u64> = all.iter().skip(lost).copied().chain(again).collect();
        let word = life.day_word(first);
        life.say(format!("open {ppp}{meter} {word} {days}"));
        for kept in delivered {
            life.say(format!("deliver {kept}"));
        }
        life.say("ledger");
        for day in first..=first + days {
            life.summary_and_missing(day);
        }
    }
}

/// A ledger and a block that differ at one place, with every character that may stand there; and at two places.
pub fn meters(seed: u64) -> Script {
    let mut life = Life::new(seed);
    life.lived(Class::A, 1);
    life.say("ppp ABC");
    life.say_all(&["read 2", "keep 0"]);
    let first = life.day_word(life.today() - 1);
    for (place, own) in IDENTIFIER.bytes().enumerate() {
        for character in characters(place) {
            let other = char::from(character);
            let identifier = format!("{}{other}{}", &IDENTIFIER[..place], &IDENTIFIER[place + 1..]);
            life.say(format!("open {identifier} {first} 1"));
            life.say("file");
        }
        life.say("ledger");
        life.say(format!("open {IDENTIFIER} {first} 2"));
        for character in characters(place) {
            life.say(format!("byte {} {character}", AT_IDENTIFIER + place));
            life.say("file");
        }
        life.say(format!("byte {} {own}", AT_IDENTIFIER + place));
        life.say("ledger");
        conflict(&mut life, place);
    }
    two_places(&mut life, &first);
    life.finish("ledgers and blocks of other meters")
}

/// A block with a mark that differs from the one held, and with other characters at one place: 9 before 11 before 12.
fn conflict(life: &mut Life, place: usize) {
    life.say("file");
    let at = block::bytes_for(1) + DAY_REVERSE;
    let mark = life.player.block.get(at).copied().unwrap_or_default() ^ 1;
    life.say(format!("byte {at} {mark}"));
    for edge in EDGES {
        life.say(format!("byte {} {edge}", AT_IDENTIFIER + place));
        life.say("file");
    }
    life.say_all(&["ledger", "take 0"]);
}

fn two_places(life: &mut Life, first: &str) {
    for _ in 0..60 {
        life.say("take 0");
        for _ in 0..2 {
            let place = life.random.below(LENGTH as u64) as usize;
            let character = *life.random.pick(&characters(place));
            life.say(format!("byte {} {character}", AT_IDENTIFIER + place));
        }
        let identifier = with_ppp(&life.random_ppp());
        life.say(format!("open {identifier} {first} 2"));
        life.say_all(&["file", "check", "listing"]);
    }
}

/// The event with right and with wrong characters, in a recorder that refuses it for another cause too.
pub fn refusals(seed: u64) -> Script {
    let mut life = Life::new(seed);
    // 97 is a small letter and 45 a hyphen; 55 and 48 are digits.
    let states: [(&[&str], &[&str]); 8] = [
        (&[], &[]),
        (&["off"], &["on @1000000000"]),
        (&["lend 0 0 0"], &["lend"]),
        (&["poke class 0"], &["poke class 1"]),
        (&["poke weight 0"], &["poke weight 1"]),
        (&["poke letter 11 97"], &["poke letter 11 55"]),
        (&["off", "poke letter 1 45"], &["poke letter 1 48", "on @1000000000"]),
        (&["off", "poke letter 1 45", "lend 0 0 0"], &["lend", "poke letter 1 48", "on @1000000000"]),
    ];
    life.say(format!("setup {IDENTIFIER} a p 1 @1000000000 0 0"));
    for (spoil, mend) in states {
        for place in 0..PPP_LENGTH {
            for edge in EDGES {
                let mut ppp = life.random_ppp().into_bytes();
                ppp[place] = edge;
                life.say_all(spoil);
                life.say([b"ppp ", ppp.as_slice()].concat());
                life.say("show");
                life.say_all(mend);
                life.say_all(&["read 0", "listing"]);
            }
        }
    }
    life.finish("PPPs refused")
}

/// In each half-hour of a day, at its first or its last second; what follows closes it by Clock or by On.
pub fn marks(seed: u64) -> Script {
    let mut life = Life::new(seed);
    for half_hour in 0..HALF_HOURS as u64 {
        for second in [0, SECONDS_PER_HALF_HOUR - 1] {
            let day = life.random.below(LATEST_START);
            let begin = day * SECONDS_PER_DAY + half_hour * SECONDS_PER_HALF_HOUR;
            life.set_up(Class::A, UNIT_A_PULSE, begin, 0, 0);
            life.say_all(&["count 5", "reset"]);
            life.clock(begin + SECONDS_PER_HALF_HOUR + second);
            life.rewrite_ppp();
            life.say_all(&["show", "read 1", "listing"]);
            let time = begin + 2 * SECONDS_PER_HALF_HOUR;
            if life.random.once_in(2) {
                life.clock(time);
            } else {
                life.say("off");
                life.on(time);
            }
            life.say("show");
            life.clock(time + SECONDS_PER_HALF_HOUR);
            life.day(day);
            life.say_all(&["read 2", "block", "listing"]);
        }
    }
    life.finish("half-hours that PPP marks")
}
