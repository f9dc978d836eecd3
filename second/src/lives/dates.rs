//! Every day of the hundred years turned into its date and back: as a script's word, as time of reading,
//! last reset date and date of a record; and the dates beside them that are unreal.

use super::{write_into, Life, Script, IDENTIFIER, UNIT_A_PULSE};
use crate::block::{AT_RESET, HEADER_BYTES};
use crate::calendar::{write_date, write_seconds, DAYS, LAST_DAY, MONTHS, SECONDS_PER_DAY, YEARS};
use crate::recorder::Class;

/// The days of a month about its end, and none.
const DAYS_OF_A_MONTH: [u64; 6] = [0, 28, 29, 30, 31, 32];

/// Each day is the day of reading and of the last reset, and its date a word of Clock.
pub fn of_reading(seed: u64) -> Script {
    let mut life = Life::new(seed);
    life.set_up(Class::A, UNIT_A_PULSE, 0, 0, 0);
    for day in 0..DAYS {
        let seconds = write_seconds(life.random.below(SECONDS_PER_DAY));
        life.say(format!("clock {} {seconds}", write_date(day)));
        life.say_all(&["reset", "read 0", "block"]);
    }
    life.finish("dates of reading")
}

/// Each day by its number and by its date: a ledger of that one day is opened by the one word and asked by the other.
pub fn words(seed: u64) -> Script {
    let mut life = Life::new(seed);
    for day in 0..DAYS {
        let (date, number) = (write_date(day), format!("@{day}"));
        let (opened, asked) = if life.random.once_in(2) { (date, number) } else { (number, date) };
        life.say(format!("open {IDENTIFIER} {opened} 1"));
        life.say(format!("missing {asked}"));
    }
    for date in dates_about_months() {
        life.say(format!("missing {date}"));
    }
    life.finish("dates as words")
}

/// Each day is the date of a record, as many at a time as class b holds and a listing takes.
pub fn of_records(seed: u64) -> Script {
    let mut life = Life::new(seed);
    let held = Class::B.days();
    life.set_up(Class::B, UNIT_A_PULSE, 0, 0, 0);
    for newest in (held as u64 - 1..LAST_DAY).step_by(held).chain([LAST_DAY]) {
        life.pulses(1);
        let time = newest * SECONDS_PER_DAY + life.random.below(SECONDS_PER_DAY);
        life.say(format!("clock @{time}"));
        life.say(format!("read {held}"));
        life.say_all(&["block", "listing"]);
    }
    life.finish("dates of records")
}

/// A block's last reset date, real or not: read, and where it is real written again.
pub fn of_resets(seed: u64) -> Script {
    let mut life = Life::new(seed);
    life.set_up(Class::A, UNIT_A_PULSE, 0, 0, 0);
    life.say("read 0");
    for date in dates_about_months() {
        for (at, character) in (AT_RESET..).zip(date.bytes()) {
            if life.player.block.get(at) != Some(&character) {
                life.say(format!("byte {at} {character}"));
            }
        }
        life.say_all(&["check", "fields", &write_into(HEADER_BYTES), "block"]);
    }
    life.finish("dates of resets")
}

/// `YYMMDD` about the end of every month, with the months before the first and past the last.
fn dates_about_months() -> impl Iterator<Item = String> {
    (0..YEARS).flat_map(|year| {
        (0..=MONTHS + 1).flat_map(move |month| DAYS_OF_A_MONTH.map(|day| format!("{year:02}{month:02}{day:02}")))
    })
}
