//! Lines about a table that are understood, lines that are not, and slips of the pen between them.

use crate::calendar::write_digits;
use crate::lives::lines::{garble, split};
use crate::lives::{Life, Script};
use crate::recorder::Class;
use crate::script::{LATEST_TIME, MOST_DIGITS, MOST_TABLE_BYTES};
use crate::tariff::{SLOTS, TABLE_BYTES};

/// Lines of the editor that are understood, many with a number at its limit.
fn edited() -> Vec<String> {
    let last_slot = SLOTS - 1;
    let padded = write_digits(730, MOST_DIGITS);
    split(format!(
        "blank\n\
         at 1 0000 1\n\
         at 1 0 1\n\
         at 255 {LATEST_TIME} 255\n\
         at 2 {padded} 2\n\
         at 0 0099 0\n\
         except 3 1225\n\
         except 3 0000\n\
         except 3 9999\n\
         except 0255 240506\n\
         except 2 000000\n\
         except 255 999999\n\
         weekdays 2 6 7\n\
         weekdays 255 0 255\n\
         default 1\n\
         default 0\n\
         slot 0 0 0 0 0 0\n\
         slot {last_slot} 255 255 255 255 255\n\
         slot 9 1 1 0 0 1\n\
         swap 0 {last_slot}\n\
         swap 5 5"
    ))
}

/// All lines that are understood.
fn well_formed() -> Vec<String> {
    let last_byte = TABLE_BYTES - 1;
    let others = split(format!(
        "load\n\
         load 0\n\
         load {TABLE_BYTES}\n\
         load {MOST_TABLE_BYTES}\n\
         table\n\
         rateat 240229 110000\n\
         rateat @0\n\
         rateat @999999999999999999\n\
         week 240226\n\
         week @4294967295\n\
         lend table 0\n\
         lend table {MOST_TABLE_BYTES}\n\
         lend table {TABLE_BYTES}\n\
         lend\n\
         poke loaded 0\n\
         poke loaded 1\n\
         poke table 0 255\n\
         poke table {last_byte} 1"
    ));
    edited().into_iter().chain(others).collect()
}

/// Lines that are not, many with a number past its limit.
fn entries_not_understood() -> Vec<String> {
    let past_time = LATEST_TIME + 1;
    let padded = write_digits(730, MOST_DIGITS + 1);
    split(format!(
        "blank 1\n\
         at\n\
         at 1\n\
         at 1 0000\n\
         at 1 0000 1 1\n\
         at 256 0000 1\n\
         at 1 {past_time} 1\n\
         at 1 {padded} 1\n\
         at 1 0000 256\n\
         at 1 00:00 1\n\
         at x 0000 1\n\
         at 1 -1 1\n\
         except\n\
         except 1\n\
         except 1 1225 1\n\
         except 256 1225\n\
         except 1 225\n\
         except 1 12255\n\
         except 1 2412255\n\
         except 1 12\n\
         except 1 24122x\n\
         except 1 x225\n\
         except 1 12.5\n\
         except x 1225\n\
         except 1 @8825\n\
         weekdays 1 1\n\
         weekdays 1 1 2 3\n\
         weekdays 1 256 1\n\
         weekdays 1 1 256\n\
         weekdays 256 1 1\n\
         default\n\
         default 256\n\
         default 1 1\n\
         default x"
    ))
}

/// More of them, about slots, loads and lengths.
fn slots_not_understood() -> Vec<String> {
    let past_offered = MOST_TABLE_BYTES + 1;
    split(format!(
        "slot {SLOTS} 0 0 0 0 0\n\
         slot 0 0 0 0 0\n\
         slot 0 0 0 0 0 0 0\n\
         slot 0 256 0 0 0 0\n\
         slot 0 0 256 0 0 0\n\
         slot 0 0 0 256 0 0\n\
         slot 0 0 0 0 256 0\n\
         slot 0 0 0 0 0 256\n\
         slot x 0 0 0 0 0\n\
         swap 0\n\
         swap 0 {SLOTS}\n\
         swap {SLOTS} 0\n\
         swap 0 1 2\n\
         load {past_offered}\n\
         load x\n\
         load 1 2\n\
         load -1\n\
         table 1"
    ))
}

/// And about times, days, lent lengths and damage.
fn others_not_understood() -> Vec<String> {
    let past_lent = MOST_TABLE_BYTES + 1;
    split(format!(
        "rateat\n\
         rateat 240229\n\
         rateat 230229 000000\n\
         rateat 240229 240000\n\
         rateat @1 000000\n\
         rateat @\n\
         week\n\
         week 230229\n\
         week @4294967296\n\
         week 240226 000000\n\
         week x\n\
         lend table\n\
         lend table {past_lent}\n\
         lend table x\n\
         lend table 1 2 3\n\
         lend 1 2 table\n\
         poke loaded\n\
         poke loaded 2\n\
         poke loaded 0 1\n\
         poke table 0\n\
         poke table 0 256\n\
         poke table {TABLE_BYTES} 0\n\
         poke table x 0\n\
         Load\n\
         LOAD\n\
         tables\n\
         unload"
    ))
}

/// Lines that are understood, lines that aren't, and those between; then a table with no slot left.
pub fn garbled(seed: u64) -> Script {
    let mut life = Life::new(seed);
    life.lived(Class::A, 1);
    for _ in 0..2 {
        for line in well_formed() {
            life.say(line);
        }
        life.say_all(&["lend", "show"]);
        let of_entries = entries_not_understood().into_iter();
        for line in of_entries.chain(slots_not_understood()).chain(others_not_understood()) {
            life.say(line);
            life.say("week 240226");
        }
        life.say_all(&["load", "table", "show"]);
        life.lived(Class::A, 1);
    }
    let well_formed = well_formed();
    for _ in 0..600 {
        let line = life.random.pick(&well_formed).as_bytes().to_vec();
        let line = if life.random.once_in(3) { line } else { garble(&mut life, line) };
        life.say(line);
        if life.random.once_in(12) {
            life.say_all(&["load", "show", "table", "lend", "blank", "default 1", "at 1 0000 1"]);
        }
    }
    no_slot_left(&mut life);
    life.finish("garbled lines of a table")
}

/// The first slot whose first byte is 0 is filled, whatever else stands in it; where there is none, a line is not
/// understood.
fn no_slot_left(life: &mut Life) {
    life.say("blank");
    for slot in (0..SLOTS).step_by(2) {
        life.say(format!("slot {slot} 7 7 7 7 7"));
    }
    life.say("slot 5 0 9 9 9 9");
    for _ in 0..=SLOTS / 2 {
        let line =
            *life.random.pick(&["at 1 0730 2", "except 3 1225", "except 3 240506", "weekdays 2 6 7", "default 1"]);
        life.say(line);
    }
    life.say_all(&["at 1 0730 2", "except 3 1225", "except 3 240506", "weekdays 2 6 7", "default 1", "load"]);
    life.say_all(&["slot 40 0 0 0 0 0", "default 1", "default 1", "blank", "default 1"]);
}
