//! Lives of anything: the editor's lines, loads, events, damage and lent lengths by chance, one after the other.

use crate::block::RATES;
use crate::calendar::{self, DAYS, LAST_DAY, SECONDS_PER_DAY, WEEKDAYS};
use crate::lives::{Life, Script, UNIT_A_PULSE};
use crate::recorder::Class;
use crate::script::MOST_TABLE_BYTES;
use crate::tariff::{DAY_TYPES, DEFAULT, SLOTS, TABLE_BYTES};

/// Some lives, each from a set-up on.
pub fn anything(seed: u64) -> Script {
    let mut life = Life::new(seed);
    for _ in 0..10 {
        let time = life.random.below((DAYS - 30) * SECONDS_PER_DAY);
        life.say("lend");
        let phase = life.random_phase();
        life.set_up_as(phase, Class::A, UNIT_A_PULSE, time, 0, 0);
        life.edit_random(time / SECONDS_PER_DAY);
        for _ in 0..200 {
            let line = match life.random.below(10) {
                0 | 1 => edited(&mut life),
                2..=4 => event(&mut life),
                5 => damage(&mut life),
                6 | 7 => asked(&mut life),
                _ => passing(&mut life),
            };
            life.say(line);
            life.say("show");
        }
        life.say_all(&["table", "lend", "table", "read 3", "listing"]);
    }
    life.finish("anything under tables")
}

/// A number about a range from 1 on, mostly in it.
fn about(life: &mut Life, most: u64) -> u64 {
    let within = life.random.between(1, most);
    *life.random.pick(&[within, within, within, within, 1, most, most + 1, 0])
}

/// A line that changes the editor's table: most of them spoil an accepted one.
fn edited(life: &mut Life) -> String {
    let (day_type, rate) = (about(life, DAY_TYPES.into()), about(life, RATES as u64));
    let day = (life.today() + life.random.below(20)).saturating_sub(5).min(LAST_DAY);
    let date = calendar::write_date(day);
    let (slot, other) = (life.random.below(SLOTS as u64), life.random.below(SLOTS as u64));
    match life.random.below(10) {
        0 => format!("at {day_type} {:04} {rate}", 100 * life.random.below(25) + life.random.below(61)),
        1 => format!("except {day_type} {date}"),
        2 => format!("except {day_type} {}", &date[2..]),
        3 => format!("weekdays {day_type} {} {}", about(life, WEEKDAYS), about(life, WEEKDAYS)),
        4 => format!("default {day_type}"),
        5 => format!("slot {slot} {} {day_type} 0 0 {rate}", life.random.below(u64::from(DEFAULT) + 2)),
        6 => format!("slot {slot} 0 0 0 0 0"),
        7 if life.random.once_in(3) => "blank".to_string(),
        _ => format!("swap {slot} {other}"),
    }
}

fn event(life: &mut Life) -> String {
    match life.random.below(15) {
        0..=4 => "load".to_string(),
        5 => format!("load {}", TABLE_BYTES as u64 - 2 + life.random.below(4)),
        6 | 7 => format!("rate {}", about(life, RATES as u64)),
        8 => format!("count {}", life.player.recorder.last.wrapping_add(life.random.below(500) as u32)),
        9 => "access".to_string(),
        10 => "off".to_string(),
        11 | 12 => format!("adjust {}", life.random_shift()),
        13 => "single".to_string(),
        _ => "reset".to_string(),
    }
}

/// The room, the recorder or what is lent to it; what is lent wrong is soon lent right again.
fn damage(life: &mut Life) -> String {
    let byte = life.random.below(MOST_TABLE_BYTES as u64);
    match life.random.below(10) {
        0..=4 => format!("poke table {byte} {}", about(life, RATES as u64)),
        5 => format!("poke loaded {}", life.random.below(2)),
        6 => format!("poke rate {}", about(life, RATES as u64)),
        7 => format!("lend table {}", life.random.between(TABLE_BYTES as u64 - 1, TABLE_BYTES as u64 + 1)),
        _ => "lend".to_string(),
    }
}

fn asked(life: &mut Life) -> String {
    match life.random.below(4) {
        0 => "table".to_string(),
        1 => format!("week @{}", life.today().saturating_sub(life.random.below(WEEKDAYS))),
        2 => format!("rateat @{}", life.time() + life.random.below(5 * SECONDS_PER_DAY)),
        _ => "read 1".to_string(),
    }
}

/// Time passes, or power comes back; where neither can be, a line that is refused.
fn passing(life: &mut Life) -> String {
    let time = life.time() + life.random.below(SECONDS_PER_DAY);
    if life.player.recorder.power || life.random.once_in(5) {
        format!("clock @{time}")
    } else {
        format!("on @{time}")
    }
}
