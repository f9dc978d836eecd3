//! Weeks drawn: of accepted and of refused tables, over leap days and year ends and to the calendar's last day, with
//! times on half-hours, beside them and inside them.

use super::{default, switching_time};
use crate::block::RATES;
use crate::calendar::{self, DAYS, LAST_DAY, MINUTES_PER_DAY, MINUTES_PER_HALF_HOUR, WEEKDAYS};
use crate::lives::{Life, Script};
use crate::tariff::MOST_TIMES;

/// Weeks of tables made by chance, as they are and with one byte changed.
pub fn weeks(seed: u64) -> Script {
    let mut life = Life::new(seed);
    for _ in 0..60 {
        let any = life.random.below(DAYS - WEEKDAYS);
        let leap_day = calendar::read_date(b"240226").unwrap_or_default();
        let first = *life.random.pick(&[any, any, 0, leap_day, leap_day + 306, LAST_DAY - 6, LAST_DAY - 9]);
        let entries = life.edit_random(first);
        life.swap_slots(10);
        for day in [first, first.saturating_sub(3), first + 3, first + 365] {
            life.week(day);
        }
        for _ in 0..4 {
            let slot = life.random.below(entries.len() as u64 + 2);
            let [k, t, x, y, z] = entries.get(slot as usize).copied().unwrap_or_default();
            let byte = *life.random.pick(&[0, 1, 2, 3, 4, 7, 8, 9, 24, 100]);
            let mut changed = [k, t, x, y, z];
            changed[life.random.below(5) as usize] = byte;
            let [k, t, x, y, z] = changed;
            life.say(format!("slot {slot} {k} {t} {x} {y} {z}"));
            life.week(first);
        }
    }
    last_weeks(&mut life);
    life.finish("weeks drawn")
}

/// Weeks about the last that is whole, of a table that is accepted, out of range, or clashing.
fn last_weeks(life: &mut Life) {
    for lines in [&["at 1 0000 1", "default 1"][..], &["default 1"], &["at 1 0000 1", "default 1", "default 1"]] {
        life.say("blank");
        life.say_all(lines);
        for day in LAST_DAY - 8..=LAST_DAY + 1 {
            life.week(day);
        }
        life.say_all(&["week @65536", "week @4294967295", "week @4294967296", "week 000101", "week @0"]);
    }
}

/// Half-hours with times at each of their minutes: that change the rate, that do not, and that change it back.
pub fn half_hours(seed: u64) -> Script {
    let mut life = Life::new(seed);
    for half_hour in 0..MINUTES_PER_DAY / MINUTES_PER_HALF_HOUR {
        let begin = half_hour * MINUTES_PER_HALF_HOUR;
        for at in [0, 1, 2, MINUTES_PER_HALF_HOUR / 2, MINUTES_PER_HALF_HOUR - 1] {
            for rates in [[2, 2], [1, 1], [2, 1], [1, 2]] {
                let minute = begin + at;
                let mut entries = vec![default(3), switching_time(3, 0, 1)];
                let later = (minute + 5).min(MINUTES_PER_DAY - 1);
                if minute > 0 {
                    entries.push(switching_time(3, minute, rates[0]));
                }
                if later > minute {
                    entries.push(switching_time(3, later, rates[1]));
                }
                life.edit(&entries);
                life.say("week 240226");
            }
        }
    }
    crowded(&mut life);
    life.finish("half-hours drawn")
}

/// All the times that a table may have, in one day type.
fn crowded(life: &mut Life) {
    for step in [1, 2, 15, MINUTES_PER_HALF_HOUR - 1, MINUTES_PER_HALF_HOUR] {
        let mut entries = vec![default(8)];
        for index in 0..MOST_TIMES {
            let rate = life.random.between(1, RATES as u64) as u8;
            entries.push(switching_time(8, index * step, rate));
        }
        life.random.shuffle(&mut entries);
        life.edit(&entries);
        life.say_all(&["week 240226", "week 991225"]);
    }
}
