//! Lives with a table loaded: clocks, adjustments and outages about its switching times and midnights, loads and reloads, Rate in
//! between; every day of the calendar; and one table in many orders.

use super::{default, every_year, exception, random_entries, switching_time, weekdays};
use crate::block::RATES;
use crate::calendar::{self, DAYS, LAST_DAY, LAST_TIME, MINUTES, MINUTES_PER_DAY, SECONDS, SECONDS_PER_DAY, WEEKDAYS};
use crate::lives::outages::pass;
use crate::lives::{Life, Script, MOST_32_BITS, UNIT_A_PULSE};
use crate::quantities::TOTAL_MODULUS;
use crate::recorder::{Class, MOST_ASKED};
use crate::script::MOST_NUMBER;
use crate::tariff::{Slot, DAY_TYPES, DEFAULT, EXCEPTION, SLOTS, TIME};

/// Days about which lives begin: the calendar's first and last, leap days and the days that others have instead, year
/// ends.
const DATES: [&str; 14] = [
    "000101", "000227", "010227", "031229", "040228", "231225", "240227", "241229", "250226", "480228", "960227",
    "970225", "981228", "991224",
];

fn day(date: &str) -> u64 {
    calendar::read_date(date.as_bytes()).unwrap_or_default()
}

/// Some weeks of an outstation under one table after the other.
pub fn weeks(seed: u64) -> Script {
    let mut life = Life::new(seed);
    for _ in 0..4 {
        let any = life.random.below(DAYS - 30);
        let dated = day(life.random.pick::<&str>(&DATES));
        let first = *life.random.pick(&[any, dated]);
        begin(&mut life, first);
        let mut entries = load_another(&mut life);
        for _ in 0..150 {
            if life.random.once_in(40) {
                entries = load_another(&mut life);
            }
            step(&mut life, &entries);
        }
        life.say_all(&["table", &format!("read {MOST_ASKED}"), "listing", "block"]);
    }
    life.finish("weeks under a table")
}

fn begin(life: &mut Life, first: u64) {
    let class = *life.random.pick(&[Class::A, Class::A, Class::B]);
    let time = first * SECONDS_PER_DAY + life.random.below(SECONDS_PER_DAY);
    let total = life.random.below(TOTAL_MODULUS);
    let counter = life.random.bits() as u32;
    let phase = life.random_phase();
    life.set_up_as(phase, class, UNIT_A_PULSE, time, total, counter);
    let rate = life.random.between(1, RATES as u64);
    life.say(format!("rate {rate}"));
    use_energy(life);
}

fn use_energy(life: &mut Life) {
    let pulses = life.random.below(life.pulses_left() / 20 + 2);
    life.pulses(pulses);
}

/// Another table, loaded and looked at.
fn load_another(life: &mut Life) -> Vec<Slot> {
    let today = life.today();
    let entries = life.edit_random(today);
    life.swap_slots(20);
    life.say_all(&["load", "show"]);
    life.week(today);
    use_energy(life);
    entries
}

/// A time at which the table may switch, or a second beside it, not before the present time.
fn next_time(life: &mut Life, entries: &[Slot], days: u64) -> u64 {
    let times: Vec<&Slot> = entries.iter().filter(|entry| entry[0] == TIME).collect();
    let [_, _, hour, minute, _] = **life.random.pick(&times);
    let switching = SECONDS * (MINUTES * u64::from(hour) + u64::from(minute));
    let of_day = *life.random.pick(&[switching, switching, switching, 0, SECONDS_PER_DAY]);
    let today = life.today() + life.random.below(days + 1);
    let mut time = today * SECONDS_PER_DAY + of_day;
    while time <= life.time() {
        time += SECONDS_PER_DAY;
    }
    let beside = *life.random.pick(&[-1, 0, 0, 1]);
    time.saturating_add_signed(beside).max(life.time())
}

fn step(life: &mut Life, entries: &[Slot]) {
    match life.random.below(23) {
        0..=9 => {
            let time = next_time(life, entries, 1);
            life.clock(time);
            use_energy(life);
        }
        10 | 11 => outage(life, entries),
        12 | 13 => {
            let rate = life.random.below(RATES as u64 + 2);
            life.say(format!("rate {rate}"));
            let active = life.player.recorder.rate;
            life.say(format!("rate {active}"));
        }
        14 => {
            let event = *life.random.pick(&["access", "reverse", "reset", "meter 5", "ppp Q7q"]);
            life.say_all(&[event, "show"]);
        }
        15 => life.say_all(&["load"]),
        16 => {
            life.say_all(&["default 1", "load", "show"]);
            life.edit(entries);
        }
        17 => {
            let time = next_time(life, entries, 400);
            life.rate_at(time);
        }
        18 => life.say_all(&["read 2", "check", "listing"]),
        19 | 20 => {
            life.random_adjust();
            use_energy(life);
        }
        21 => life.say_all(&["clock @0", "count 0"]),
        _ => life.say_all(&["single"]),
    }
    life.say("show");
}

/// Power lost, what is tried in between, and power back at a switching, after some of them or after years.
fn outage(life: &mut Life, entries: &[Slot]) {
    life.say_all(&["off", "load", "rate 2", "rate 9", "on @0", "show"]);
    let days = *life.random.pick(&[0, 1, 4, 30, 800]);
    let time = next_time(life, entries, days);
    life.on(time);
    use_energy(life);
}

/// Every day of the hundred years, at an edge of the day or of its last minute and anywhere, under a table with each
/// rank on each weekday and with leap days of every year and of one.
pub fn calendar(seed: u64) -> Script {
    let mut life = Life::new(seed);
    let leap_days = [every_year(4, day("000229")), exception(5, day("240228")), exception(6, day("960301"))];
    let ends = [every_year(7, LAST_DAY), exception(8, 0), exception(8, LAST_DAY - 1), every_year(3, day("230302"))];
    let mut entries = vec![default(1), weekdays(2, 2, 3), weekdays(3, 5, 6), weekdays(8, 7, 7)];
    entries.extend(leap_days.into_iter().chain(ends));
    entries.extend((0..WEEKDAYS).map(|weekday| exception(DAY_TYPES - weekday as u8, day("240610") + weekday)));
    for day_type in 1..=DAY_TYPES {
        entries.push(switching_time(day_type, 0, day_type));
        entries.push(switching_time(day_type, MINUTES_PER_DAY - 1, 1 + day_type % RATES as u8));
    }
    life.random.shuffle(&mut entries);
    life.edit(&entries);
    life.set_up(Class::A, UNIT_A_PULSE, 0, 0, 0);
    life.say_all(&["load", "show"]);
    for day in 0..DAYS {
        let begin = day * SECONDS_PER_DAY;
        let edge =
            *life.random.pick(&[0, SECONDS_PER_DAY - SECONDS - 1, SECONDS_PER_DAY - SECONDS, SECONDS_PER_DAY - 1]);
        let between = life.random.below(SECONDS_PER_DAY);
        life.rate_at(begin + edge);
        life.rate_at(begin + between);
    }
    for time in [LAST_TIME, LAST_TIME + 1, MOST_32_BITS + 1, MOST_NUMBER] {
        life.rate_at(time);
    }
    life.finish("a table over the calendar")
}

/// Days by Clock and by On at each switching and beside it, at the dates where calendars differ.
pub fn dates(seed: u64) -> Script {
    let mut life = Life::new(seed);
    for date in DATES {
        let first = day(date);
        begin_at(&mut life, first * SECONDS_PER_DAY);
        let mut entries = random_entries(&mut life.random, first + 3, RATES as u64);
        entries.retain(|entry| entry[0] != EXCEPTION);
        let named = default_type(&entries);
        entries.extend([every_year(named, first + 1), exception(named, first + 2), exception(named, first + 5)]);
        life.edit(&entries);
        life.say_all(&["load", "show", "blank"]);
        for passed in 0..8 {
            for second in [0, 1, SECONDS_PER_DAY / 2, SECONDS_PER_DAY - SECONDS, SECONDS_PER_DAY - 1] {
                let time = (first + passed) * SECONDS_PER_DAY + second;
                let by_on = life.random.once_in(3);
                pass(&mut life, by_on, time);
                use_energy(&mut life);
                life.say("show");
            }
        }
    }
    life.finish("a table about leap days and year ends")
}

fn begin_at(life: &mut Life, time: u64) {
    life.set_up(Class::A, UNIT_A_PULSE, time, 0, 0);
}

fn default_type(entries: &[Slot]) -> u8 {
    entries.iter().find(|entry| entry[0] == DEFAULT).map_or(1, |entry| entry[1])
}

/// Each rank on top of the ranks below it, in any order, on each weekday: by a load, by the midnight before, by an
/// adjustment and by an On behind it.
pub fn ranks(seed: u64) -> Script {
    let mut life = Life::new(seed);
    for weekday in 0..WEEKDAYS {
        let today = life.random.below(LAST_DAY / WEEKDAYS - 1) * WEEKDAYS + weekday + 1;
        let number = calendar::weekday(today) as u8;
        let run = weekdays(2, number, number);
        let higher: [&[Slot]; 6] = [
            &[],
            &[run],
            &[exception(3, today)],
            &[every_year(3, today)],
            &[run, exception(3, today)],
            &[run, every_year(3, today)],
        ];
        for entries in higher {
            let rates = (1..=3).map(|day_type| switching_time(day_type, 0, 3 + day_type));
            let mut entries: Vec<Slot> = entries.iter().copied().chain(rates).chain([default(1)]).collect();
            life.random.shuffle(&mut entries);
            life.edit(&entries);
            begin_at(&mut life, today * SECONDS_PER_DAY - 1);
            life.say_all(&["load", "show"]);
            if life.random.once_in(2) {
                life.say_all(&["adjust 1", "show"]);
            }
            life.clock(today * SECONDS_PER_DAY);
            life.say_all(&["show", "adjust 1", "show", "off"]);
            life.on(today * SECONDS_PER_DAY + second_of(weekday));
            life.say_all(&["show", "load", "show", "off"]);
            life.on((today + 1) * SECONDS_PER_DAY);
            life.say("show");
            life.say(format!("rateat @{}", today * SECONDS_PER_DAY));
        }
    }
    life.finish("ranks of a table")
}

/// A second of the day, another for each weekday.
fn second_of(weekday: u64) -> u64 {
    (weekday + 1) * SECONDS_PER_DAY / (WEEKDAYS + 1)
}

/// The same table in many orders: drawn, loaded and asked, each time the same lines must come.
pub fn orders(seed: u64) -> Script {
    let mut life = Life::new(seed);
    for _ in 0..6 {
        let first = life.random.below(DAYS - 60);
        let entries = life.edit_random(first);
        let times: Vec<u64> =
            (0..20).map(|_| first * SECONDS_PER_DAY + life.random.below(50 * SECONDS_PER_DAY)).collect();
        for order in 0..6 {
            match order {
                0 => {}
                1 => reverse(&mut life),
                2 => {
                    let mut sorted = entries.clone();
                    sorted.sort_unstable();
                    life.edit(&sorted);
                }
                3 => {
                    let mut sorted = entries.clone();
                    sorted.sort_unstable_by(|one, other| other.cmp(one));
                    life.edit(&sorted);
                }
                _ => life.swap_slots(60),
            }
            begin_at(&mut life, first * SECONDS_PER_DAY);
            life.say(format!("week @{first}"));
            life.say("load");
            for time in &times {
                life.say(format!("rateat @{time}"));
            }
        }
    }
    life.finish("one table in many orders")
}

/// The last slot becomes the first.
fn reverse(life: &mut Life) {
    for slot in 0..SLOTS / 2 {
        life.say(format!("swap {slot} {}", SLOTS - 1 - slot));
    }
}
