//! The table's cases reckoned by hand: what is judged, the rate at a second, the week drawn; and the rate found by
//! another way, for tables in any order and for damaged bytes.

use crate::answer::{OUT_OF_RANGE, TABLE_CLASH};
use crate::calendar;
use crate::lives;
use crate::random::Random;
use crate::tariff::{judge, rate_at, week, week_of_input, Slot};
use std::cmp::Reverse;

/// Table W: day type 1 has rate 2 from 07:00 to 23:30, else 1; type 2 rate 3; type 3 rate 4 until noon, then 1.
pub const W: [Slot; 10] = [
    [1, 1, 0, 0, 1],
    [1, 1, 7, 0, 2],
    [1, 1, 23, 30, 1],
    [1, 2, 0, 0, 3],
    [1, 3, 0, 0, 4],
    [1, 3, 12, 0, 1],
    [4, 1, 0, 0, 0],
    [3, 2, 6, 7, 0],
    [2, 3, 100, 12, 25],
    [2, 2, 24, 5, 6],
];

/// Day type 1 from 00:00, and the default.
const LEAST: [Slot; 2] = [[1, 1, 0, 0, 1], [4, 1, 0, 0, 0]];

/// Entries from slot 0 on, the others unused.
pub fn table(entries: &[Slot]) -> Vec<u8> {
    let mut bytes = entries.concat();
    assert!(bytes.len() <= 440);
    bytes.resize(440, 0);
    bytes
}

/// A table of the least and some entries more.
fn with(entries: &[Slot]) -> Vec<u8> {
    table(&[&LEAST[..], entries].concat())
}

fn shuffled(table: &[u8], random: &mut Random) -> Vec<u8> {
    let mut slots: Vec<&[u8]> = table.chunks(5).collect();
    random.shuffle(&mut slots);
    slots.concat()
}

fn number(table: &[u8]) -> u32 {
    judge(table).err().unwrap_or(0)
}

fn at(time: &str) -> u64 {
    calendar::read_time(time.as_bytes()).unwrap()
}

/// The rate by looking for the best entry and the latest time, each with the lowest slot among equals.
pub fn rate_by_looking(table: &[u8], time: u64) -> u8 {
    let day = time / 86_400;
    let (year, month, date) = calendar::date(day);
    let weekday = (day + 5) % 7 + 1;
    let slots: Vec<[u64; 5]> = table.chunks(5).map(|bytes| [0, 1, 2, 3, 4].map(|byte| bytes[byte].into())).collect();
    let covers = |slot: &&[u64; 5]| match slot[0] {
        2 => (slot[2] == 100 || slot[2] == year) && slot[3] == month && slot[4] == date,
        3 => slot[2] <= weekday && weekday <= slot[3],
        kind => kind == 4,
    };
    let day_type = slots.iter().filter(covers).min_by_key(|slot| slot[0]).map_or(0, |slot| slot[1]);
    let minute = time % 86_400 / 60;
    let began = |slot: &&[u64; 5]| slot[0] == 1 && slot[1] == day_type && slot[2] * 60 + slot[3] <= minute;
    let latest = slots.iter().filter(began).min_by_key(|slot| Reverse(slot[2] * 60 + slot[3]));
    latest.map_or(0, |slot| slot[4] as u8)
}

#[test]
fn the_rates_of_w() {
    let mut random = Random::new(1);
    let mut bytes = table(&W);
    for _ in 0..20 {
        assert_eq!(number(&bytes), 0);
        for (time, rate) in [
            ("240228065959", 1),
            ("240228070000", 2),
            ("240228232959", 2),
            ("240228233000", 1),
            ("240301235959", 1),
            ("240302000000", 3),
            ("240303235959", 3),
            ("240304000000", 1),
            ("240506120000", 3),
            ("250506120000", 2),
            ("271225115959", 4),
            ("271225120000", 1),
            ("000101000000", 3),
            ("991231235959", 1),
            // An exception's day begins with its own rate, and the day after it with that day's.
            ("241224235959", 1),
            ("241225000000", 4),
            ("241225235959", 1),
            ("240505235959", 3),
            ("240506000000", 3),
            ("240506235959", 3),
            ("240507000000", 1),
        ] {
            assert_eq!(rate_at(&bytes, at(time)), rate, "{time}");
        }
        bytes = shuffled(&bytes, &mut random);
    }
    assert_eq!(rate_at(&bytes, calendar::LAST_TIME + 1), 0);
    assert_eq!(rate_at(&bytes[..439], 0), 0);
    assert_eq!(rate_at(&[&bytes[..], &[0]].concat(), 0), 0);
}

#[test]
fn what_is_judged() {
    let (range, clash) = (OUT_OF_RANGE, TABLE_CLASH);
    assert_eq!(number(&[0; 440]), range);
    assert_eq!(number(&table(&[[4, 1, 0, 0, 0]])), range);
    assert_eq!(number(&table(&[[4, 1, 0, 0, 0], [1, 1, 0, 1, 1]])), range);
    assert_eq!(number(&table(&LEAST[..1])), range);
    assert_eq!(number(&table(&LEAST)), 0);
    let cases: [(&[Slot], u32); 20] = [
        (&[[1, 1, 0, 0, 1]], clash),
        (&[[1, 1, 0, 0, 2]], clash),
        (&[[1, 2, 0, 0, 1]], 0),
        (&[[3, 1, 1, 5, 0], [3, 1, 5, 7, 0]], clash),
        (&[[3, 1, 1, 5, 0], [3, 1, 6, 7, 0]], 0),
        (&[[3, 1, 2, 4, 0], [3, 1, 3, 3, 0]], clash),
        (&[[2, 1, 100, 2, 29], [2, 1, 24, 2, 29]], clash),
        (&[[2, 1, 100, 2, 29], [2, 1, 100, 2, 28]], 0),
        (&[[2, 1, 100, 2, 29], [2, 1, 100, 2, 29]], clash),
        (&[[2, 1, 23, 2, 29]], range),
        (&[[2, 1, 24, 5, 6], [2, 1, 25, 5, 6]], 0),
        (&[[2, 1, 24, 5, 6], [2, 1, 24, 5, 6]], clash),
        (&[[2, 1, 0, 1, 1], [2, 1, 100, 1, 1]], clash),
        (&[[2, 1, 0, 1, 1], [2, 1, 99, 1, 1]], 0),
        (&[[4, 1, 0, 0, 0]], clash),
        (&[[4, 2, 0, 0, 0], [1, 2, 0, 0, 1]], clash),
        (&[[4, 2, 0, 0, 0]], range),
        (&[[1, 2, 0, 1, 1]], 0),
        (&[[3, 2, 1, 1, 0], [1, 2, 0, 1, 1]], range),
        (&[[2, 2, 24, 5, 6], [1, 2, 23, 59, 1]], range),
    ];
    for (entries, answer) in cases {
        assert_eq!(number(&with(entries)), answer, "{entries:?}");
    }
}

#[test]
fn values_out_of_range() {
    let wrong: [Slot; 26] = [
        [1, 1, 24, 0, 1],
        [1, 1, 7, 60, 1],
        [1, 1, 7, 0, 0],
        [1, 1, 7, 0, 9],
        [1, 0, 7, 0, 1],
        [1, 9, 7, 0, 1],
        [5, 1, 0, 0, 0],
        [5, 0, 0, 0, 0],
        [3, 1, 5, 4, 0],
        [3, 1, 0, 1, 0],
        [3, 1, 7, 8, 0],
        [3, 0, 1, 1, 0],
        [3, 9, 1, 1, 0],
        [3, 1, 1, 1, 1],
        [2, 0, 24, 5, 6],
        [2, 9, 24, 5, 6],
        [2, 1, 101, 5, 6],
        [2, 1, 24, 0, 6],
        [2, 1, 24, 13, 6],
        [2, 1, 24, 5, 0],
        [2, 1, 24, 4, 31],
        [2, 1, 100, 2, 30],
        [0, 1, 0, 0, 0],
        [0, 0, 0, 0, 1],
        [4, 0, 0, 0, 0],
        [4, 1, 0, 0, 1],
    ];
    for entry in wrong {
        assert_eq!(number(&with(&[entry])), OUT_OF_RANGE, "{entry:?}");
        // Also beside a clash.
        assert_eq!(number(&with(&[entry, [1, 1, 0, 0, 1]])), OUT_OF_RANGE, "{entry:?}");
    }
}

#[test]
fn the_most_entries() {
    let mut entries: Vec<Slot> = (0..48).map(|half_hour| [1, 1, half_hour / 2, half_hour % 2 * 30, 1]).collect();
    entries.extend((0..32).map(|index| [2, 1, index, 5, 6]));
    entries.extend((1..=7).map(|weekday| [3, 1, weekday, weekday, 0]));
    entries.push([4, 1, 0, 0, 0]);
    assert_eq!((entries.len(), number(&table(&entries))), (88, 0));
    for (out, into) in [(87, [1, 1, 0, 1, 1]), (86, [1, 1, 0, 1, 1]), (86, [2, 1, 99, 5, 6])] {
        let mut changed = entries.clone();
        changed[out] = into;
        assert_eq!(number(&table(&changed)), OUT_OF_RANGE, "{into:?}");
    }
    assert_eq!(number(&table(&entries)[..439]), OUT_OF_RANGE);
    assert_eq!(number(&[&table(&entries)[..], &[0]].concat()), OUT_OF_RANGE);
    assert_eq!(number(&[]), OUT_OF_RANGE);
}

#[test]
fn weekdays_of_known_dates() {
    for (date, weekday) in [("000101", 6), ("240228", 3), ("240303", 7), ("240304", 1), ("271225", 6), ("991231", 4)] {
        assert_eq!(calendar::weekday(calendar::read_date(date.as_bytes()).unwrap()), weekday, "{date}");
    }
}

#[test]
fn the_year_0_is_2000_and_every_year_is_100() {
    for (year, rates) in [(0, [2, 1, 1]), (1, [1, 2, 1]), (99, [1, 1, 2]), (100, [2, 2, 2])] {
        let bytes = with(&[[2, 2, year, 1, 1], [1, 2, 0, 0, 2]]);
        assert_eq!(["000101000000", "010101000000", "990101000000"].map(|time| rate_at(&bytes, at(time))), rates);
    }
    let leap_days = with(&[[2, 2, 100, 2, 29], [1, 2, 0, 0, 2]]);
    let times = ["230228120000", "230301120000", "240229000000", "240229235959", "240301000000", "960229120000"];
    assert_eq!(times.map(|time| rate_at(&leap_days, at(time))), [1, 1, 2, 2, 1, 2]);
}

#[test]
fn the_week_of_the_page() {
    let day = "111111111111112222222222222222222222222222222221";
    let mut text = String::new();
    for (date, weekday) in [("240226", 1), ("240227", 2), ("240228", 3), ("240229", 4), ("240301", 5)] {
        text += &format!("{date} {weekday} 1 {day}\n");
    }
    text += &format!("240302 6 2 {}\n240303 7 2 {0}\n", "3".repeat(48));
    text += "1 0000 1, 0700 2, 2330 1\n2 0000 3\n3 0000 4, 1200 1\n";
    let mut random = Random::new(2);
    let bytes = shuffled(&table(&W), &mut random);
    assert_eq!(week(calendar::read_date(b"240226").unwrap(), &bytes), text);
    assert_eq!(week_of_input(&[b"240226\n", &bytes[..]].concat()), text);
    for wrong in [&b"240226"[..], b"240226\r\n", b"230229\n", b"991226\n", b"24022\n", b"@8822\n", b"\n240226\n"] {
        assert_eq!(week_of_input(&[wrong, &bytes].concat()), "REFUSED 6\n");
    }
}

#[test]
fn half_hours_with_a_change_inside() {
    let drawn = |entries: &[Slot]| week(0, &with(entries)).split(' ').nth(3).unwrap()[..48].to_string();
    assert_eq!(drawn(&[[1, 1, 0, 30, 2]]), format!("1{}", "2".repeat(47)));
    assert_eq!(drawn(&[[1, 1, 0, 31, 2]]), format!("1+{}", "2".repeat(46)));
    assert_eq!(drawn(&[[1, 1, 0, 29, 2]]), format!("+{}", "2".repeat(47)));
    assert_eq!(drawn(&[[1, 1, 0, 40, 1]]), "1".repeat(48));
    assert_eq!(drawn(&[[1, 1, 23, 50, 2], [1, 1, 23, 55, 1]]), format!("{}+", "1".repeat(47)));
    assert_eq!(week(36_518, &with(&[])).lines().count(), 8);
    assert_eq!(week(36_519, &with(&[])), "REFUSED 6\n");
    assert_eq!(week(36_518, &with(&[[4, 1, 0, 0, 0]])), "REFUSED 14\n");
    assert_eq!(week(36_519, &with(&[[4, 1, 0, 0, 0]])), "REFUSED 6\n");
}

#[test]
fn any_order_gives_the_same_rate_at_every_second() {
    let mut random = Random::new(3);
    for _ in 0..60 {
        let about = random.below(calendar::DAYS);
        let bytes = table(&lives::random_entries(&mut random, about, 8));
        assert_eq!(number(&bytes), 0);
        let other = shuffled(&bytes, &mut random);
        assert_eq!(number(&other), 0);
        assert_eq!(week(about.min(36_518), &bytes), week(about.min(36_518), &other));
        for _ in 0..200 {
            let day = (about + random.below(80)).saturating_sub(40).min(calendar::LAST_DAY);
            let time = day * 86_400 + random.below(86_400);
            let rate = rate_at(&bytes, time);
            assert!((1..=8).contains(&rate));
            assert_eq!((rate_at(&other, time), rate_by_looking(&bytes, time)), (rate, rate));
        }
    }
}

#[test]
fn a_damaged_table_has_the_rate_of_the_lowest_slots() {
    let mut random = Random::new(4);
    for round in 0..400 {
        let about = random.below(calendar::DAYS);
        let mut bytes = table(&lives::random_entries(&mut random, about, 8));
        for _ in 0..random.between(1, 200) {
            let most = *random.pick(&[6, 10, 101, 256]);
            bytes[random.below(440) as usize] = random.below(most) as u8;
        }
        if round % 4 == 0 {
            bytes.iter_mut().for_each(|byte| *byte = random.below(5) as u8);
        }
        for _ in 0..50 {
            let time = (about * 86_400 + random.below(20 * 86_400)).min(calendar::LAST_TIME);
            assert_eq!(rate_at(&bytes, time), rate_by_looking(&bytes, time));
        }
    }
}
