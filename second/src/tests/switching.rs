//! A table in an outstation: the events reckoned by hand, which answer comes first, what a refusal and a set-up leave,
//! damaged rooms, and random lives under one table after another.

use super::history::{any_event, Watched};
use super::tariff::{table, W};
use super::*;
use crate::answer::{TABLE_CLASH, TABLE_LOADED};
use crate::calendar::SECONDS_PER_DAY;
use crate::lives;
use crate::random::Random;
use crate::tariff::Slot;

/// Rate 7 at all times.
const SEVEN: [Slot; 2] = [[4, 7, 0, 0, 0], [1, 7, 0, 0, 7]];

fn begun() -> Outstation {
    Outstation::new(Class::A, 1_000, "240228065900", 0, 0)
}

#[test]
fn the_events_reckoned_by_hand() {
    let mut outstation = begun();
    let w = table(&W);
    for (event, answer, rate) in [
        (Event::Rate(5), 0, 5),
        (Event::Count(10), 0, 5),
        (Event::Rate(2), 0, 2),
        (Event::Load(&w), 0, 1),
        (Event::Rate(9), OUT_OF_RANGE, 1),
        (Event::Rate(2), TABLE_LOADED, 1),
        (Event::Rate(1), TABLE_LOADED, 1),
        (Event::Count(13), 0, 1),
        (Event::Clock(at("240228065959")), 0, 1),
        (Event::Clock(at("240228070000")), 0, 2),
        (Event::Count(20), 0, 2),
    ] {
        assert_eq!((outstation.event(event), outstation.recorder.rate), (answer, rate), "{event:?}");
    }
    let recorder = outstation.recorder;
    assert_eq!((recorder.registers, recorder.total), ([3_000, 7_000, 0, 0, 10_000, 0, 0, 0], 20_000));
    assert!(!recorder.level2 && !recorder.reverse);
    let today = outstation.day("240228");
    assert_eq!((today.flags, today.level2, today.reverse), (0, 0, 0));
    assert_eq!(outstation.event(Event::Off), 0);
    assert_eq!(outstation.event(Event::Load(&w)), WRONG_POWER);
    assert_eq!(outstation.event(Event::Rate(9)), WRONG_POWER);
    assert_eq!((outstation.event(Event::On(at("240302120000"))), outstation.recorder.rate), (0, 3));
    let seven = table(&SEVEN);
    assert_eq!((outstation.event(Event::Load(&seven)), outstation.recorder.rate), (0, 7));
    assert_eq!(outstation.event(Event::Load(&[0; 440])), OUT_OF_RANGE);
    assert_eq!((outstation.recorder.rate, &outstation.table), (7, &seven));
}

#[test]
fn a_load_changes_the_room_and_the_rate_alone() {
    let mut outstation = begun();
    outstation.event(Event::Count(10));
    let before = outstation.recorder;
    let (values, starts, marks) = (outstation.values.clone(), outstation.starts.clone(), outstation.marks.clone());
    let block = outstation.read(1);
    // The room's own bytes are not judged, the offered ones are.
    outstation.table = vec![9; 440];
    let offered = table(&SEVEN);
    assert_eq!(outstation.event(Event::Load(&offered)), 0);
    assert_eq!(outstation.recorder, Recorder { rate: 7, loaded: true, ..before });
    assert_eq!((&outstation.values, &outstation.starts, &outstation.marks), (&values, &starts, &marks));
    assert_eq!(outstation.read(1), block);
    assert_eq!(outstation.table, offered);
    // The same table once more, and the room as it is lent from then on.
    assert_eq!(outstation.event(Event::Load(&offered)), 0);
    outstation.table[9] = 6;
    assert_eq!((outstation.event(Event::Count(11)), outstation.recorder.rate), (0, 7));
    assert_eq!((outstation.event(Event::Clock(before.time)), outstation.recorder.rate), (0, 6));
}

#[test]
fn refused_loads_change_nothing() {
    let mut clash = table(&W);
    clash[50..55].copy_from_slice(&[4, 1, 0, 0, 0]);
    let mut missing = clash.clone();
    missing[51] = 8;
    let right = table(&W);
    for loaded in [false, true] {
        let mut outstation = begun();
        if loaded {
            outstation.event(Event::Load(&table(&SEVEN)));
        }
        let (recorder, room) = (outstation.recorder, outstation.table.clone());
        for (offered, answer) in [
            (&right[..439], OUT_OF_RANGE),
            (&[&right[..], &[0]].concat(), OUT_OF_RANGE),
            (&[], OUT_OF_RANGE),
            (&clash[..], TABLE_CLASH),
            (&missing[..], OUT_OF_RANGE),
        ] {
            assert_eq!(outstation.event(Event::Load(offered)), answer);
            assert_eq!((outstation.recorder, &outstation.table), (recorder, &room));
        }
    }
}

#[test]
fn the_order_of_answers_with_a_table() {
    let mut outstation = begun();
    let mut clash = table(&W);
    clash[50..55].copy_from_slice(&[4, 1, 0, 0, 0]);
    let wrong = vec![0; 440];
    assert_eq!(outstation.event(Event::Load(&table(&W))), 0);
    outstation.recorder.weight = 0;
    outstation.recorder.power = false;
    outstation.table.push(0);
    let class = outstation.recorder.class;
    let calls = |time| [Event::Load(&wrong), Event::Load(&clash), Event::Rate(9), Event::Rate(2), Event::Clock(time)];
    let expect = |outstation: &mut Outstation, answers: [u32; 5]| {
        assert_eq!(calls(0).map(|call| outstation.event(call)), answers);
    };
    outstation.recorder.class = None;
    expect(&mut outstation, [DAMAGED; 5]);
    outstation.recorder.class = class;
    expect(&mut outstation, [WRONG_LENGTH; 5]);
    outstation.table.truncate(439);
    expect(&mut outstation, [WRONG_LENGTH; 5]);
    outstation.table.push(0);
    expect(&mut outstation, [DAMAGED; 5]);
    outstation.recorder.weight = 1_000;
    expect(&mut outstation, [WRONG_POWER; 5]);
    outstation.recorder.power = true;
    expect(&mut outstation, [OUT_OF_RANGE, TABLE_CLASH, OUT_OF_RANGE, TABLE_LOADED, WRONG_TIME]);
    assert_eq!(outstation.event(Event::Count(u32::MAX)), TOO_MANY_UNITS);
}

#[test]
fn a_table_refuses_rate_alone() {
    let mut outstation = begun();
    assert_eq!(outstation.event(Event::Load(&table(&SEVEN))), 0);
    let time = outstation.recorder.time;
    for event in [
        Event::Count(1),
        Event::Clock(time),
        Event::Access,
        Event::Meter(5),
        Event::Reset,
        Event::Reverse,
        Event::Ppp(*b"abc"),
        Event::Adjust(0),
        Event::Off,
        Event::On(time),
    ] {
        assert_eq!((outstation.event(event), outstation.recorder.rate), (0, 7), "{event:?}");
    }
    for rate in 1..=8 {
        assert_eq!(outstation.event(Event::Rate(rate)), TABLE_LOADED);
    }
}

#[test]
fn a_room_of_another_length() {
    for length in [0, 439, 441] {
        let mut outstation = begun();
        let before = outstation.recorder;
        outstation.table.resize(length, 1);
        let w = table(&W);
        for event in [
            Event::Count(1),
            Event::Clock(before.time),
            Event::Off,
            Event::Rate(1),
            Event::Adjust(0),
            Event::Load(&w),
            Event::Single,
        ] {
            assert_eq!(outstation.event(event), WRONG_LENGTH);
        }
        // A read looks at no table.
        assert_eq!(outstation.read(1).len(), 331);
        assert_eq!(recorder::set_up(&set_up(1), &mut outstation.lend().1), (BLANK, Answer::refused(WRONG_LENGTH)));
        assert_eq!(recorder::set_up(&set_up(0), &mut outstation.lend().1), (BLANK, Answer::refused(OUT_OF_RANGE)));
        assert_eq!((outstation.values[0], outstation.table.len()), (0, length));
    }
}

fn set_up(weight: u64) -> SetUp {
    SetUp { identifier: IDENTIFIER, class: Some(Class::A), phase: Phase::Poly, weight, time: 0, total: 0, counter: 0 }
}

#[test]
fn a_set_up_clears_the_room_and_a_refused_one_leaves_it() {
    let mut outstation = begun();
    assert_eq!(outstation.table, [0; 440]);
    outstation.event(Event::Load(&table(&SEVEN)));
    assert_eq!(recorder::set_up(&set_up(0), &mut outstation.lend().1).0, BLANK);
    assert_eq!(outstation.table, table(&SEVEN));
    let (recorder, answer) = recorder::set_up(&set_up(1), &mut outstation.lend().1);
    assert_eq!((recorder.rate, recorder.loaded, answer), (1, false, Answer::done(0)));
    assert_eq!(outstation.table, [0; 440]);
    outstation.recorder = recorder;
    assert_eq!((outstation.event(Event::Rate(3)), outstation.recorder.rate), (0, 3));
}

#[test]
fn a_damaged_room_leaves_the_rate() {
    let mut outstation = begun();
    outstation.event(Event::Rate(5));
    outstation.recorder.loaded = true;
    let time = outstation.recorder.time;
    for (rate, active) in [(0, 5), (9, 5), (255, 5), (8, 8), (0, 8), (1, 1), (100, 1)] {
        outstation.table = table(&[[9, 9, 9, 9, 9], [1, 0, 0, 0, rate]]);
        assert_eq!((outstation.event(Event::Clock(time)), outstation.recorder.rate), (0, active));
    }
    outstation.table = vec![0; 440];
    assert_eq!((outstation.event(Event::Off), outstation.event(Event::On(time))), (0, 0));
    assert_eq!((outstation.recorder.rate, outstation.event(Event::Rate(1))), (1, TABLE_LOADED));
}

#[test]
fn scripts_edit_a_table_as_the_page_says() {
    let lines = [
        "default 1",
        "at 1 000000000000000000 1",
        "slot 2 0 7 7 7 7",
        "except 255 9900",
        "except 2 240506",
        "swap 0 4",
        "weekdays 3 255 0",
        "at 3 25599 255",
        "at 3 25600 1",
        "except 1 12345",
        "load",
        "lend table 5",
        "poke table 4 200",
        "poke table 5 200",
        "table",
        "rateat 000101 000000",
        "lend",
        "rateat @0",
        "week @0",
        "setup ABCX24000017 e p 1 @0 0 0",
        "setup ABCX24000017 a p 1 @0 0 0",
        "table",
    ];
    let answers = answers(&lines);
    assert_eq!(answers[..8], ["0 0", "0 1", "0 0", "0 2", "0 3", "0 0", "0 0", "0 5"]);
    assert_eq!(answers[8..14], ["? 9", "? 10", "5 0", "0 0", "0 0", "? 14"]);
    assert_eq!(answers[14..21], ["00000000c8", "0 0", "0 0", "0 0", "REFUSED 6", "6 0", "0 0"]);
    assert_eq!(answers[21], "0".repeat(880));
}

#[test]
fn registers_and_rates_under_one_table_after_another() {
    for seed in 1..=6 {
        let mut random = Random::new(seed);
        let mut watched = Watched::begin(Class::A, &mut random);
        for _ in 0..500 {
            if random.once_in(15) {
                let about = watched.history.time / SECONDS_PER_DAY;
                let most_rate = *random.pick(&[4, 4, 5, 8]);
                let mut bytes = table(&lives::random_entries(&mut random, about, most_rate));
                if random.once_in(3) {
                    bytes[random.below(440) as usize] ^= 1;
                }
                watched.event(Event::Load(&bytes));
            } else {
                let event = any_event(&watched, &mut random);
                watched.event(event);
            }
        }
        assert!(watched.history.registers.iter().filter(|&&register| register > 0).count() > 2);
    }
}
