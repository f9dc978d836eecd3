//! What can be chosen on each phase kind, reckoned by hand: rates by the event and tables that name them, which answer
//! comes first, damaged rates and rooms, and reads, which look at no phase.

use super::tariff::{table, W};
use super::*;
use crate::answer::{TABLE_CLASH, TABLE_LOADED};
use crate::tariff::Slot;

/// A thousandth of a kWh a pulse, at noon on a Wednesday.
pub fn begun(phase: Phase) -> Outstation {
    let (class, time) = (Some(Class::A), at("240228120000"));
    Outstation::set_up(&SetUp { identifier: IDENTIFIER, class, phase, weight: 1_000, time, total: 5_000, counter: 0 })
}

/// Polyphase with an active rate.
pub fn active(rate: u32) -> Outstation {
    let mut outstation = begun(Phase::Poly);
    assert_eq!(outstation.event(Event::Rate(rate)), 0);
    outstation
}

/// Single phase as set-up makes it, and as a conversion does.
pub fn single() -> [Outstation; 2] {
    let mut converted = active(6);
    assert_eq!(converted.event(Event::Single), 0);
    [begun(Phase::Single), converted]
}

/// W with one entry more.
pub fn with(entry: Slot) -> Vec<u8> {
    table(&[&W[..], &[entry]].concat())
}

/// Refused events change nothing.
pub fn refused(outstation: &mut Outstation, event: Event, answer: u32) {
    let before = outstation.clone();
    assert_eq!(outstation.event(event), answer, "{event:?}");
    assert_eq!(*outstation, before);
}

#[test]
fn rates_by_the_event() {
    for mut outstation in single() {
        for rate in [5, 6, 7, 8, 9, 0, 256 + 4, u32::MAX] {
            refused(&mut outstation, Event::Rate(rate), OUT_OF_RANGE);
        }
        for rate in [4, 1, 2, 3] {
            assert_eq!((outstation.event(Event::Rate(rate)), outstation.recorder.rate), (0, rate.into()));
        }
    }
    for rate in 1..=8 {
        assert_eq!(active(rate).recorder.rate, u64::from(rate));
    }
    refused(&mut begun(Phase::Poly), Event::Rate(9), OUT_OF_RANGE);
}

#[test]
fn tables_offered_to_single_phase() {
    for mut outstation in single() {
        for rate in 5..=8 {
            // Of day types used and of one that is not, from 00:00 and later.
            for entry in
                [[1, 1, 8, 0, rate], [1, 2, 8, 0, rate], [1, 3, 8, 0, rate], [1, 8, 0, 0, rate], [1, 8, 9, 1, rate]]
            {
                refused(&mut outstation, Event::Load(&with(entry)), OUT_OF_RANGE);
                let mut last = with(Slot::default());
                last[435..].copy_from_slice(&entry);
                refused(&mut outstation, Event::Load(&last), OUT_OF_RANGE);
                assert_eq!(begun(Phase::Poly).event(Event::Load(&last)), 0);
            }
        }
        for entry in
            [[1, 8, 0, 0, 4], [1, 1, 8, 0, 4], [2, 1, 8, 7, 6], [2, 1, 100, 5, 5], [1, 8, 5, 6, 1], [1, 5, 0, 0, 2]]
        {
            assert_eq!(outstation.event(Event::Load(&with(entry))), 0, "{entry:?}");
        }
        let everywhere =
            [[4, 5, 0, 0, 0], [1, 5, 0, 0, 3], [3, 5, 5, 7, 0], [2, 5, 5, 5, 5], [2, 5, 8, 8, 8], [1, 5, 6, 7, 4]];
        assert_eq!((outstation.event(Event::Load(&table(&everywhere))), outstation.recorder.rate), (0, 4));
        assert_eq!(outstation.event(Event::Single), 0);
    }
}

#[test]
fn six_before_fourteen() {
    let clashes: [&[Slot]; 4] = [
        &[[4, 1, 0, 0, 0], [1, 8, 0, 0, 5]],
        &[[1, 1, 7, 0, 5]],
        &[[1, 8, 0, 0, 5], [1, 8, 0, 0, 5]],
        &[[1, 8, 0, 0, 1], [1, 8, 0, 0, 8], [2, 1, 24, 12, 25]],
    ];
    for entries in clashes {
        let offered = table(&[&W[..], entries].concat());
        for mut outstation in single() {
            refused(&mut outstation, Event::Load(&offered), OUT_OF_RANGE);
        }
        refused(&mut begun(Phase::Poly), Event::Load(&offered), TABLE_CLASH);
        let lower: Vec<u8> = offered.chunks(5).flat_map(|slot| lowered(slot.try_into().unwrap())).collect();
        refused(&mut begun(Phase::Single), Event::Load(&lower), TABLE_CLASH);
    }
}

/// Rate 4 instead of a higher one.
fn lowered(slot: Slot) -> Slot {
    let [kind, day_type, hour, minute, rate] = slot;
    if kind == 1 {
        [kind, day_type, hour, minute, rate.min(4)]
    } else {
        slot
    }
}

#[test]
fn other_faults_are_six_as_before() {
    let five = with([1, 8, 0, 0, 5]);
    for mut outstation in single() {
        for offered in [&five[..439], &five[..50], &[], &[&five[..], &[0]].concat(), &with([1, 8, 0, 0, 9])] {
            refused(&mut outstation, Event::Load(offered), OUT_OF_RANGE);
        }
        refused(&mut outstation, Event::Load(&table(&[[1, 1, 0, 0, 5]])), OUT_OF_RANGE);
    }
}

#[test]
fn six_before_fifteen() {
    for mut outstation in single() {
        assert_eq!(outstation.event(Event::Load(&table(&W))), 0);
        for (rate, answer) in
            [(5, OUT_OF_RANGE), (8, OUT_OF_RANGE), (0, OUT_OF_RANGE), (3, TABLE_LOADED), (2, TABLE_LOADED)]
        {
            refused(&mut outstation, Event::Rate(rate), answer);
        }
    }
}

#[test]
fn a_damaged_rate_is_five_but_for_a_read() {
    let w = table(&W);
    let time = begun(Phase::Poly).recorder.time;
    let events = [
        Event::Count(1),
        Event::Clock(time),
        Event::Clock(0),
        Event::Off,
        Event::Access,
        Event::Meter(1),
        Event::Reset,
        Event::Rate(3),
        Event::Rate(9),
        Event::Reverse,
        Event::Ppp(*b"abc"),
        Event::Adjust(0),
        Event::Load(&w),
        Event::Load(&[]),
        Event::Single,
    ];
    for outstation in single() {
        for rate in [0, 5, 6, 7, 8, 9, 256 + 1] {
            for (event, power) in events.map(|event| (event, true)).into_iter().chain([(Event::On(time), false)]) {
                // 5 before 1, and behind 4.
                for power in [power, !power] {
                    let mut damaged = outstation.clone();
                    (damaged.recorder.rate, damaged.recorder.power) = (rate, power);
                    refused(&mut damaged, event, DAMAGED);
                    damaged.marks.push(0);
                    refused(&mut damaged, event, WRONG_LENGTH);
                }
                let mut poly = outstation.clone();
                (poly.recorder.rate, poly.recorder.power, poly.recorder.phase) = (rate, power, Phase::Poly);
                assert_eq!(poly.event(event) == DAMAGED, !(1..=8).contains(&rate), "{event:?} {rate}");
            }
        }
    }
}

#[test]
fn a_read_looks_at_no_phase() {
    for rate in 0..=9 {
        let mut blocks = Vec::new();
        for phase in [Phase::Poly, Phase::Single] {
            let mut outstation = active(8);
            (outstation.recorder.rate, outstation.recorder.phase) = (rate, phase);
            outstation.table = vec![5; 7];
            let mut output = vec![0; 331];
            let (recorder, store) = outstation.lend();
            let answer = recorder.read(1, &store, &mut output);
            let due = if (1..=8).contains(&rate) { Answer::done(331) } else { Answer::refused(DAMAGED) };
            assert_eq!(answer, due);
            blocks.push(output);
        }
        assert_eq!(blocks[0], blocks[1]);
    }
}

#[test]
fn a_damaged_room_leaves_the_rate_on_single_phase() {
    for mut outstation in single() {
        let time = outstation.recorder.time;
        assert_eq!(outstation.event(Event::Load(&table(&[[4, 1, 0, 0, 0], [1, 1, 0, 0, 3]]))), 0);
        for (rate, kept) in [(5, 3), (8, 3), (4, 4), (6, 4), (7, 4), (9, 4), (0, 4), (255, 4), (1, 1), (5, 1), (2, 2)] {
            outstation.table[9] = rate;
            for event in [Event::Clock(time), Event::Adjust(0), Event::Off, Event::On(time)] {
                assert_eq!((outstation.event(event), outstation.recorder.rate), (0, kept), "{event:?}");
            }
        }
    }
}
