//! The cases of docs/RULES.md that are reckoned by hand and its listing example. Beside them
//! the order of the answers, what must hold of any block and any refusal, and of any life.

mod adjusting;
mod complete;
mod converted;
mod deliveries;
mod history;
mod hold;
mod names;
mod order;
mod phases;
mod switching;
mod tariff;
mod weights;

use crate::answer::{Answer, DAMAGED, OUT_OF_RANGE, TOO_MANY_UNITS, WRONG_LENGTH, WRONG_POWER, WRONG_TIME};
use crate::block::{self, Day, Header};
use crate::calendar;
use crate::identifier::{Identifier, Ppp};
use crate::ledger;
use crate::listing;
use crate::recorder::{self, Class, Event, Phase, Recorder, SetUp, Store, StoreLength, BLANK};
use crate::script::{self, Player};
use crate::tariff::TABLE_BYTES;

const IDENTIFIER: Identifier = *b"ABCX24000017";

/// A recorder beside memory for its store.
#[derive(Clone, Debug, PartialEq)]
struct Outstation {
    recorder: Recorder,
    values: Vec<u16>,
    starts: Vec<u32>,
    marks: Vec<u64>,
    table: Vec<u8>,
}

impl Outstation {
    /// The recorder and all that is lent to it.
    fn lend(&mut self) -> (Recorder, Store<'_>) {
        let Outstation { recorder, values, starts, marks, table } = self;
        (*recorder, Store { values, starts, marks, table })
    }

    /// On polyphase.
    fn new(class: Class, weight: u64, time: &str, total: u64, counter: u32) -> Outstation {
        let (phase, time) = (Phase::Poly, at(time));
        Outstation::set_up(&SetUp { identifier: IDENTIFIER, class: Some(class), phase, weight, time, total, counter })
    }

    fn set_up(given: &SetUp) -> Outstation {
        let length = given.class.unwrap().store_length();
        let mut outstation = Outstation {
            recorder: BLANK,
            values: vec![7; length.values],
            starts: vec![7; length.starts],
            marks: vec![7; length.marks],
            table: vec![7; TABLE_BYTES],
        };
        let (recorder, answer) = recorder::set_up(given, &mut outstation.lend().1);
        assert_eq!(answer, Answer::done(0));
        outstation.recorder = recorder;
        outstation
    }

    fn event(&mut self, event: Event) -> u32 {
        let (recorder, mut store) = self.lend();
        let (recorder, answer) = recorder.step(event, &mut store);
        self.recorder = recorder;
        assert_eq!(answer.carried, 0);
        answer.number
    }

    fn day(&mut self, date: &str) -> Day {
        let day = calendar::read_date(date.as_bytes()).unwrap();
        let room = self.recorder.class.unwrap().room(day);
        self.lend().1.day(room).unwrap()
    }

    fn read(&mut self, asked: u32) -> Vec<u8> {
        let mut output = vec![0xaa; block::MOST_BYTES];
        let (recorder, store) = self.lend();
        let answer = recorder.read(asked, &store, &mut output);
        assert_eq!(answer.number, 0);
        assert!(output[answer.carried as usize..].iter().all(|&byte| byte == 0xaa));
        output.truncate(answer.carried as usize);
        output
    }
}

fn at(time: &str) -> u64 {
    calendar::read_time(time.as_bytes()).unwrap()
}

/// The answers to a script's lines.
fn answers(lines: &[&str]) -> Vec<String> {
    script::play(lines.join("\n").as_bytes()).into_iter().map(|played| played.answer).collect()
}

#[test]
fn pulses_run_round() {
    let mut outstation = Outstation::new(Class::A, 10_000, "240229110000", 0, 4_294_967_290);
    assert_eq!(outstation.event(Event::Count(5)), 0);
    assert_eq!(outstation.recorder.total, 110_000);
    assert_eq!(outstation.recorder.registers, [110_000, 0, 0, 0, 0, 0, 0, 0]);
    assert_eq!(outstation.event(Event::Count(5)), 0);
    assert_eq!(outstation.recorder.total, 110_000);
}

#[test]
fn units_of_a_half_hour() {
    for (total, weight, accepted, refused) in [(0, 10_000, 9_999, 10_000), (9_000, 1_000, 99_990, 99_991)] {
        let mut outstation = Outstation::new(Class::A, weight, "240229110000", total, 0);
        let before = outstation.recorder;
        assert_eq!(outstation.event(Event::Count(refused)), TOO_MANY_UNITS);
        assert_eq!(outstation.recorder, before);
        assert_eq!(outstation.event(Event::Count(accepted)), 0);
        assert_eq!(outstation.recorder.total, total + u64::from(accepted) * weight);
    }
}

#[test]
fn total_runs_round() {
    let mut outstation = Outstation::new(Class::A, 10_000, "240229110000", 999_999_995_000, 0);
    assert_eq!(outstation.day("240229").start, 99_999_999);
    assert_eq!(outstation.event(Event::Count(1)), 0);
    assert_eq!(outstation.recorder.total, 5_000);
    assert_eq!(outstation.event(Event::Clock(at("240229113000"))), 0);
    assert_eq!(outstation.day("240229").values[22], 0);
    assert_eq!(outstation.recorder.current, 2);
    assert!(listing::listing(&outstation.read(1)).contains("240229 23 99999999 000001 00 00"));
}

#[test]
fn the_boundary_closes_the_first_half_hour() {
    let mut outstation = Outstation::new(Class::A, 10_000, "240229000000", 0, 0);
    outstation.event(Event::Count(50));
    outstation.event(Event::Reverse);
    assert_eq!(outstation.event(Event::Clock(at("240229002959"))), 0);
    assert_eq!(outstation.day("240229").values[0], 0);
    assert_eq!(outstation.event(Event::Clock(at("240229003000"))), 0);
    assert_eq!(outstation.day("240229").values[0], 50);
    assert_eq!(outstation.day("240229").reverse, 1);
    assert_eq!(outstation.recorder.current, 100);
    assert_eq!(outstation.recorder.base, 50);
    assert!(!outstation.recorder.reverse);
}

#[test]
fn clock_to_the_same_second_and_one_earlier() {
    let mut outstation = Outstation::new(Class::A, 10_000, "240229110000", 0, 0);
    assert_eq!(outstation.event(Event::Clock(at("240229110000"))), 0);
    let before = outstation.recorder;
    assert_eq!(outstation.event(Event::Clock(at("240229105959"))), WRONG_TIME);
    assert_eq!(outstation.event(Event::Clock(calendar::LAST_TIME + 1)), WRONG_TIME);
    assert_eq!(outstation.recorder, before);
}

#[test]
fn reset_runs_round() {
    let mut outstation = Outstation::new(Class::A, 10_000, "240229110000", 0, 0);
    outstation.recorder.cumulative = 999_999;
    outstation.recorder.current = 2;
    outstation.recorder.resets = 99;
    assert_eq!(outstation.event(Event::Reset), 0);
    let recorder = outstation.recorder;
    assert_eq!((recorder.cumulative, recorder.previous, recorder.current, recorder.resets), (1, 2, 0, 0));
    assert_eq!(recorder.reset, calendar::read_date(b"240229").unwrap() + 1);
    assert!(recorder.level2);
    assert_eq!(outstation.day("240229").flags, 0x20);
}

#[test]
fn a_read_of_no_days() {
    let block = Outstation::new(Class::A, 10_000, "240229110000", 123_456_789_000, 0).read(0);
    assert_eq!(block.len(), 112);
    assert_eq!(block[..5], [0, 0, 0, 0x6c, 1]);
    let text = "ABCX24000017".to_string()
        + "240229110000"
        + "123456"
        + &"0".repeat(18)
        + "000000"
        + "00"
        + &"0".repeat(48)
        + "000";
    assert_eq!(block[5..], *text.as_bytes());
    assert_eq!(block::check(&block), Answer::done(0));
}

#[test]
fn reads_of_450_and_of_451_days() {
    let mut outstation = Outstation::new(Class::D, 10_000, "230101110000", 0, 0);
    assert_eq!(outstation.event(Event::Clock(at("240901113000"))), 0);
    assert_eq!(outstation.recorder.days, 451);
    for (asked, days, bytes, first) in [
        (450, 450, 98_662, [0, 1, 0x81, 0x62, 1]),
        (451, 451, 98_881, [0, 1, 0x82, 0x3d, 1]),
        (452, 451, 98_881, [0, 1, 0x82, 0x3d, 1]),
    ] {
        let block = outstation.read(asked);
        assert_eq!((block.len(), &block[..5]), (bytes, &first[..]));
        assert_eq!(block::check(&block), Answer::done(days));
        assert_eq!(listing::listing(&block), "REFUSED 8\n");
    }
}

#[test]
fn the_lengths_of_the_pages() {
    assert_eq!(block::bytes_for(1), 331);
    assert_eq!(block::MOST_BYTES, 98_881);
    assert_eq!(listing::MOST_BYTES, 22_231);
    assert_eq!(ledger::bytes_for(0), 16);
    assert_eq!(ledger::bytes_for(1), 130);
    assert_eq!(ledger::MOST_BYTES, 51_430);
    let lengths = [(1_008, 21, 63), (4_848, 101, 303), (12_048, 251, 753), (21_648, 451, 1_353)];
    for (class, (values, starts, marks)) in Class::ALL.into_iter().zip(lengths) {
        assert_eq!(class.store_length(), StoreLength { values, starts, marks });
    }
}

#[test]
fn an_outage_over_three_days() {
    let mut outstation = Outstation::new(Class::A, 10_000, "240229120000", 0, 0);
    outstation.event(Event::Clock(at("240301235000")));
    assert_eq!(outstation.event(Event::Off), 0);
    assert_eq!(outstation.event(Event::On(at("240303001000"))), 0);
    for (date, flags) in [("240229", 0), ("240301", 0x80), ("240302", 0x80), ("240303", 0x80)] {
        assert_eq!(outstation.day(date).flags, flags);
    }
}

#[test]
fn an_outage_of_as_many_days_as_the_class_holds() {
    let mut outstation = Outstation::new(Class::A, 10_000, "240301120000", 0, 0);
    outstation.event(Event::Meter(0));
    outstation.event(Event::Count(50));
    outstation.event(Event::Off);
    assert_eq!(outstation.event(Event::On(at("240322001000"))), 0);
    assert_eq!((outstation.recorder.days, outstation.recorder.current), (21, 100));
    let oldest = outstation.day("240302");
    assert_eq!((oldest.start, oldest.flags, oldest.level2, oldest.values), (50, 0x80, 0, [50; 48]));
    // The room of 1 March: what had ended by noon is left of it, its flag and mark are not.
    let today = outstation.day("240322");
    assert_eq!((today.start, today.flags, today.level2), (50, 0x80, 0));
    assert_eq!((today.values[..24].to_vec(), today.values[24..].to_vec()), (vec![0; 24], vec![50; 24]));
}

#[test]
fn one_day_blocks_in_either_order() {
    let mut outstation = Outstation::new(Class::A, 10_000, "240229000000", 4_711_000_000, 0);
    outstation.event(Event::Count(50));
    outstation.event(Event::Clock(at("240229011000")));
    let early = outstation.read(1);
    outstation.event(Event::Access);
    outstation.event(Event::Clock(at("240229020500")));
    let late = outstation.read(1);
    let day = calendar::read_date(b"240229").unwrap();
    let mut filed = Vec::new();
    for (order, held) in [([&early, &late], [2, 2]), ([&late, &early], [4, 0])] {
        let mut bytes = vec![0; ledger::bytes_for(1)];
        assert_eq!(ledger::open(&IDENTIFIER, day, 1, &mut bytes), Answer::done(0));
        for (block, held) in order.into_iter().zip(held) {
            assert_eq!(ledger::file(&mut bytes, block), Answer::done(held));
        }
        assert_eq!(ledger::summary(&bytes, day).half_hours, 4);
        assert_eq!(ledger::summary(&bytes, day).level2, 1);
        assert_eq!((ledger::missing(&bytes, day).first, ledger::missing(&bytes, day).count), (4, 44));
        filed.push(bytes);
    }
    assert_eq!(filed[0], filed[1]);
}

#[test]
fn the_listing_example() {
    let mut outstation = Outstation::new(Class::A, 10_000, "240229000000", 4_711_000_000, 0);
    outstation.event(Event::Count(50));
    outstation.event(Event::Clock(at("240229003000")));
    outstation.event(Event::Count(130));
    outstation.event(Event::Clock(at("240229011000")));
    let block = outstation.read(1);
    assert_eq!(listing::listing(&block), "ABCX24000017 240229011000 001\n240229 02 00471100 000130 00 00\n");
    assert_eq!(block[112..126], *b"24022900471100");
    assert_eq!(block[127..127 + 192], *("1150".to_string() + &"1230".repeat(47)).as_bytes());
    assert_eq!(listing::listing(&block[1..]), "REFUSED 8\n");
}

#[test]
fn set_up_in_the_middle_of_a_day() {
    let mut outstation = Outstation::new(Class::A, 10_000, "240229011000", 4_711_009_000, 0);
    let day = outstation.day("240229");
    assert_eq!(day.start, 471_100);
    assert_eq!(day.values[..3], [1_100, 1_100, 0]);
    assert_eq!((day.reverse, day.level2, day.flags), (0, 0, 0));
    assert_eq!(outstation.values.iter().map(|&value| u32::from(value)).sum::<u32>(), 2_200);
}
