//! Adjustments of the clock reckoned by hand: both ends of the range and either side of zero, what is marked, the order
//! of answers, the calendar's ends, power, tables, reads about a move back, and the script's words.

use super::history::walked;
use super::tariff::table;
use super::*;
use crate::answer::HALF_HOUR_ENDED;
use crate::block::{DEMAND_RESET, METER_CHANGED};

/// An outstation set up in the half-hour that began at 12:00:00 on 29 February 2024.
fn begun(time: &str) -> Outstation {
    Outstation::new(Class::A, 10_000, &format!("240229{time}"), 0, 0)
}

/// Accepted moves inside the half-hour: the time and the mark alone change.
fn stays(from: &str, seconds: i64, to: &str) {
    let mut outstation = begun(from);
    let before = outstation.clone();
    assert_eq!(outstation.event(Event::Adjust(seconds)), 0, "{from} {seconds}");
    let recorder = Recorder { time: at(&format!("240229{to}")), level2: true, ..before.recorder };
    assert_eq!(outstation, Outstation { recorder, ..before }, "{from} {seconds}");
}

/// Moves to 12:30:00: the half-hour is closed with the mark, and the new one has none.
fn closes(from: &str, seconds: i64) {
    let mut outstation = begun(from);
    assert_eq!(outstation.event(Event::Count(50)), 0);
    assert_eq!(outstation.event(Event::Adjust(seconds)), 0, "{from} {seconds}");
    let recorder = outstation.recorder;
    assert_eq!((recorder.time, recorder.level2, recorder.base, recorder.current), (at("240229123000"), false, 50, 100));
    let today = outstation.day("240229");
    assert_eq!((today.level2, today.reverse, today.flags, &today.values[23..26]), (1, 0, 0, &[0, 50, 0][..]));
}

/// Refused moves change nothing.
fn refused(outstation: &mut Outstation, seconds: i64, answer: u32) {
    let before = outstation.clone();
    assert_eq!(outstation.event(Event::Adjust(seconds)), answer, "{seconds}");
    assert_eq!(*outstation, before);
}

#[test]
fn both_ends_of_the_range() {
    refused(&mut begun("121500"), -901, OUT_OF_RANGE);
    refused(&mut begun("121500"), 901, OUT_OF_RANGE);
    stays("121500", -900, "120000");
    refused(&mut begun("121459"), -900, HALF_HOUR_ENDED);
    closes("121500", 900);
    stays("121459", 900, "122959");
}

#[test]
fn either_side_of_zero() {
    stays("121500", 0, "121500");
    stays("120000", 0, "120000");
    stays("122959", 0, "122959");
    refused(&mut begun("120000"), -1, HALF_HOUR_ENDED);
    stays("120001", -1, "120000");
    let mut outstation = begun("120001");
    assert_eq!(outstation.event(Event::Adjust(-1)), 0);
    refused(&mut outstation, -1, HALF_HOUR_ENDED);
    closes("122959", 1);
    stays("122958", 1, "122959");
}

#[test]
fn back_to_before_the_second_of_set_up() {
    stays("121000", -600, "120000");
    refused(&mut begun("121000"), -601, HALF_HOUR_ENDED);
}

#[test]
fn the_end_of_2099() {
    let mut outstation = Outstation::new(Class::A, 10_000, "991231234500", 0, 0);
    refused(&mut outstation, 900, WRONG_TIME);
    refused(&mut outstation, 901, OUT_OF_RANGE);
    assert_eq!(outstation.event(Event::Adjust(899)), 0);
    assert_eq!((outstation.recorder.time, outstation.recorder.level2), (calendar::LAST_TIME, true));
    refused(&mut outstation, 1, WRONG_TIME);
    assert_eq!(outstation.event(Event::Adjust(0)), 0);
    assert_eq!(outstation.event(Event::Adjust(-899)), 0);
    assert_eq!(outstation.recorder.time, at("991231234500"));
}

#[test]
fn the_beginning_of_2000() {
    let mut outstation = Outstation::new(Class::A, 10_000, "000101000000", 0, 0);
    refused(&mut outstation, -1, HALF_HOUR_ENDED);
    refused(&mut outstation, -900, HALF_HOUR_ENDED);
    refused(&mut outstation, -901, OUT_OF_RANGE);
    for (seconds, time) in [(900, 900), (-900, 0), (0, 0)] {
        assert_eq!((outstation.event(Event::Adjust(seconds)), outstation.recorder.time), (0, time));
    }
}

#[test]
fn while_off_any_number_is_1() {
    let mut outstation = begun("121500");
    assert_eq!(outstation.event(Event::Off), 0);
    for seconds in [0, 1, -1, 900, -900, 901, -901, i64::MAX, i64::MIN] {
        refused(&mut outstation, seconds, WRONG_POWER);
    }
}

#[test]
fn the_order_of_answers() {
    let mut outstation = Outstation::new(Class::A, 10_000, "991231234500", 0, 0);
    outstation.recorder.loaded = true;
    outstation.recorder.weight = 0;
    outstation.recorder.power = false;
    outstation.values.push(0);
    let class = outstation.recorder.class;
    let all = [901, -901, i64::MAX, i64::MIN, -900, 900, 0];
    let expect = |outstation: &mut Outstation, answer| all.map(|seconds| refused(outstation, seconds, answer));
    outstation.recorder.class = None;
    expect(&mut outstation, DAMAGED);
    outstation.recorder.class = class;
    expect(&mut outstation, WRONG_LENGTH);
    outstation.values.pop();
    outstation.table.pop();
    expect(&mut outstation, WRONG_LENGTH);
    outstation.table.push(0);
    expect(&mut outstation, DAMAGED);
    outstation.recorder.weight = 10_000;
    expect(&mut outstation, WRONG_POWER);
    outstation.recorder.power = true;
    for seconds in [901, -901, i64::MAX, i64::MIN] {
        refused(&mut outstation, seconds, OUT_OF_RANGE);
    }
    outstation.recorder.time -= 1;
    refused(&mut outstation, -901, OUT_OF_RANGE);
    refused(&mut outstation, -900, HALF_HOUR_ENDED);
    outstation.recorder.time += 1;
    refused(&mut outstation, 900, WRONG_TIME);
    assert_eq!(outstation.event(Event::Adjust(-900)), 0);
}

#[test]
fn every_distance_from_every_second_that_matters() {
    for passed in [0, 1, 2, 449, 898, 899, 900, 901, 902, 1_798, 1_799] {
        for begin in [0, at("240229120000"), at("240229233000"), calendar::LAST_TIME - 1_799] {
            let mut outstation = begun("120000");
            outstation.recorder.time = begin + passed;
            let before = outstation.recorder;
            for seconds in (-905..=905).chain([1_800, -1_800, 1 << 32, -(1 << 32)]) {
                outstation.recorder = before;
                let answer = outstation.event(Event::Adjust(seconds));
                let due = walked(before.time, seconds);
                assert_eq!(answer, due.err().unwrap_or(0), "{seconds} from {}", before.time);
                assert_eq!(outstation.recorder.time, due.unwrap_or(before.time));
            }
        }
    }
}

#[test]
fn over_midnight_the_mark_stays_in_the_old_day() {
    let mut outstation = begun("233000");
    assert_eq!(outstation.event(Event::Clock(at("240229235959"))), 0);
    assert_eq!(outstation.event(Event::Adjust(1)), 0);
    assert_eq!((outstation.recorder.time, outstation.recorder.days), (at("240301000000"), 2));
    let block = outstation.read(2);
    assert_eq!(block[325..331], [0; 6]);
    assert_eq!(block[331 + 213..], [0, 0, 0, 0, 0, 1]);
    assert_eq!((block[126], block[331 + 14]), (0, 0));
    refused(&mut outstation, -1, HALF_HOUR_ENDED);
}

#[test]
fn several_in_one_half_hour_leave_its_units_and_flags() {
    let mut outstation = begun("121500");
    for (event, answer) in [
        (Event::Count(5_000), 0),
        (Event::Adjust(-900), 0),
        (Event::Count(9_999), 0),
        (Event::Adjust(600), 0),
        (Event::Count(10_000), TOO_MANY_UNITS),
        (Event::Adjust(-300), 0),
        (Event::Count(10_000), TOO_MANY_UNITS),
        (Event::Meter(0), 0),
        (Event::Adjust(900), 0),
        (Event::Reset, 0),
        (Event::Adjust(-901), OUT_OF_RANGE),
        (Event::Reverse, 0),
    ] {
        assert_eq!(outstation.event(event), answer, "{event:?}");
    }
    assert_eq!(outstation.recorder.time, at("240229122000"));
    assert_eq!(outstation.event(Event::Adjust(600)), 0);
    let today = outstation.day("240229");
    assert_eq!((today.values[24], today.level2, today.reverse), (9_999, 1, 1));
    assert_eq!(today.flags, METER_CHANGED | DEMAND_RESET);
    assert_eq!((outstation.recorder.current, outstation.recorder.base), (19_998, 9_999));
}

#[test]
fn an_on_is_held_against_the_time_moved_to() {
    let mut outstation = begun("121500");
    assert_eq!(outstation.event(Event::Adjust(-600)), 0);
    assert_eq!(outstation.event(Event::Off), 0);
    assert_eq!(outstation.event(Event::On(at("240229120459"))), WRONG_TIME);
    assert_eq!(outstation.event(Event::On(at("240229120500"))), 0);
    assert_eq!(outstation.event(Event::Clock(at("240229120500"))), 0);
    assert_eq!((outstation.recorder.level2, outstation.day("240229").flags), (true, 0x80));
}

#[test]
fn under_a_table_the_rate_is_that_of_the_new_time() {
    let mut outstation = Outstation::new(Class::A, 10_000, "240228071500", 0, 0);
    let two = table(&[[4, 1, 0, 0, 0], [1, 1, 7, 10, 2], [1, 1, 0, 0, 1]]);
    assert_eq!((outstation.event(Event::Load(&two)), outstation.recorder.rate), (0, 2));
    for (seconds, answer, time, rate) in [
        (-301, 0, "070959", 1),
        (301, 0, "071500", 2),
        (-300, 0, "071000", 2),
        (-1, 0, "070959", 1),
        (0, 0, "070959", 1),
        (1, 0, "071000", 2),
        (-600, 0, "070000", 1),
        (-1, HALF_HOUR_ENDED, "070000", 1),
        (599, 0, "070959", 1),
        (900, 0, "072459", 2),
        (-901, OUT_OF_RANGE, "072459", 2),
        (301, 0, "073000", 2),
    ] {
        assert_eq!(outstation.event(Event::Adjust(seconds)), answer);
        let recorder = outstation.recorder;
        assert_eq!((recorder.time, recorder.rate), (at(&format!("240228{time}")), rate), "{seconds}");
        assert_eq!(outstation.event(Event::Count(recorder.last + 1)), 0);
    }
    assert_eq!(outstation.recorder.registers, [60_000, 60_000, 0, 0, 0, 0, 0, 0]);
    // A damaged room names no rate: the active one stays, and where it names another, that one is met.
    outstation.table[9] = 9;
    assert_eq!((outstation.event(Event::Adjust(0)), outstation.recorder.rate), (0, 2));
    outstation.table[9] = 8;
    assert_eq!((outstation.event(Event::Adjust(0)), outstation.recorder.rate), (0, 8));
}

#[test]
fn reads_before_and_after_a_move_back() {
    let mut outstation = begun("110000");
    outstation.event(Event::Count(30));
    outstation.event(Event::Clock(at("240229122000")));
    let before = outstation.read(1);
    assert_eq!(outstation.event(Event::Adjust(-600)), 0);
    outstation.event(Event::Count(500));
    let after = outstation.read(1);
    assert_eq!((&before[17..29], &after[17..29]), (&b"240229122000"[..], &b"240229121000"[..]));
    assert_eq!(outstation.event(Event::Clock(at("240229122000"))), 0);
    let again = outstation.read(1);
    // At the same time of reading as the first, with other registers.
    assert_eq!((&again[17..29], &again[29..35]), (&before[17..29], &b"000005"[..]));
    let day = calendar::read_date(b"240229").unwrap();
    let mut filed = Vec::new();
    for order in [[&before, &after, &again], [&after, &before, &again], [&again, &after, &before]] {
        let mut bytes = vec![0; ledger::bytes_for(1)];
        assert_eq!(ledger::open(&IDENTIFIER, day, 1, &mut bytes), Answer::done(0));
        for (block, held) in order.into_iter().zip([24, 0, 0]) {
            assert_eq!(listing::listing(block).lines().nth(1), Some("240229 24 00000000 000030 00 00"));
            assert_eq!(ledger::file(&mut bytes, block), Answer::done(held));
        }
        filed.push(bytes);
    }
    assert!(filed.iter().all(|bytes| *bytes == filed[0]));
}

#[test]
fn the_words_of_a_script() {
    let set_up = "setup ABCX24000017 a p 10000 240229 121500 0 0";
    for (line, answer) in [
        ("adjust 0", "0 0"),
        ("adjust -0", "0 0"),
        ("adjust -900", "0 0"),
        ("adjust 900", "0 0"),
        ("adjust -901", "6 0"),
        ("adjust 901", "6 0"),
        ("adjust 4294967295", "6 0"),
        ("adjust -4294967295", "6 0"),
        ("adjust 4294967296", "? 2"),
        ("adjust -4294967296", "? 2"),
        ("adjust 000000000000000900", "0 0"),
        ("adjust -000000000000000900", "0 0"),
        ("adjust 0000000000000000900", "? 2"),
        ("adjust -0000000000000000900", "? 2"),
        ("adjust 999999999999999999", "? 2"),
    ] {
        assert_eq!(answers(&[set_up, line]), ["0 0", answer], "{line}");
    }
    for word in ["", "-", "--1", "+1", "-+1", "- 1", "-@5", "@5", "1-", "x", "-x", "1 2", "-1 ", " 1", "1.0"] {
        assert_eq!(answers(&[set_up, &format!("adjust {word}")]), ["0 0", "? 2"], "{word}");
    }
    assert_eq!(answers(&["adjust 0", "adjust 901", "adjust", "Adjust 0", set_up]), ["5 0", "5 0", "? 3", "? 4", "0 0"]);
    let mut player = Player::new();
    for line in [set_up, "adjust -0"] {
        player.play_line(1, line.as_bytes());
    }
    assert_eq!((player.recorder.time, player.recorder.level2), (at("240229121500"), true));
}
