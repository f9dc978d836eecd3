//! The order of the answers: which refusal comes where several are due.

use super::*;
use crate::identifier;
use crate::quantities;

/// The first character by which a block's meter is known.
const AT_M: usize = block::AT_IDENTIFIER + identifier::PPP_LENGTH;

#[test]
fn the_order_of_the_recorder_s_answers() {
    let mut outstation = Outstation::new(Class::A, 10_000, "240229110000", 0, 0);
    let right = outstation.recorder;
    outstation.recorder.weight = 0;
    outstation.recorder.power = false;
    outstation.values.push(0);
    let rate_too_many = Event::Rate(block::RATES as u32 + 1);
    let wrong_ppp = Event::Ppp(*b"a-c");
    assert_eq!(outstation.event(rate_too_many), WRONG_LENGTH);
    assert_eq!(outstation.event(wrong_ppp), WRONG_LENGTH);
    outstation.recorder.class = None;
    assert_eq!(outstation.event(rate_too_many), DAMAGED);
    assert_eq!(outstation.event(wrong_ppp), DAMAGED);
    outstation.recorder.class = right.class;
    outstation.values.pop();
    assert_eq!(outstation.event(rate_too_many), DAMAGED);
    assert_eq!(outstation.event(wrong_ppp), DAMAGED);
    outstation.recorder.weight = 10_000;
    assert_eq!(outstation.event(rate_too_many), WRONG_POWER);
    assert_eq!(outstation.event(wrong_ppp), WRONG_POWER);
    assert_eq!(outstation.event(Event::Clock(0)), WRONG_POWER);
    assert_eq!(outstation.event(Event::Count(u32::MAX)), WRONG_POWER);
    assert_eq!(outstation.event(Event::On(0)), WRONG_TIME);
    assert_eq!(outstation.event(Event::On(right.time)), 0);
    assert_eq!(outstation.event(Event::On(0)), WRONG_POWER);
    assert_eq!(outstation.event(rate_too_many), OUT_OF_RANGE);
    assert_eq!(outstation.event(wrong_ppp), OUT_OF_RANGE);
    assert_eq!(outstation.event(Event::Count(u32::MAX)), TOO_MANY_UNITS);
}

#[test]
fn the_order_of_a_read_s_answers() {
    let room = Class::A.room(calendar::read_date(b"240229").unwrap());
    let asked_too_many = &format!("read {}", recorder::MOST_ASKED + 1);
    let lines = [
        "setup ABCX24000017 a p 10000 240229 110000 0 0",
        &format!("poke start {room} {}", quantities::READING_MODULUS),
        asked_too_many,
        "read 1 0",
        "read 0 0",
        "read 0 112",
        "off",
        asked_too_many,
        "poke rate 0",
        asked_too_many,
        "lend 0 0 0",
        asked_too_many,
    ];
    assert_eq!(answers(&lines)[2..], ["6 0", "5 0", "7 112", "0 112", "0 0", "1 0", "0 0", "5 0", "0 0", "4 0"]);
}

#[test]
fn set_up_and_opening_check_6_before_4() {
    let lines = [
        "lend 0 0 0",
        "setup ABCX24000017 a p 0 @0 0 0",
        "setup ABCX24000017 a p 1 @0 0 0",
        "show",
        "off",
        "setup ABCX24000017 e p 1 @0 0 0",
        &format!("setup ABCX24000017 a p 1 @{} 0 0", calendar::LAST_TIME + 1),
    ];
    let blank = ["0"; 25].join(" ") + " 3";
    assert_eq!(answers(&lines), ["0 0", "6 0", "4 0", &blank, "5 0", "6 0", "6 0"]);
    let mut short = [1; ledger::HEADER_BYTES - 1];
    let last = calendar::LAST_DAY;
    assert_eq!(ledger::open(&IDENTIFIER, last + 1, 1, &mut short), Answer::refused(OUT_OF_RANGE));
    assert_eq!(ledger::open(&IDENTIFIER, last, 1, &mut short), Answer::refused(WRONG_LENGTH));
    assert_eq!(short, [1; ledger::HEADER_BYTES - 1]);
}

#[test]
fn the_order_of_the_ledger_s_answers() {
    let mut outstation = Outstation::new(Class::A, 10_000, "240229110000", 0, 0);
    let day = calendar::day_of(outstation.recorder.time);
    let block = outstation.read(1);
    let mut bytes = vec![0; ledger::bytes_for(1)];
    assert_eq!(ledger::file(&mut bytes, &[]), Answer::refused(DAMAGED));
    assert_eq!(ledger::file(&mut bytes[..ledger::HEADER_BYTES - 1], &[]), Answer::refused(WRONG_LENGTH));
    assert_eq!(ledger::open(&IDENTIFIER, day, 1, &mut bytes), Answer::done(0));
    let mut longer = bytes.clone();
    longer.push(0);
    longer[0] = b'-';
    assert_eq!(ledger::summary(&longer, 0).answer, WRONG_LENGTH);
    longer.pop();
    assert_eq!(ledger::summary(&longer, 0).answer, DAMAGED);
    assert_eq!(ledger::summary(&bytes, 0).answer, OUT_OF_RANGE);
    assert_eq!(ledger::missing(&bytes, day + 1).answer, OUT_OF_RANGE);
    assert_eq!(ledger::file(&mut longer, &[]), Answer::refused(DAMAGED));
    let mut damaged = block.clone();
    damaged[block::AT_NUMBER] = b'9';
    damaged[AT_M] = b'Y';
    assert_eq!(ledger::file(&mut bytes, &damaged), Answer::refused(10));
    damaged[block::AT_TIME] = b'x';
    assert_eq!(ledger::file(&mut bytes, &damaged), Answer::refused_with(9, 17));
    damaged.push(0);
    assert_eq!(ledger::file(&mut bytes, &damaged), Answer::refused(8));
    assert_eq!(ledger::file(&mut bytes, &block), Answer::done(22));
    let held = bytes.clone();
    let mut other = block.clone();
    other[block::HEADER_BYTES + block::DAY_REVERSE] = 0x80;
    other[AT_M] = b'Y';
    assert_eq!(ledger::file(&mut bytes, &other), Answer::refused(11));
    other[AT_M] = b'x';
    assert_eq!(ledger::file(&mut bytes, &other), Answer::refused_with(9, 5));
    other[AT_M] = b'X';
    assert_eq!(ledger::file(&mut bytes, &other), Answer::refused(12));
    assert_eq!(bytes, held);
}

#[test]
fn a_refused_reader_names_the_first_wrong_field() {
    let mut outstation = Outstation::new(Class::A, 10_000, "240229110000", 0, 0);
    outstation.event(Event::Clock(at("240301110000")));
    let block = outstation.read(2);
    for (at, offset) in [
        (5, 5),
        (16, 5),
        (17, 17),
        (28, 17),
        (34, 29),
        (53, 53),
        (60, 59),
        (61, 61),
        (108, 103),
        (111, 109),
        (112, 112),
        (118, 118),
        (125, 118),
        (127, 127),
        (318, 315),
        (331, 331),
        (537, 534),
    ] {
        let mut damaged = block.clone();
        damaged[at] = b'/';
        assert_eq!(block::check(&damaged), Answer::refused_with(9, offset), "byte {at}");
    }
    let mut flagged = block.clone();
    flagged[126] = 0x10;
    assert_eq!(block::check(&flagged), Answer::refused_with(9, 126));
    let mut never = block;
    never[60] = b'1';
    assert_eq!(block::check(&never), Answer::refused(10));
}
