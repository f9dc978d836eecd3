//! Random lives, read now and then, before and after moves back of their clocks, and ledgers opened with any PPP that take
//! their blocks lost, repeated and in any order: each holds what the history has of the days that were delivered.

use super::history::{any_event, any_ppp, History, Watched};
use super::*;
use crate::answer::{DONE, OTHER_METER};
use crate::calendar::{day_of, ended, HALF_HOURS};
use crate::random::Random;

/// The half-hours that a block brings of a day.
fn brought(block: &[u8], day: u64) -> Option<usize> {
    let time = calendar::read_time(&block[17..29]).unwrap();
    let days = calendar::digits(&block[109..112]).unwrap();
    (day <= day_of(time) && day + days > day_of(time)).then(|| ended(time, day))
}

/// A held day's room in a ledger.
fn room(day: &Day, half_hours: usize) -> Vec<u8> {
    let flags = if half_hours == HALF_HOURS { day.flags as u8 } else { 0 };
    let mut bytes = vec![half_hours as u8 + 1, flags];
    bytes.extend(day.start.to_be_bytes());
    bytes.extend(day.values[..half_hours].iter().flat_map(|value| value.to_be_bytes()));
    bytes.resize(102, 0);
    for word in [day.reverse, day.level2] {
        let held = word >> (HALF_HOURS - half_hours) << (HALF_HOURS - half_hours);
        bytes.extend(&held.to_be_bytes()[2..]);
    }
    bytes
}

/// The ledger that holds, of each day of its window, the most that a delivered block had of it.
fn expected(opened: &Identifier, window: (u64, u64), history: &History, delivered: &[&Vec<u8>]) -> Vec<u8> {
    let (first, days) = window;
    let mut bytes = opened.to_vec();
    bytes.extend((first as u16).to_be_bytes());
    bytes.extend((days as u16).to_be_bytes());
    for day in first..first + days {
        let half_hours = delivered.iter().filter_map(|block| brought(block, day)).max();
        bytes.extend(half_hours.map_or(vec![0; 114], |half_hours| room(history.day(day), half_hours)));
    }
    bytes
}

/// A life of some days, and the blocks that were read of it.
fn lived(class: Class, random: &mut Random) -> (Watched, Vec<Vec<u8>>) {
    let mut watched = Watched::begin(class, random);
    let mut blocks = Vec::new();
    while watched.history.days.len() <= class.days() + 9 || blocks.is_empty() {
        let event = any_event(&watched, random);
        watched.event(event);
        if watched.outstation.recorder.power && random.once_in(4) {
            blocks.push(watched.outstation.read(random.below(9) as u32));
        }
    }
    (watched, blocks)
}

/// Some of the blocks, some of them more than once, in any order.
fn some_of<'a>(blocks: &'a [Vec<u8>], random: &mut Random) -> Vec<&'a Vec<u8>> {
    let mut some: Vec<&Vec<u8>> = blocks.iter().chain(blocks).filter(|_| random.once_in(2)).collect();
    random.shuffle(&mut some);
    some
}

/// The ledger opened so, and each block delivered, and with it the same block of another meter.
fn filed(opened: &Identifier, window: (u64, u64), delivered: &[&Vec<u8>]) -> Vec<u8> {
    let mut bytes = vec![0; ledger::bytes_for(window.1 as usize)];
    assert_eq!(ledger::open(opened, window.0, window.1, &mut bytes), Answer::done(0));
    let mut held = 0;
    for block in delivered {
        let mut other = block.to_vec();
        other[16] = b'8';
        assert_eq!(ledger::file(&mut bytes, &other), Answer::refused(OTHER_METER));
        let answer = ledger::file(&mut bytes, block);
        assert_eq!(answer.number, DONE);
        held += answer.carried as usize;
    }
    let days = window.0..window.0 + window.1;
    assert_eq!(held, days.map(|day| ledger::summary(&bytes, day).half_hours).sum::<usize>());
    bytes
}

fn right_ppp(random: &mut Random) -> Ppp {
    let mut ppp = any_ppp(random);
    while !ppp.iter().all(u8::is_ascii_alphanumeric) {
        ppp = any_ppp(random);
    }
    ppp
}

#[test]
fn a_ledger_holds_what_was_delivered_whatever_ppp_it_was_opened_with() {
    let mut random = Random::new(1);
    for _ in 0..40 {
        let (watched, blocks) = lived(Class::A, &mut random);
        let first = watched.history.first + random.below(5);
        let window = (first, (watched.history.days.len() as u64 - 5).min(random.between(1, 40)));
        let mut delivered = some_of(&blocks, &mut random);
        for ppp in [*b"ABC", *b"abc", *b"000", right_ppp(&mut random), right_ppp(&mut random)] {
            let mut opened = IDENTIFIER;
            opened[..3].copy_from_slice(&ppp);
            random.shuffle(&mut delivered);
            let bytes = filed(&opened, window, &delivered);
            assert_eq!(bytes, expected(&opened, window, &watched.history, &delivered));
        }
    }
}
