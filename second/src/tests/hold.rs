//! What must hold of any block, any refusal and any number.

use super::*;
use crate::answer::{DONE, NOT_A_BLOCK, NOT_CONSISTENT, OUTPUT_SHORT};
use crate::block::{DAY_BYTES, DAY_REVERSE, DAY_VALUES, HEADER_BYTES, LENGTH_BYTES, POWER_LOST, RATES};
use crate::calendar::{HALF_HOURS, LAST_TIME};
use crate::quantities::{DEMAND_MODULUS, KWH_MODULUS, TOTAL_MODULUS, VALUE_DIGITS};
use crate::recorder::{MOST_ASKED, WORDS_PER_DAY};
use crate::script::{KEPT_BLOCKS, MOST_SCRIPT_BYTES};

#[test]
fn a_filled_half_hour_is_unmarked_and_repeats() {
    let mut outstation = Outstation::new(Class::A, 10_000, "240229011000", 0, 0);
    outstation.event(Event::Access);
    let block = outstation.read(1);
    assert_eq!(block::check(&block), Answer::done(1));
    let third_value = HEADER_BYTES + DAY_VALUES + 2 * VALUE_DIGITS;
    let reverse_marks = HEADER_BYTES + DAY_REVERSE;
    for (at, byte) in [(third_value, b'1'), (reverse_marks, 0x20), (block.len() - 1, 1)] {
        let mut damaged = block.clone();
        damaged[at] = byte;
        assert_eq!(block::check(&damaged), Answer::refused(NOT_CONSISTENT));
    }
    let mut marked = block;
    marked[reverse_marks] = 0xc0;
    assert_eq!(block::check(&marked), Answer::done(1));
}

/// A few days with marks in every day, read at several times.
fn lived() -> Outstation {
    let mut outstation = Outstation::new(Class::A, 10_000, "240227231500", TOTAL_MODULUS - 50_000_000, 0);
    for step in 0..120_u64 {
        let counter = outstation.recorder.last.wrapping_add((step * 37 % 900) as u32);
        outstation.event(Event::Count(counter));
        match step % 7 {
            1 => outstation.event(Event::Access),
            3 => outstation.event(Event::Reverse),
            5 => outstation.event(Event::Reset),
            _ => 0,
        };
        outstation.event(Event::Clock(outstation.recorder.time + 1_300));
    }
    outstation
}

#[test]
fn a_written_block_reads_back() {
    let mut outstation = lived();
    for asked in 0..4 {
        let block = outstation.read(asked);
        let fields = block::read(&block).unwrap();
        assert_eq!(fields.header.days, u64::from(asked));
        let mut rewritten = vec![0; block.len()];
        assert_eq!(block::write(&fields.header, &fields.days, &mut rewritten), Answer::done(block.len()));
        assert_eq!(rewritten, block);
        let mut short = vec![5; block.len() - 1];
        assert_eq!(
            block::write(&fields.header, &fields.days, &mut short),
            Answer::refused_with(OUTPUT_SHORT, block.len())
        );
        assert!(short.iter().all(|&byte| byte == 5));
    }
}

#[test]
fn an_accepted_damaged_block_is_rewritten_the_same() {
    let block = lived().read(2);
    for at in 0..block.len() {
        for byte in [b'0', b'1', b'5', b'9', b'B', 0x80, 0xff] {
            let mut damaged = block.clone();
            damaged[at] = byte;
            if let Ok(fields) = block::read(&damaged) {
                let mut rewritten = vec![0; damaged.len()];
                assert_eq!(block::write(&fields.header, &fields.days, &mut rewritten).number, DONE);
                assert_eq!(rewritten, damaged);
            }
        }
    }
}

#[test]
fn the_writer_refuses_what_the_reader_would() {
    let header = Header { identifier: IDENTIFIER, ..Header::default() };
    let mut output = [0; block::bytes_for(1)];
    assert_eq!(block::write(&header, &[], &mut output), Answer::done(HEADER_BYTES));
    assert_eq!(block::write(&header, &[Day::ZERO], &mut output), Answer::refused(DAMAGED));
    for spoiled in [
        Header { time: LAST_TIME + 1, ..header.clone() },
        Header { kwh: KWH_MODULUS, ..header.clone() },
        Header { cumulative: DEMAND_MODULUS, ..header.clone() },
        Header { reset: calendar::DAYS + 1, ..header.clone() },
        Header { resets: 1, ..header.clone() },
        Header { days: 1, ..header.clone() },
        Header { identifier: *b"abcx24000017", ..header.clone() },
    ] {
        assert_eq!(block::write(&spoiled, &[], &mut output), Answer::refused(DAMAGED));
    }
}

#[test]
fn a_block_of_the_most_days_and_one_more() {
    let header = Header { identifier: IDENTIFIER, time: LAST_TIME, days: block::MOST_DAYS as u64, ..Header::default() };
    let days = vec![Day::ZERO; block::MOST_DAYS + 1];
    let mut block = vec![0; block::MOST_BYTES];
    assert_eq!(block::write(&header, &days[1..], &mut block), Answer::done(block::MOST_BYTES));
    assert_eq!(block::check(&block), Answer::done(block::MOST_DAYS));
    let longer = Header { days: header.days + 1, ..header };
    assert_eq!(block::write(&longer, &days, &mut block), Answer::refused(DAMAGED));
    block.extend_from_within(block.len() - DAY_BYTES..);
    let length = (block.len() - LENGTH_BYTES) as u32;
    block[..LENGTH_BYTES].copy_from_slice(&length.to_be_bytes());
    assert_eq!(block::check(&block), Answer::refused(NOT_A_BLOCK));
}

#[test]
fn refusals_change_nothing() {
    let lines = [
        "setup ABCX24000017 a p 10000 240229 110000 5000 0",
        "count 20",
        "access",
        "read 1",
        "keep 0",
        "open ABCX24000017 240229 2",
        "file",
    ];
    let one_day = block::bytes_for(1);
    let refused = [
        "count 4000000000",
        "clock 240229 105959",
        "on 240229 110000",
        &format!("rate {}", RATES + 1),
        &format!("read {}", MOST_ASKED + 1),
        &format!("read 1 {}", one_day - 1),
        "summary 240302",
        &format!("byte {one_day} 0"),
        "off off",
        &format!("keep {KEPT_BLOCKS}"),
        "given nothing 1",
        &format!("poke class {}", Class::ALL.len() + 1),
        &format!("clock @{}", LAST_TIME + 1),
        "rate 0",
    ];
    let look = ["show", "block", "ledger", "day 240229"];
    let mut player = Player::new();
    for line in lines {
        player.play_line(1, line.as_bytes());
    }
    let seen = |player: &mut Player| look.map(|line| player.play_line(1, line.as_bytes()));
    let before = seen(&mut player);
    for line in refused.into_iter().chain(["adjust 901", "adjust -901", "adjust -1", "adjust --1", "single 1"]) {
        let answer = player.play_line(1, line.as_bytes()).unwrap();
        assert!(!answer.starts_with("0 "), "{line}");
        assert_eq!(seen(&mut player), before, "{line}");
    }
}

#[test]
fn outages_longer_than_the_ring_flag_every_stored_day() {
    let mut outstation = Outstation::new(Class::A, 10_000, "240229110000", 0, 0);
    outstation.event(Event::Off);
    assert_eq!(outstation.event(Event::On(LAST_TIME)), DONE);
    assert_eq!(outstation.recorder.days, Class::A.days() as u64);
    assert!(outstation.marks.chunks(WORDS_PER_DAY).all(|words| words == [0, 0, POWER_LOST]));
    assert_eq!(block::check(&outstation.read(MOST_ASKED)), Answer::done(Class::A.days()));
}

#[test]
fn scripts_as_the_page_says() {
    assert_eq!(
        answers(&["", "# a comment", "show 1", "", "check", "block", "listing", "ledger", "day 000101"]),
        ["? 3", "8 0", "", "REFUSED 8", "", "? 9"]
    );
    assert_eq!(script::play(&vec![b'#'; MOST_SCRIPT_BYTES + 1])[0].answer, "? 0");
    assert!(script::play(&vec![b'#'; MOST_SCRIPT_BYTES]).is_empty());
    assert_eq!(
        answers(&["hex 00aBCd", "block", "byte 2 1", "byte 3 1", "cut 5", "block", "keep 3", "take 4", "take 3"]),
        ["0 3", "00abcd", "0 0", "? 4", "0 5", "00ab010000", "0 5", "0 0", "0 5"]
    );
}

#[test]
fn hostile_numbers_never_panic() {
    let hostile = u64::MAX;
    let header = Header {
        identifier: [255; IDENTIFIER.len()],
        time: hostile,
        kwh: hostile,
        current: hostile,
        previous: hostile,
        cumulative: hostile,
        reset: hostile,
        resets: hostile,
        registers: [hostile; RATES],
        days: hostile,
    };
    let day =
        Day { start: u32::MAX, flags: hostile, reverse: hostile, level2: hostile, values: [u16::MAX; HALF_HOURS] };
    assert_eq!(block::write(&header, &[day], &mut []), Answer::refused(DAMAGED));
    let recorder =
        Recorder { class: Some(Class::D), time: hostile, days: hostile, total: hostile, base: hostile, ..BLANK };
    let mut store = Store { values: &mut [], starts: &mut [], marks: &mut [], table: &mut [] };
    assert_eq!(recorder.step(Event::On(hostile), &mut store).1, Answer::refused(WRONG_LENGTH));
    let length = Class::D.store_length();
    let mut store = Store {
        values: &mut vec![u16::MAX; length.values],
        starts: &mut vec![u32::MAX; length.starts],
        marks: &mut vec![u64::MAX; length.marks],
        table: &mut [u8::MAX; TABLE_BYTES],
    };
    assert_eq!(recorder.step(Event::Count(0), &mut store).1, Answer::refused(DAMAGED));
    assert_eq!(recorder.step(Event::Adjust(i64::MIN), &mut store).1, Answer::refused(DAMAGED));
    assert_eq!(recorder.step(Event::Single, &mut store).1, Answer::refused(DAMAGED));
    assert_eq!(ledger::open(&IDENTIFIER, hostile, hostile, &mut []), Answer::refused(OUT_OF_RANGE));
    assert_eq!(ledger::summary(&[255; 200], hostile).answer, DAMAGED);
}
