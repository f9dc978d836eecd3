//! Complete days besides today, reckoned by hand: what each class still has after so many midnights, and the limits of
//! stores, blocks, windows and listings.

use super::*;
use crate::answer::NOT_A_BLOCK;

/// An outstation begun at midnight on 29 February 2024 that counts 50 units in its first half-hour.
fn begun(class: Class) -> Outstation {
    let mut outstation = Outstation::new(class, 10_000, "240229000000", 0, 0);
    assert_eq!(outstation.event(Event::Count(50)), 0);
    outstation
}

/// The date of a block's record.
fn date_of(block: &[u8], record: usize) -> &str {
    let at = 112 + 219 * record;
    std::str::from_utf8(&block[at..at + 6]).unwrap()
}

/// The first day's record is whole: from 0 on, all 50 units in its first half-hour.
fn assert_first_day(record: &[u8]) {
    assert_eq!(record[..14], *b"24022900000000");
    assert_eq!(record[15..207], *"0050".repeat(48).as_bytes());
}

#[test]
fn after_as_many_midnights_as_complete_days_the_first_is_still_there() {
    for (class, time, midnight, days, bytes, first) in [
        (Class::A, "240320011000", "240321000000", 21, 4_711, [0, 0, 0x12, 0x63, 1]),
        (Class::B, "240608011000", "240609000000", 101, 22_231, [0, 0, 0x56, 0xd3, 1]),
        (Class::C, "241105011000", "241106000000", 251, 55_081, [0, 0, 0xd7, 0x25, 1]),
        (Class::D, "250524235959", "250525000000", 451, 98_881, [0, 1, 0x82, 0x3d, 1]),
    ] {
        for by_on in [false, true] {
            let mut outstation = begun(class);
            let time = at(time);
            if by_on {
                outstation.event(Event::Off);
                assert_eq!(outstation.event(Event::On(time)), 0);
            } else {
                assert_eq!(outstation.event(Event::Clock(time)), 0);
            }
            let block = outstation.read(999);
            assert_eq!((block.len(), &block[..5]), (bytes, &first[..]));
            assert_eq!((block::check(&block), outstation.recorder.days), (Answer::done(days), days as u64));
            assert_first_day(&block[bytes - 219..]);
            assert_eq!(block[bytes - 219 + 14], if by_on { 0x80 } else { 0 });
            assert_eq!(outstation.event(Event::Clock(at(midnight))), 0);
            let block = outstation.read(999);
            assert_eq!((block.len(), date_of(&block, days - 1)), (bytes, "240301"));
            assert_eq!(outstation.day("240229"), outstation.day(&midnight[..6]));
        }
    }
}

#[test]
fn one_midnight_fewer_and_the_store_is_not_full() {
    for (class, time, days, bytes) in [
        (Class::A, "240319235959", 20, 4_492),
        (Class::B, "240607235959", 100, 22_012),
        (Class::C, "241104235959", 250, 54_862),
        (Class::D, "250523235959", 450, 98_662),
    ] {
        let mut outstation = begun(class);
        assert_eq!(outstation.event(Event::Clock(at(time))), 0);
        let block = outstation.read(999);
        assert_eq!((block.len(), block::check(&block)), (bytes, Answer::done(days)));
        assert_first_day(&block[bytes - 219..]);
    }
}

#[test]
fn twenty_complete_days_are_asked_for_with_21() {
    let mut outstation = begun(Class::A);
    outstation.event(Event::Clock(at("240320011000")));
    for (asked, bytes, oldest) in [
        (1, 331, "240320"),
        (20, 4_492, "240301"),
        (21, 4_711, "240229"),
        (22, 4_711, "240229"),
        (999, 4_711, "240229"),
    ] {
        let block = outstation.read(asked);
        assert_eq!(block.len(), bytes);
        assert_eq!((date_of(&block, 0), date_of(&block, bytes / 219 - 1)), ("240320", oldest));
    }
}

#[test]
fn rooms() {
    // Day 8,825: 420 times 21 and 5, 87 times 101 and 38, 35 times 251 and 40, 19 times 451 and 256.
    let day = calendar::read_date(b"240229").unwrap();
    assert_eq!(Class::ALL.map(|class| class.room(day)), [5, 38, 40, 256]);
    let last = [("240321", 21), ("240609", 101), ("241106", 251), ("250525", 451)];
    for (class, (date, days)) in Class::ALL.into_iter().zip(last) {
        let later = calendar::read_date(date.as_bytes()).unwrap();
        assert_eq!((later - day, class.room(later)), (days, class.room(day)));
        assert_eq!((class.room(0), class.room(days - 1), class.room(days)), (0, days as usize - 1, 0));
    }
}

#[test]
fn a_store_for_the_complete_days_alone_is_too_short() {
    for (letter, complete, held) in [
        ("a", "960 20 60", "1008 21 63"),
        ("b", "4800 100 300", "4848 101 303"),
        ("c", "12000 250 750", "12048 251 753"),
        ("d", "21600 450 1350", "21648 451 1353"),
    ] {
        let lines = [
            &format!("lend {complete}"),
            &format!("setup ABCX24000017 {letter} p 10000 240229 000000 0 0"),
            &format!("lend {held}"),
            &format!("setup ABCX24000017 {letter} p 10000 240229 000000 0 0"),
            &format!("lend {complete}"),
            "access",
            "read 0",
            "lend",
            "access",
        ];
        assert_eq!(answers(&lines), ["0 0", "4 0", "0 0", "0 0", "0 0", "4 0", "4 0", "0 0", "0 0"]);
    }
}

#[test]
fn days_stored_at_most() {
    for (letter, held) in [("a", 21), ("b", 101), ("c", 251), ("d", 451)] {
        for (days, answer) in [(0, "5 0"), (1, "0 0"), (held - 1, "0 0"), (held, "0 0"), (held + 1, "5 0")] {
            let set_up = format!("setup ABCX24000017 {letter} p 10000 240229 000000 0 0");
            let lines = [&set_up, &format!("poke days {days}"), "access"];
            assert_eq!(answers(&lines), ["0 0", "0 0", answer], "{letter} {days}");
        }
    }
}

/// A block of 452 days: one of 451, and behind it the record of the day that had just gone when it was read.
fn one_day_too_many() -> Vec<u8> {
    let mut outstation = begun(Class::D);
    outstation.event(Event::Clock(at("250524235959")));
    let earlier = outstation.read(451);
    outstation.event(Event::Clock(at("250525000000")));
    let mut block = outstation.read(451);
    block.extend(&earlier[98_881 - 219..]);
    block[..4].copy_from_slice(&[0, 1, 0x83, 0x18]);
    block[109..112].copy_from_slice(b"452");
    block
}

#[test]
fn the_reader_on_450_451_and_452_records() {
    let mut block = one_day_too_many();
    assert_eq!((block.len(), date_of(&block, 451)), (99_100, "240229"));
    assert_eq!(block::check(&block), Answer::refused(NOT_A_BLOCK));
    for (bytes, length, number, days) in
        [(98_881, [0, 1, 0x82, 0x3d], b"451", 451), (98_662, [0, 1, 0x81, 0x62], b"450", 450)]
    {
        block.truncate(bytes);
        assert_eq!(block::check(&block), Answer::refused(NOT_A_BLOCK));
        block[..4].copy_from_slice(&length);
        assert_eq!(block::check(&block), Answer::refused(10));
        block[109..112].copy_from_slice(number);
        assert_eq!(block::check(&block), Answer::done(days));
    }
}

#[test]
fn the_writer_on_451_and_452_days() {
    for (days, answer) in [(450, Answer::done(98_662)), (451, Answer::done(98_881)), (452, Answer::refused(DAMAGED))] {
        let header = Header { identifier: IDENTIFIER, time: calendar::LAST_TIME, days, ..Header::default() };
        let given = vec![Day::ZERO; days as usize];
        assert_eq!(block::write(&header, &given, &mut [0; 99_100]), answer);
    }
}

#[test]
fn windows_of_450_451_and_452_days() {
    for (first, days, answer) in [
        ("000101", 0, OUT_OF_RANGE),
        ("000101", 450, 0),
        ("000101", 451, 0),
        ("000101", 452, OUT_OF_RANGE),
        ("981008", 450, 0),
        ("981009", 450, OUT_OF_RANGE),
        ("981007", 451, 0),
        ("981008", 451, OUT_OF_RANGE),
        ("981006", 452, OUT_OF_RANGE),
    ] {
        let day = calendar::read_date(first.as_bytes()).unwrap();
        let mut bytes = vec![1; 16 + 114 * days as usize];
        assert_eq!(ledger::open(&IDENTIFIER, day, days, &mut bytes).number, answer, "{first} {days}");
        let opened = ledger::open(&IDENTIFIER, day, days, &mut vec![0; bytes.len() - 1]).number;
        assert_eq!(opened, if answer == 0 { WRONG_LENGTH } else { answer });
    }
}

#[test]
fn a_ledger_s_own_count() {
    let mut bytes = vec![0; 51_430];
    assert_eq!(ledger::open(&IDENTIFIER, 0, 451, &mut bytes), Answer::done(0));
    assert_eq!(bytes[14..16], [1, 0xc3]);
    for (count, length, answer) in [
        ([1, 0xc3], 51_430, 0),
        ([1, 0xc3], 51_429, WRONG_LENGTH),
        ([1, 0xc2], 51_430, WRONG_LENGTH),
        ([1, 0xc2], 51_316, 0),
        ([1, 0xc4], 51_430, DAMAGED),
        ([1, 0xc4], 51_544, DAMAGED),
        ([0, 0], 51_430, DAMAGED),
        ([0, 0], 16, DAMAGED),
    ] {
        let mut changed = bytes.clone();
        changed.resize(length, 0);
        changed[14..16].copy_from_slice(&count);
        assert_eq!(ledger::summary(&changed, 449).answer, answer, "{count:?} {length}");
    }
}

#[test]
fn a_class_d_store_fills_a_ledger() {
    let mut outstation = begun(Class::D);
    outstation.event(Event::Clock(at("250524235959")));
    let first = calendar::read_date(b"240229").unwrap();
    let mut bytes = vec![0; 51_430];
    assert_eq!(ledger::open(&IDENTIFIER, first, 451, &mut bytes), Answer::done(0));
    // 450 whole days, and 47 half-hours of the last one.
    assert_eq!(ledger::file(&mut bytes, &outstation.read(999)), Answer::done(21_647));
    assert_eq!((ledger::summary(&bytes, first).sum, ledger::summary(&bytes, first + 450).start), (50, 50));
    assert_eq!(ledger::missing(&bytes, first + 450).first, 47);
}

#[test]
fn a_class_b_store_is_listed() {
    let mut outstation = begun(Class::B);
    outstation.event(Event::Clock(at("240608011000")));
    let mut block = outstation.read(999);
    assert_eq!(block.len(), 22_231);
    let text = listing::listing(&block);
    assert_eq!(text.lines().count(), 102);
    assert!(text.starts_with("ABCX24000017 240608011000 101\n240608 02 00000050 000000 00 00\n"));
    assert!(text.ends_with("\n240229 48 00000000 000050 00 00\n"));
    assert_eq!(listing::listing(&block[..22_230]), "REFUSED 8\n");
    block.push(b'\n');
    assert_eq!(listing::listing(&block), "REFUSED 8\n");
    let mut longer = begun(Class::C);
    longer.event(Event::Clock(at("240609011000")));
    let block = longer.read(102);
    assert_eq!((block.len(), block::check(&block)), (22_450, Answer::done(102)));
    assert_eq!(listing::listing(&block), "REFUSED 8\n");
}

#[test]
fn what_a_script_takes_at_most() {
    let taken = [
        "setup ABCX24000017 d p 10000 240229 000000 0 0",
        "read 0 98881",
        "cut 98881",
        "byte 98880 1",
        "cut 0",
        "given start 450 0",
        "given value 450 47 0",
        "write 98881",
        "open ABCX24000017 000101 451",
        "poke ledger 51429 0",
        "lend ledger 51430",
        "poke value 21647 0",
        "poke start 450 0",
        "poke mark 1352 0",
        "lend 21648 451 1353",
    ];
    let answered = answers(&taken);
    assert!(answered.iter().all(|answer| !answer.starts_with('?')), "{answered:?}");
    for past in [
        "read 0 98882",
        "cut 98882",
        "given start 451 0",
        "given value 451 47 0",
        "write 98882",
        "poke ledger 51430 0",
        "lend ledger 51431",
        "poke value 21648 0",
        "poke start 451 0",
        "poke mark 1353 0",
        "lend 21649 451 1353",
        "lend 21648 452 1353",
        "lend 21648 451 1354",
    ] {
        let lines = [&taken[..], &[past]].concat();
        assert_eq!(answers(&lines)[taken.len()], format!("? {}", lines.len()), "{past}");
    }
}

#[test]
fn what_a_script_takes_in_hexadecimal() {
    let bytes = |count: usize| format!("hex {}", "5a".repeat(count));
    assert_eq!(answers(&[&bytes(98_881), &bytes(98_882)]), ["0 98881", "? 2"]);
}
