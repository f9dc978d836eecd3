//! Small letters in PPP, the event that sets it, and ledgers that belong to the nine characters behind it, reckoned by
//! hand.

use super::*;

const CAPITALS: &[u8] = b"ABCDEFGHIJKLMNOPQRSTUVWXYZ";
const SMALL_LETTERS: &[u8] = b"abcdefghijklmnopqrstuvwxyz";
const DIGITS: &[u8] = b"0123456789";

/// Whether a character may stand at a place of the identifier.
fn may_stand(place: usize, character: u8) -> bool {
    let of = |characters: &[u8]| characters.contains(&character);
    match place {
        0..=2 => of(CAPITALS) || of(SMALL_LETTERS) || of(DIGITS),
        3 => of(CAPITALS),
        4 | 5 => of(DIGITS),
        _ => of(CAPITALS) || of(DIGITS),
    }
}

/// An outstation begun at midnight on 29 February 2024 with the PPP ABC.
fn begun() -> Outstation {
    Outstation::new(Class::A, 10_000, "240229000000", 0, 0)
}

fn today() -> u64 {
    calendar::read_date(b"240229").unwrap()
}

/// A ledger of two days from 29 February 2024 on.
fn opened(identifier: &Identifier) -> Vec<u8> {
    let mut bytes = vec![0; ledger::bytes_for(2)];
    assert_eq!(ledger::open(identifier, today(), 2, &mut bytes), Answer::done(0));
    bytes
}

#[test]
fn small_letters_in_ppp_at_set_up_and_opening() {
    for (identifier, answer) in [
        ("abcX24000017", "0 0"),
        ("aZ9X24000017", "0 0"),
        ("ABCx24000017", "6 0"),
        ("ABCX2400001a", "6 0"),
        ("ABCXa4000017", "6 0"),
        ("AB-X24000017", "6 0"),
    ] {
        let set_up = format!("setup {identifier} a p 10000 240229 000000 0 0");
        assert_eq!(answers(&[&set_up, &format!("open {identifier} 240229 2")]), [answer, answer]);
    }
}

#[test]
fn the_reader_takes_letters_of_either_case_in_ppp_alone() {
    let block = begun().read(1);
    let checked = |at: usize, byte: u8| {
        let mut changed = block.clone();
        changed[at] = byte;
        block::check(&changed)
    };
    for at in 5..=7 {
        for byte in *b"azAZ09" {
            assert_eq!(checked(at, byte), Answer::done(1));
        }
        for byte in *b"`{@[/:" {
            assert_eq!(checked(at, byte), Answer::refused_with(9, 5));
        }
    }
    for at in 8..=16 {
        for byte in *b"az" {
            assert_eq!(checked(at, byte), Answer::refused_with(9, 5), "byte {at}");
        }
    }
}

#[test]
fn one_rule_for_an_identifier_everywhere() {
    for place in 0..12 {
        for character in 0..=255 {
            let mut identifier = IDENTIFIER;
            identifier[place] = character;
            let right = may_stand(place, character);
            let or = |number| if right { 0 } else { number };
            assert_eq!(set_up_with(identifier), or(6), "set-up {place} {character}");
            assert_eq!(recorder_with(identifier), or(5), "recorder {place} {character}");
            assert_eq!(reader_with(identifier), if right { (0, 0) } else { (9, 5) }, "reader {place} {character}");
            let header = Header { identifier, ..Header::default() };
            assert_eq!(block::write(&header, &[], &mut [0; 112]).number, or(5), "writer {place} {character}");
            let mut bytes = opened(&IDENTIFIER);
            bytes[place] = character;
            assert_eq!(ledger::missing(&bytes, today()).answer, or(5), "ledger {place} {character}");
            assert_eq!(ledger::open(&identifier, 0, 2, &mut bytes).number, or(6), "opening {place} {character}");
        }
    }
}

fn set_up_with(identifier: Identifier) -> u32 {
    let given =
        SetUp { identifier, class: Some(Class::A), phase: Phase::Poly, weight: 1, time: 0, total: 0, counter: 0 };
    let (values, starts, marks, table) = (&mut [0; 1_008], &mut [0; 21], &mut [0; 63], &mut [0; 440]);
    let (recorder, answer) = recorder::set_up(&given, &mut Store { values, starts, marks, table });
    assert_eq!(recorder.identifier, if answer.number == 0 { identifier } else { [0; 12] });
    answer.number
}

/// The answer of every event but Off and On, and of a read, which must be the same.
fn recorder_with(identifier: Identifier) -> u32 {
    let mut outstation = begun();
    outstation.recorder.identifier = identifier;
    let begun = outstation.recorder;
    let mut numbers = Vec::new();
    for event in [
        Event::Count(0),
        Event::Clock(begun.time),
        Event::Access,
        Event::Meter(0),
        Event::Reset,
        Event::Rate(1),
        Event::Reverse,
        Event::Ppp(*b"ABC"),
        Event::Adjust(0),
        Event::Single,
    ] {
        outstation.recorder = begun;
        numbers.push(outstation.event(event));
    }
    numbers.push(begun.read(0, &outstation.lend().1, &mut [0; 112]).number);
    numbers.dedup();
    assert_eq!(numbers.len(), 1);
    numbers[0]
}

fn reader_with(identifier: Identifier) -> (u32, u32) {
    let mut block = begun().read(0);
    block[5..17].copy_from_slice(&identifier);
    let Answer { number, carried } = block::check(&block);
    (number, carried)
}

#[test]
fn ppp_marks_its_half_hour_and_no_day() {
    let mut outstation = begun();
    assert_eq!(outstation.event(Event::Ppp(*b"Z9z")), 0);
    assert_eq!(outstation.event(Event::Clock(at("240229003000"))), 0);
    let block = outstation.read(1);
    assert_eq!(block[5..8], [0x5a, 0x39, 0x7a]);
    assert_eq!(block[325..331], [0x80, 0, 0, 0, 0, 0]);
    assert_eq!((block[126], &block[319..325]), (0, &[0; 6][..]));
    assert_eq!(block[53..61], *b"00000000");
    assert_eq!(outstation.event(Event::Ppp(*b"a-c")), OUT_OF_RANGE);
    assert_eq!(outstation.read(1), block);
}

#[test]
fn ppp_changes_nothing_but_the_three_and_the_mark() {
    let mut outstation = begun();
    outstation.event(Event::Count(50));
    outstation.event(Event::Reset);
    outstation.event(Event::Rate(5));
    outstation.event(Event::Clock(at("240229101500")));
    outstation.event(Event::Reverse);
    let before = outstation.clone();
    for ppp in [*b"Z9z", *b"Z9z", *b"000", *b"ABC"] {
        outstation.recorder.level2 = false;
        assert_eq!(outstation.event(Event::Ppp(ppp)), 0);
        let identifier = [&ppp[..], b"X24000017"].concat().try_into().unwrap();
        let recorder = Recorder { identifier, level2: true, ..before.recorder };
        assert_eq!(outstation, Outstation { recorder, ..before.clone() });
    }
}

#[test]
fn the_mark_is_that_of_the_running_half_hour() {
    for (time, end, marks) in [
        ("240229002959", "240229003000", [0x80, 0, 0, 0, 0, 0]),
        ("240229003000", "240229010000", [0x40, 0, 0, 0, 0, 0]),
        ("240229003000", "240229053000", [0x40, 0, 0, 0, 0, 0]),
        ("240229235959", "240301000000", [0, 0, 0, 0, 0, 1]),
    ] {
        let mut outstation = begun();
        outstation.event(Event::Clock(at(time)));
        assert_eq!(outstation.event(Event::Ppp(*b"abc")), 0);
        assert_eq!(outstation.read(1)[325..331], [0; 6]);
        outstation.event(Event::Clock(at(end)));
        let block = outstation.read(2);
        let first_day = &block[block.len() - 219..];
        assert_eq!((first_day[14], &first_day[213..]), (0, &marks[..]), "{time}");
    }
}

#[test]
fn the_mark_outlasts_an_outage() {
    let mut outstation = begun();
    assert_eq!(outstation.event(Event::Ppp(*b"abc")), 0);
    assert_eq!(outstation.event(Event::Off), 0);
    assert_eq!(outstation.event(Event::On(at("240229020500"))), 0);
    let block = outstation.read(1);
    assert_eq!((block[126], &block[325..331]), (0x80, &[0x80, 0, 0, 0, 0, 0][..]));
    assert_eq!(block[5..17], *b"abcX24000017");
}

#[test]
fn a_refused_ppp_leaves_all_as_it_was() {
    for place in 0..3 {
        for character in 0..=255 {
            let mut outstation = begun();
            let mut ppp = *b"z9Z";
            ppp[place] = character;
            let before = outstation.clone();
            let accepted = may_stand(place, character);
            assert_eq!(outstation.event(Event::Ppp(ppp)), if accepted { 0 } else { OUT_OF_RANGE });
            assert_eq!(outstation == before, !accepted, "{place} {character}");
            outstation.event(Event::Off);
            let off = outstation.clone();
            assert_eq!(outstation.event(Event::Ppp(ppp)), WRONG_POWER);
            assert_eq!(outstation, off);
        }
    }
    for (damage, number) in [(0, WRONG_LENGTH), (1, DAMAGED), (2, DAMAGED)] {
        for ppp in [*b"z9Z", *b"z9-"] {
            let mut outstation = begun();
            match damage {
                0 => outstation.starts.push(0),
                1 => outstation.recorder.identifier[2] = b'-',
                _ => outstation.recorder.class = None,
            }
            let before = outstation.clone();
            assert_eq!(outstation.event(Event::Ppp(ppp)), number);
            assert_eq!(outstation, before);
        }
    }
}

#[test]
fn ppp_in_a_script() {
    let lines = [
        "setup ABCX24000017 a p 10000 240229 000000 0 0",
        "ppp Z9z",
        "ppp a-c",
        "read 0",
        "listing",
        "off",
        "ppp a-c",
        "ppp abc",
        "on 240229 000000",
        "ppp a-c",
        "ppp abc",
        "read 0",
        "listing",
    ];
    let text = ["Z9zX24000017 240229000000 000", "abcX24000017 240229000000 000"];
    assert_eq!(
        answers(&lines)[1..],
        ["0 0", "6 0", "0 112", text[0], "0 0", "1 0", "1 0", "0 0", "6 0", "0 0", "0 112", text[1]]
    );
    let not_understood =
        ["ppp", "ppp ", "ppp ab", "ppp abcd", "ppp a b", "ppp abc d", "ppp  abc", "PPP abc", "Ppp abc"];
    for line in not_understood {
        assert_eq!(answers(&[line]), ["? 1"], "{line}");
    }
    for word in [b"\xff\xfe\x80", b"\xc3\xa9A", b"\0\0\0", b"a\tb", b"ab\r", b"#ab", b"@12"] {
        let script = [b"setup ABCX24000017 a p 1 @0 0 0\nppp ", &word[..], b"\nread 0\nblock"].concat();
        let played = script::play(&script);
        assert_eq!((played[1].answer.as_str(), &played[3].answer[10..16]), ("6 0", "414243"));
    }
}

/// Blocks of one run read before a Ppp and after it, each with the half-hours that it brings.
fn run() -> [(Vec<u8>, usize); 3] {
    let mut outstation = begun();
    let mut blocks = Vec::new();
    for (ppp, pulses, time) in
        [(*b"abc", 50, "240229011000"), (*b"Z9z", 130, "240229020500"), (*b"zzz", 131, "240301003000")]
    {
        assert_eq!(outstation.event(Event::Ppp(ppp)), 0);
        outstation.event(Event::Count(pulses));
        outstation.event(Event::Clock(at(time)));
        blocks.push(outstation.read(2));
        assert_eq!(blocks[blocks.len() - 1][5..8], ppp);
    }
    let [first, second, third] = blocks.try_into().unwrap();
    [(first, 2), (second, 2), (third, 45)]
}

#[test]
fn a_run_s_blocks_file_whatever_ppp_the_ledger_was_opened_with() {
    let blocks = run();
    let mut held = Vec::new();
    for identifier in [b"abcX24000017", b"Z9zX24000017", b"QQQX24000017", b"000X24000017", b"ZZZX24000017"] {
        let mut bytes = opened(identifier);
        for (block, half_hours) in &blocks {
            assert_eq!(ledger::file(&mut bytes, block), Answer::done(*half_hours));
            assert_eq!(bytes[..12], identifier[..]);
        }
        let mut backwards = opened(identifier);
        for (block, half_hours) in blocks.iter().rev().zip([49, 0, 0]) {
            assert_eq!(ledger::file(&mut backwards, &block.0), Answer::done(half_hours));
        }
        assert_eq!(backwards, bytes);
        assert_eq!(ledger::summary(&bytes, today()).level2, 3);
        held.push(bytes[3..].to_vec());
    }
    held.dedup();
    assert_eq!(held.len(), 1);
}

#[test]
fn a_block_of_other_nine_is_another_meter_s() {
    let [(block, _), ..] = run();
    for place in 0..12 {
        let mut identifier = *b"abcX24000017";
        identifier[place] = if (4..6).contains(&place) { b'9' } else { b'Q' };
        let mut bytes = opened(&identifier);
        let before = bytes.clone();
        let answer = if place < 3 { Answer::done(2) } else { Answer::refused(11) };
        assert_eq!(ledger::file(&mut bytes, &block), answer, "{place}");
        assert_eq!(bytes == before, place >= 3);
    }
    for identifier in [b"abcX24000018", b"abcY24000017"] {
        assert_eq!(ledger::file(&mut opened(identifier), &block), Answer::refused(11));
    }
}

#[test]
fn a_small_letter_behind_ppp_is_9_before_it_is_11() {
    let [(mut block, _), ..] = run();
    block[16] = b'a';
    assert_eq!(ledger::file(&mut opened(b"abcX24000018"), &block), Answer::refused_with(9, 5));
}

#[test]
fn a_ledger_s_own_ppp_is_judged() {
    let [(block, _), ..] = run();
    for (byte, answer) in [(0x2d, Answer::refused(DAMAGED)), (0x61, Answer::done(2))] {
        let mut bytes = opened(&IDENTIFIER);
        bytes[0] = byte;
        assert_eq!(ledger::missing(&bytes, today()).answer, answer.number);
        assert_eq!(ledger::file(&mut bytes, &block), answer);
        assert_eq!(bytes[0], byte);
    }
}

#[test]
fn the_listing_prints_ppp_as_it_was_sent() {
    let [(block, _), ..] = run();
    assert_eq!(listing::listing(&block).lines().next(), Some("abcX24000017 240229011000 001"));
}
