//! Outstations made single phase in service, reckoned by hand: the active rate, the registers and what refuses it; the
//! blocks before and after it, set-ups, the script's words; and random lives that are converted on their way.

use super::history::{any_event, Watched};
use super::phases::{active, begun, refused, single, with};
use super::tariff::{table, W};
use super::*;
use crate::calendar::SECONDS_PER_DAY;
use crate::lives;
use crate::quantities::TOTAL_MODULUS;
use crate::random::Random;
use crate::tariff::Slot;

/// Day type 7 from 00:00 at rate 7, every day.
const SEVEN: [Slot; 2] = [[4, 7, 0, 0, 0], [1, 7, 0, 0, 7]];

#[test]
fn energy_stays_in_its_register() {
    let mut outstation = active(7);
    assert_eq!(outstation.event(Event::Count(50)), 0);
    assert_eq!((outstation.event(Event::Single), outstation.recorder.rate), (0, 1));
    assert_eq!(outstation.event(Event::Count(60)), 0);
    let recorder = outstation.recorder;
    assert_eq!(recorder.registers, [10_000, 0, 0, 0, 0, 0, 50_000, 0]);
    assert_eq!((recorder.total, recorder.phase), (65_000, Phase::Single));
}

#[test]
fn from_each_active_rate() {
    for (rate, after) in (1..=8).zip([1, 2, 3, 4, 1, 1, 1, 1]) {
        let mut outstation = active(rate);
        outstation.recorder.registers = [1, 2, 3, 4, 5, 6, 7, TOTAL_MODULUS - 1];
        (outstation.recorder.reverse, outstation.recorder.current) = (true, 9);
        let before = outstation.clone();
        let recorder = Recorder { rate: after, phase: Phase::Single, ..before.recorder };
        // Once more changes nothing.
        for _ in 0..2 {
            assert_eq!(outstation.event(Event::Single), 0);
            assert_eq!(outstation, Outstation { recorder, ..before.clone() });
        }
    }
}

#[test]
fn a_table_that_names_a_rate_above_four() {
    let mut outstation = begun(Phase::Poly);
    let (seven, w) = (table(&SEVEN), table(&W));
    assert_eq!((outstation.event(Event::Load(&seven)), outstation.recorder.rate), (0, 7));
    refused(&mut outstation, Event::Single, OUT_OF_RANGE);
    assert_eq!(outstation.recorder.phase, Phase::Poly);
    assert_eq!((outstation.event(Event::Load(&w)), outstation.recorder.rate), (0, 2));
    let before = outstation.clone();
    assert_eq!(outstation.event(Event::Single), 0);
    let recorder = Recorder { phase: Phase::Single, ..before.recorder };
    assert_eq!(outstation, Outstation { recorder, ..before });
    refused(&mut outstation, Event::Load(&seven), OUT_OF_RANGE);
    assert_eq!((outstation.event(Event::Clock(at("240302120000"))), outstation.recorder.rate), (0, 3));
}

#[test]
fn the_order_of_a_conversion_s_answers() {
    for made in [Phase::Poly, Phase::Single] {
        let mut outstation = begun(made);
        assert_eq!(outstation.event(Event::Load(&table(&W))), 0);
        outstation.table[4] = 5;
        outstation.recorder.weight = 0;
        outstation.recorder.power = false;
        outstation.values.push(0);
        let class = outstation.recorder.class;
        outstation.recorder.class = None;
        refused(&mut outstation, Event::Single, DAMAGED);
        outstation.recorder.class = class;
        refused(&mut outstation, Event::Single, WRONG_LENGTH);
        outstation.values.pop();
        outstation.table.push(0);
        refused(&mut outstation, Event::Single, WRONG_LENGTH);
        outstation.table.pop();
        refused(&mut outstation, Event::Single, DAMAGED);
        outstation.recorder.weight = 1_000;
        refused(&mut outstation, Event::Single, WRONG_POWER);
        outstation.recorder.power = true;
        refused(&mut outstation, Event::Single, OUT_OF_RANGE);
        outstation.table[4] = 4;
        assert_eq!(outstation.event(Event::Single), 0);
    }
}

#[test]
fn while_power_is_off() {
    for mut outstation in [active(3), active(8), begun(Phase::Single)] {
        let time = outstation.recorder.time;
        assert_eq!(outstation.event(Event::Off), 0);
        refused(&mut outstation, Event::Single, WRONG_POWER);
        refused(&mut outstation, Event::Rate(5), WRONG_POWER);
        refused(&mut outstation, Event::Load(&table(&SEVEN)), WRONG_POWER);
        assert_eq!((outstation.event(Event::On(time)), outstation.event(Event::Single)), (0, 0));
    }
}

#[test]
fn a_room_without_a_table_is_no_obstacle() {
    let mut outstation = active(6);
    outstation.table = table(&SEVEN);
    let before = outstation.clone();
    assert_eq!(outstation.event(Event::Single), 0);
    let recorder = Recorder { rate: 1, phase: Phase::Single, ..before.recorder };
    assert_eq!(outstation, Outstation { recorder, ..before });
    assert_eq!(outstation.event(Event::Single), 0);
    // Said to be loaded, the same bytes refuse a conversion, also of single phase.
    outstation.recorder.loaded = true;
    refused(&mut outstation, Event::Single, OUT_OF_RANGE);
}

#[test]
fn damaged_rooms_at_a_conversion() {
    for (entry, answer) in [
        ([1, 0, 0, 0, 5], OUT_OF_RANGE),
        ([1, 255, 255, 255, 8], OUT_OF_RANGE),
        ([1, 8, 24, 60, 6], OUT_OF_RANGE),
        ([1, 8, 0, 0, 9], 0),
        ([1, 8, 0, 0, 255], 0),
        ([1, 8, 0, 0, 0], 0),
        ([0, 8, 0, 0, 5], 0),
        ([2, 8, 0, 0, 6], 0),
        ([3, 8, 0, 0, 7], 0),
        ([4, 8, 0, 0, 8], 0),
        ([5, 8, 0, 0, 5], 0),
    ] {
        for phase in [Phase::Poly, Phase::Single] {
            let mut outstation = begun(phase);
            (outstation.table, outstation.recorder.loaded) = (with(entry), true);
            if answer == 0 {
                assert_eq!(outstation.event(Event::Single), 0, "{entry:?}");
            } else {
                refused(&mut outstation, Event::Single, answer);
            }
        }
    }
}

#[test]
fn a_conversion_asks_the_table_for_no_rate() {
    let mut outstation = begun(Phase::Poly);
    assert_eq!(outstation.event(Event::Load(&table(&W))), 0);
    for (rate, after) in [(8, 1), (3, 3)] {
        (outstation.recorder.rate, outstation.recorder.phase) = (rate, Phase::Poly);
        assert_eq!((outstation.event(Event::Single), outstation.recorder.rate), (0, after));
        let time = outstation.recorder.time;
        assert_eq!((outstation.event(Event::Clock(time)), outstation.recorder.rate), (0, 2));
    }
}

#[test]
fn registers_are_sent_and_filed_as_before() {
    let mut outstation = active(7);
    outstation.recorder.registers[6] = 50_000;
    outstation.recorder.registers[7] = 50_000_000;
    let day = calendar::read_date(b"240228").unwrap();
    let early = outstation.read(1);
    assert_eq!(outstation.event(Event::Single), 0);
    let late = outstation.read(1);
    assert_eq!((early.len(), &late), (331, &early));
    assert_eq!(late[61..109], *b"000000000000000000000000000000000000000000000050");
    assert_eq!(outstation.event(Event::Clock(at("240228123000"))), 0);
    let later = outstation.read(1);
    assert_eq!((&later[61..109], &later[325..331], later[126]), (&late[61..109], &[0; 6][..], 0));
    let mut bytes = vec![0; ledger::bytes_for(1)];
    assert_eq!(ledger::open(&IDENTIFIER, day, 1, &mut bytes), Answer::done(0));
    for (block, held) in [(&late, 24), (&early, 0), (&later, 1)] {
        assert_eq!(ledger::file(&mut bytes, block), Answer::done(held));
    }
}

#[test]
fn the_total_is_the_start_and_all_eight() {
    let mut outstation = begun(Phase::Poly);
    outstation.recorder.weight = 10_000;
    for rate in 1..=8 {
        assert_eq!(outstation.event(Event::Rate(rate)), 0);
        assert_eq!(outstation.event(Event::Count(10 * rate)), 0);
    }
    assert_eq!((outstation.event(Event::Single), outstation.event(Event::Count(100))), (0, 0));
    let recorder = outstation.recorder;
    assert_eq!(recorder.registers, [300_000, 100_000, 100_000, 100_000, 100_000, 100_000, 100_000, 100_000]);
    assert_eq!(recorder.total, 5_000 + recorder.registers.iter().sum::<u64>());
}

#[test]
fn a_set_up_is_the_only_way_back() {
    let [_, mut outstation] = single();
    for (phase, weight, number) in
        [(Phase::Single, 0, 6), (Phase::Poly, 1, 0), (Phase::Single, 1, 0), (Phase::Poly, 0, 6)]
    {
        let given =
            SetUp { identifier: IDENTIFIER, class: Some(Class::A), phase, weight, time: 0, total: 0, counter: 0 };
        let (recorder, answer) = recorder::set_up(&given, &mut outstation.lend().1);
        assert_eq!((recorder == BLANK, answer.number), (number != 0, number));
        assert_eq!(recorder.phase, if number == 0 { phase } else { Phase::Poly });
        if number == 0 {
            let (_, answer) = recorder.step(Event::Rate(5), &mut outstation.lend().1);
            assert_eq!(answer.number, if phase == Phase::Poly { 0 } else { OUT_OF_RANGE });
        }
    }
    let (_, answer) = BLANK.step(Event::Single, &mut outstation.lend().1);
    assert_eq!((answer, BLANK.phase), (Answer::refused(DAMAGED), Phase::Poly));
}

/// The phases that are shown behind lines.
fn shown(lines: &[&str]) -> String {
    let show = answers(&[lines, &["show"]].concat()).pop().unwrap();
    show.rsplit(' ').next().unwrap().to_string()
}

#[test]
fn the_words_of_a_script() {
    let set_up = "setup ABCX24000017 a p 10000 240229 120000 0 0";
    assert_eq!([shown(&[]), shown(&[set_up]), shown(&[set_up, "single"])], ["3", "3", "1"]);
    assert_eq!(
        answers(&["single", set_up, "rate 5", "single", "single", "rate 5"]),
        ["5 0", "0 0", "0 0", "0 0", "0 0", "6 0"]
    );
    for line in [
        "single 1",
        "single ",
        " single",
        "Single",
        "SINGLE",
        "singles",
        "single single",
        "phase s",
        "poke phase 1",
        "given phase 1",
    ] {
        assert_eq!((answers(&[set_up, line])[1].as_str(), shown(&[set_up, line]).as_str()), ("? 2", "3"), "{line}");
    }
}

#[test]
fn the_phase_letter_of_a_set_up() {
    let line = |class, phase, weight| format!("setup ABCX24000017 {class} {phase} {weight} 240229 120000 0 0");
    let single = &line("a", "s", 1);
    for (letter, phases) in [("s", "1"), ("p", "3")] {
        assert_eq!(shown(&[&line("a", letter, 1)]), phases);
        // The blank recorder is polyphase, whatever the refused set-up was given.
        for refused in [line("a", letter, 0), line("e", letter, 1), line("a", letter, 100_001)] {
            assert_eq!((answers(&[&refused]), shown(&[single, &refused])), (vec!["6 0".to_string()], "3".to_string()));
        }
        let short = ["lend 0 0 0", &line("a", letter, 1)];
        assert_eq!((answers(&short)[1].as_str(), shown(&short).as_str()), ("4 0", "3"));
    }
    for word in ["S", "P", "ss", "pp", "sp", "", "s p", "s s", "1", "3", "x", "a", "-s", "single", "s\t", "\u{17f}"] {
        let wrong = &line("a", word, 1);
        assert_eq!((answers(&[single, wrong])[1].as_str(), shown(&[single, wrong]).as_str()), ("? 2", "1"), "{word}");
    }
    let without = "setup ABCX24000017 a 10000 240229 120000 0 0";
    assert_eq!((answers(&[single, without])[1].as_str(), shown(&[single, without]).as_str()), ("? 2", "1"));
}

/// A table whose rates are up to one.
fn any_table(watched: &Watched, random: &mut Random, most_rate: u64) -> Vec<u8> {
    table(&lives::random_entries(random, watched.history.time / SECONDS_PER_DAY, most_rate))
}

/// Energy under many rates; a conversion that would come too early is left out.
fn live(watched: &mut Watched, random: &mut Random, may_convert: bool) {
    for _ in 0..200 {
        match random.below(120) {
            0..=39 => watched.event(Event::Rate(random.below(10) as u32)),
            40 => {
                let most_rate = *random.pick(&[4, 8]);
                let offered = any_table(watched, random, most_rate);
                watched.event(Event::Load(&offered));
            }
            _ => {
                let event = any_event(watched, random);
                if may_convert || event != Event::Single {
                    watched.event(event);
                }
            }
        }
    }
}

#[test]
fn lives_converted_on_their_way() {
    let mut filled = 0;
    for seed in 1..=12 {
        let mut random = Random::new(seed);
        let mut watched = Watched::begin(Class::A, &mut random);
        live(&mut watched, &mut random, false);
        while watched.history.kept.is_none() {
            let offered = any_table(&watched, &mut random, 4);
            let event = any_event(&watched, &mut random);
            for event in [event, Event::Load(&offered), Event::Single] {
                watched.event(event);
            }
        }
        live(&mut watched, &mut random, true);
        filled += watched.history.kept.iter().flatten().filter(|&&register| register > 0).count();
    }
    assert!(filled > 12, "{filled}");
}
