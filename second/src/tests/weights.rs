//! Pulse weights in thousandths of a watt-hour, reckoned by hand, and the bound between what was counted and
//! what the ledger sums.

use super::*;
use crate::lives::{self, WEIGHTS};
use crate::quantities::{LEAST_WEIGHT, MOST_WEIGHT, THOUSANDTHS_PER_UNIT, TOTAL_MODULUS};
use crate::random::Random;

/// An outstation that begins at midnight with its counter at 0.
fn begun(weight: u64, total: u64) -> Outstation {
    Outstation::new(Class::A, weight, "240229000000", total, 0)
}

/// So many pulses refused with 3, changing nothing, and so many accepted: the total and the running half-hour's units.
fn refused_and_accepted(weight: u64, total: u64, refused: u32, accepted: u32) -> (u64, u64) {
    let mut outstation = begun(weight, total);
    let before = outstation.recorder;
    assert_eq!(outstation.event(Event::Count(refused)), TOO_MANY_UNITS);
    assert_eq!(outstation.recorder, before);
    assert_eq!(outstation.event(Event::Count(accepted)), 0);
    (outstation.recorder.total, outstation.recorder.running_units())
}

#[test]
fn weights_at_set_up_and_poked() {
    for (weight, answer) in [(0, "6 0"), (1, "0 0"), (100_000, "0 0"), (100_001, "6 0")] {
        assert_eq!(answers(&[&format!("setup ABCX24000017 a p {weight} 240229 000000 0 0")]), [answer]);
    }
    for (weight, answer) in [(0, "5 0"), (1, "0 0"), (100_000, "0 0"), (100_001, "5 0")] {
        let poke = format!("poke weight {weight}");
        let lines = ["setup ABCX24000017 a p 1250 240229 000000 0 0", &poke, "access", "read 0 112", "off"];
        assert_eq!(answers(&lines)[2..], [answer, if answer == "0 0" { "0 112" } else { answer }, answer]);
    }
}

#[test]
fn totals_and_registers_at_set_up_and_poked() {
    for (total, answer) in [(999_999_999_999_u64, "0 0"), (1_000_000_000_000, "6 0")] {
        assert_eq!(answers(&[&format!("setup ABCX24000017 a p 1250 240229 000000 {total} 0")]), [answer]);
    }
    for field in ["total", "register 1", "register 8"] {
        for (number, answer) in [(999_999_999_999_u64, "0 0"), (1_000_000_000_000, "5 0")] {
            let poke = format!("poke {field} {number}");
            let lines = ["setup ABCX24000017 a p 1250 240229 000000 0 0", &poke, "access"];
            assert_eq!(answers(&lines), ["0 0", "0 0", answer]);
        }
    }
}

#[test]
fn scripts_take_and_show_thousandths() {
    let lines = [
        "setup ABCX24000017 a p 1250 000101 000000 999999999999 0",
        "poke register 2 123456789012",
        "show",
        "setup ABCX24000017 a p 1.25 000101 000000 0 0",
        "poke total 0.5",
        "count 1",
        "show",
    ];
    // One pulse past the last thousandth: 1,249 of the next round; reading 99999999 stays the half-hour's base.
    assert_eq!(
        answers(&lines)[2..],
        [
            "1 1250 0 1 1 999999999999 0 1 0 123456789012 0 0 0 0 0 0 0 0 0 0 0 99999999 0 0 0 3",
            "? 4",
            "? 5",
            "0 0",
            "1 1250 0 1 1 1249 1 1 1250 123456789012 0 0 0 0 0 0 0 0 0 0 0 99999999 0 0 0 3"
        ]
    );
}

#[test]
fn a_weight_takes_32_bits_and_totals_18_digits() {
    let lines = [
        "setup ABCX24000017 a p 4294967295 @0 0 0",
        "setup ABCX24000017 a p 4294967296 @0 0 0",
        "setup ABCX24000017 a p 1250 @0 999999999999999999 0",
        "setup ABCX24000017 a p 1250 @0 1000000000000000000 0",
        "poke weight 4294967295",
        "poke weight 4294967296",
        "poke total 999999999999999999",
        "poke total 1000000000000000000",
        "poke register 8 999999999999999999",
        "poke register 8 1000000000000000000",
    ];
    assert_eq!(answers(&lines), ["6 0", "? 2", "6 0", "? 4", "0 0", "? 6", "0 0", "? 8", "0 0", "? 10"]);
}

#[test]
fn the_eighth_pulse_of_1250_reaches_a_unit() {
    for (pulses, total, units) in [(7, 8_750, 0), (8, 10_000, 1)] {
        let mut outstation = begun(1_250, 0);
        assert_eq!(outstation.event(Event::Count(pulses)), 0);
        assert_eq!((outstation.recorder.total, outstation.recorder.running_units()), (total, units));
        assert_eq!(outstation.event(Event::Clock(at("240229003000"))), 0);
        assert_eq!((u64::from(outstation.day("240229").values[0]), outstation.recorder.base), (units, units));
    }
}

#[test]
fn the_most_of_a_half_hour() {
    assert_eq!(refused_and_accepted(1_250, 0, 80_000, 79_999), (99_998_750, 9_999));
    assert_eq!(refused_and_accepted(1, 9_999, 99_990_001, 99_990_000), (99_999_999, 9_999));
    assert_eq!(refused_and_accepted(1, 0, 100_000_000, 99_999_999), (99_999_999, 9_999));
    assert_eq!(refused_and_accepted(100_000, 0, 1_000, 999), (99_900_000, 9_990));
    // 429,496,729,500,000 thousandths.
    assert_eq!(refused_and_accepted(100_000, 0, 4_294_967_295, 0), (0, 0));
    assert_eq!(refused_and_accepted(100_000, 999_999_999_999, 4_294_967_295, 0), (999_999_999_999, 0));
    // 42,950 pulses: 4,295,000,000 thousandths, which in 32 bits would be 32,704.
    assert_eq!(refused_and_accepted(100_000, 0, 42_950, 0), (0, 0));
}

#[test]
fn a_remainder_stays_over_the_boundary() {
    let mut outstation = begun(1_250, 0);
    outstation.event(Event::Count(5));
    outstation.event(Event::Clock(at("240229003000")));
    outstation.event(Event::Count(10));
    outstation.event(Event::Clock(at("240229010000")));
    assert_eq!(outstation.day("240229").values[..2], [0, 1]);
    assert_eq!((outstation.recorder.total, outstation.recorder.current), (12_500, 2));
}

#[test]
fn the_total_runs_round_in_thousandths() {
    let mut outstation = begun(1_250, 999_999_998_750);
    assert_eq!(outstation.day("240229").start, 99_999_999);
    assert_eq!(outstation.event(Event::Count(1)), 0);
    assert_eq!((outstation.recorder.total, outstation.recorder.registers[0]), (0, 1_250));
    assert_eq!(outstation.event(Event::Clock(at("240229003000"))), 0);
    assert_eq!((outstation.day("240229").values[0], outstation.recorder.current), (0, 2));
    assert!(listing::listing(&outstation.read(1)).contains("240229 01 99999999 000001 00 00"));
}

#[test]
fn a_register_runs_round_in_thousandths() {
    for (before, kwh_before, after, kwh_after) in [
        (999_999_998_749, b"999999", 999_999_999_999, b"999999"),
        (999_999_998_750, b"999999", 0, b"000000"),
        (999_999_999_000, b"999999", 250, b"000000"),
        (999_999_999, b"000999", 1_000_001_249, b"001000"),
    ] {
        let mut outstation = begun(1_250, 0);
        outstation.recorder.registers[7] = before;
        outstation.event(Event::Rate(8));
        assert_eq!(outstation.read(0)[103..109], *kwh_before);
        assert_eq!(outstation.event(Event::Count(1)), 0);
        assert_eq!((outstation.recorder.total, outstation.recorder.registers[7]), (1_250, after));
        assert_eq!(outstation.read(0)[103..109], *kwh_after);
    }
}

#[test]
fn the_800th_pulse_of_1250_reaches_a_kwh() {
    for (pulses, kwh) in [(799, b"000000"), (800, b"000001")] {
        let mut outstation = begun(1_250, 0);
        assert_eq!(outstation.event(Event::Count(pulses)), 0);
        let block = outstation.read(0);
        assert_eq!((&block[29..35], &block[61..67]), (&kwh[..], &kwh[..]));
        assert_eq!(block[67..73], *b"000000");
    }
}

/// What was counted in a day, in thousandths, and what the ledger sums of it, in units.
struct Stretch {
    counted: u64,
    summed: u64,
}

/// Thousandths by which the ledger's units are more than what was counted, over days one after the other.
fn over(days: &[Stretch]) -> i64 {
    days.iter().map(|day| 10_000 * day.summed as i64 - day.counted as i64).sum()
}

/// Pulses in so many half-hours one after the other, from midnight on, each day read out and filed at its end.
fn lived(weight: u64, total: u64, half_hours: u64, mut pulses: impl FnMut(&Recorder) -> u64) -> Vec<Stretch> {
    let mut outstation = begun(weight, total);
    let first = calendar::day_of(outstation.recorder.time);
    let days = half_hours.div_ceil(48);
    let mut bytes = vec![0; ledger::bytes_for(days as usize)];
    assert_eq!(ledger::open(&IDENTIFIER, first, days, &mut bytes), Answer::done(0));
    let mut stretches = Vec::new();
    let (mut counted, mut held) = (0, 0);
    for half_hour in 1..=half_hours {
        let pulses = pulses(&outstation.recorder);
        let counter = outstation.recorder.last.wrapping_add(pulses as u32);
        assert_eq!(outstation.event(Event::Count(counter)), 0);
        counted += pulses * weight;
        assert_eq!(outstation.event(Event::Clock(outstation.recorder.time + 1_800)), 0);
        if half_hour % 48 == 0 || half_hour == half_hours {
            let answer = ledger::file(&mut bytes, &outstation.read(2));
            held += u64::from(answer.carried);
            assert_eq!((answer.number, held), (0, half_hour));
            let summary = ledger::summary(&bytes, first + stretches.len() as u64);
            stretches.push(Stretch { counted, summed: summary.sum });
            counted = 0;
        }
    }
    stretches
}

#[test]
fn the_ledger_s_sum_may_be_9999_thousandths_short_or_over() {
    let short = lived(9_999, 0, 1, |_| 1);
    assert_eq!((short[0].counted, short[0].summed, over(&short)), (9_999, 0, -9_999));
    let more = lived(1, 9_999, 1, |_| 1);
    assert_eq!((more[0].counted, more[0].summed, over(&more)), (1, 1, 9_999));
}

#[test]
fn the_ledger_s_sum_and_the_count_differ_by_less_than_a_unit() {
    let unit = THOUSANDTHS_PER_UNIT;
    let mut random = Random::new(1);
    let drawn: Vec<u64> = WEIGHTS.iter().map(|_| random.between(LEAST_WEIGHT, MOST_WEIGHT)).collect();
    for weight in WEIGHTS.into_iter().chain(drawn) {
        for total in [0, unit - 1, unit, TOTAL_MODULUS - 1, TOTAL_MODULUS - unit, random.below(TOTAL_MODULUS)] {
            for half_hours in [1, 48, 49, 150] {
                let days = lived(weight, total, half_hours, |recorder| {
                    let left = lives::pulses_left(recorder);
                    *random.pick(&[0, 1, left, left / 2, 3.min(left), (unit / weight).min(left)])
                });
                for first in 0..days.len() {
                    for stretch in (first + 1..=days.len()).map(|end| &days[first..end]) {
                        assert!(over(stretch).abs() < 10_000, "{weight} {total} {half_hours}");
                    }
                }
            }
        }
    }
}
