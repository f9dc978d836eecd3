//! The kinds of scripts that a round has, and how many of each.

use super::{
    adjustments, boundaries, calls, characters, complete, conflicts, damage, dates, ends, hostile, lines, longest,
    names, ordinary, outages, phases, tables, weights, writer, Script,
};
use crate::random::Random;
use crate::recorder::Class;

type Generator = fn(u64) -> Script;

/// The kinds of a round, each with the number of scripts of that kind.
const KINDS: [(Generator, u64); 90] = [
    (ordinary::weeks, 16),
    (ordinary::year, 1),
    (ordinary::ledgers, 3),
    (boundaries::instants, 1),
    (boundaries::units, 1),
    (boundaries::run_rounds, 1),
    (boundaries::rings, 1),
    (ends::calendar, 1),
    (boundaries::starts, 1),
    (hostile::set_ups, 1),
    (hostile::pokes, 2),
    (hostile::stores, 2),
    (calls::calls, 4),
    (writer::given, 2),
    (damage::blocks, 2),
    (damage::sizes, 1),
    (damage::ledgers, 1),
    (conflicts::conflicts, 2),
    (lines::garbled, 2),
    (|seed| outages::long(seed, Class::A), 1),
    (|seed| outages::long(seed, Class::B), 1),
    (|seed| outages::long(seed, Class::C), 1),
    (|seed| outages::long(seed, Class::D), 1),
    (dates::of_reading, 1),
    (dates::words, 1),
    (dates::of_records, 1),
    (dates::of_resets, 1),
    (weights::crossed, 1),
    (weights::remainders, 1),
    (weights::limits, 1),
    (|seed| complete::days(seed, Class::A), 1),
    (|seed| complete::days(seed, Class::B), 1),
    (|seed| complete::days(seed, Class::C), 1),
    (|seed| complete::days(seed, Class::D), 1),
    (longest::longest, 1),
    (characters::set_ups, 1),
    (characters::openings, 1),
    (characters::recorders, 1),
    (characters::blocks, 1),
    (characters::ledgers, 1),
    (characters::events, 1),
    (names::runs, 2),
    (names::meters, 1),
    (names::refusals, 1),
    (names::marks, 1),
    (adjustments::distances::boundaries, 1),
    (adjustments::distances::midnights, 1),
    (adjustments::distances::set_ups, 1),
    (adjustments::distances::first, 1),
    (adjustments::distances::last, 1),
    (adjustments::marks, 1),
    (adjustments::runs, 2),
    (adjustments::moved_back, 1),
    (adjustments::numbers::states, 1),
    (adjustments::numbers::forms, 1),
    (tables::switching::weeks, 4),
    (tables::switching::calendar, 1),
    (tables::switching::dates, 1),
    (tables::switching::ranks, 1),
    (tables::switching::orders, 1),
    (tables::limits::bytes, 1),
    (tables::limits::days, 1),
    (tables::limits::numbers, 1),
    (tables::limits::midnights, 1),
    (tables::refused::clashes, 1),
    (tables::refused::faults, 1),
    (tables::refused::states, 1),
    (tables::damaged::pokes, 1),
    (tables::damaged::junk, 1),
    (tables::damaged::lengths, 1),
    (tables::adjusted::minutes, 1),
    (tables::drawn::weeks, 1),
    (tables::drawn::half_hours, 1),
    (tables::lines::garbled, 1),
    (tables::mixed::anything, 3),
    (phases::chosen::rates, 1),
    (phases::chosen::loads, 1),
    (phases::chosen::slots, 1),
    (phases::chosen::by_chance, 1),
    (phases::converted::from_each_rate, 1),
    (phases::converted::under_tables, 1),
    (phases::converted::refused, 1),
    (phases::converted::anything, 3),
    (phases::damaged::rates, 1),
    (phases::damaged::rooms, 1),
    (phases::damaged::conversions, 1),
    (phases::states::states, 1),
    (phases::states::fields, 1),
    (phases::states::set_ups, 1),
    (phases::lines::forms, 1),
];

/// All scripts of one round.
pub fn round(seed: u64) -> Vec<Script> {
    let mut seeds = Random::new(seed);
    let mut scripts = Vec::new();
    for (generate, times) in KINDS {
        for _ in 0..times {
            scripts.push(generate(seeds.bits()));
        }
    }
    scripts.extend(lines::longest());
    scripts
}
