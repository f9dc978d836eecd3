//! The words of a script: the numbers, days, times, bytes and events that they name,
//! and answers as they are printed.

use crate::answer::Answer;
use crate::block::RATES;
use crate::calendar::{self, SECONDS_PER_DAY};
use crate::identifier::{Identifier, Ppp};
use crate::quantities;
use crate::recorder::{Class, Event, Phase};

/// A number has at most so many digits.
pub const MOST_DIGITS: usize = 18;
pub const MOST_NUMBER: u64 = quantities::modulus(MOST_DIGITS) - 1;

pub type Word<'a> = &'a [u8];

/// A whole number.
pub fn number(word: Word) -> Option<u64> {
    if word.is_empty() || word.len() > MOST_DIGITS {
        return None;
    }
    calendar::digits(word)
}

pub fn number_below(word: Word, end: usize) -> Option<usize> {
    number(word).and_then(|number| usize::try_from(number).ok()).filter(|&number| number < end)
}

pub fn number_up_to(word: Word, most: usize) -> Option<usize> {
    number(word).and_then(|number| usize::try_from(number).ok()).filter(|&number| number <= most)
}

pub fn number_u8(word: Word) -> Option<u8> {
    u8::try_from(number(word)?).ok()
}

pub fn number_u16(word: Word) -> Option<u16> {
    u16::try_from(number(word)?).ok()
}

pub fn number_u32(word: Word) -> Option<u32> {
    u32::try_from(number(word)?).ok()
}

/// A number of 32 bits that the oracle holds in a wider one.
pub fn number_32_bits(word: Word) -> Option<u64> {
    number_u32(word).map(u64::from)
}

/// A number of 32 bits, negative with a `-` before its digits.
fn signed(word: Word) -> Option<i64> {
    match word.strip_prefix(b"-") {
        Some(digits) => number_u32(digits).map(|number| -i64::from(number)),
        None => number_u32(word).map(i64::from),
    }
}

pub fn yes_or_no(word: Word) -> Option<bool> {
    match number(word)? {
        0 => Some(false),
        1 => Some(true),
        _ => None,
    }
}

fn after_at(word: Word) -> Option<Word> {
    word.strip_prefix(b"@")
}

pub fn day(word: Word) -> Option<u64> {
    match after_at(word) {
        Some(word) => number_32_bits(word),
        None => calendar::read_date(word),
    }
}

/// A time at the front of the words, and the words behind it.
pub fn time<'a, 'b>(words: &'b [Word<'a>]) -> Option<(u64, &'b [Word<'a>])> {
    let (first, rest) = words.split_first()?;
    if let Some(word) = after_at(first) {
        return Some((number(word)?, rest));
    }
    let (second, rest) = rest.split_first()?;
    Some((calendar::read_date(first)? * SECONDS_PER_DAY + calendar::read_seconds(second)?, rest))
}

/// Words that are one time and nothing else.
pub fn only_time(words: &[Word]) -> Option<u64> {
    match time(words)? {
        (time, []) => Some(time),
        _ => None,
    }
}

pub fn identifier(word: Word) -> Option<Identifier> {
    word.try_into().ok()
}

fn ppp(word: Word) -> Option<Ppp> {
    word.try_into().ok()
}

/// The events but for the load, which has the editor's table.
pub fn event(words: &[Word]) -> Option<Event<'static>> {
    Some(match words {
        [b"count", n] => Event::Count(number_u32(n)?),
        [b"clock", rest @ ..] => Event::Clock(only_time(rest)?),
        [b"off"] => Event::Off,
        [b"on", rest @ ..] => Event::On(only_time(rest)?),
        [b"access"] => Event::Access,
        [b"meter", n] => Event::Meter(number_u32(n)?),
        [b"reset"] => Event::Reset,
        [b"rate", n] => Event::Rate(number_u32(n)?),
        [b"reverse"] => Event::Reverse,
        [b"ppp", characters] => Event::Ppp(ppp(characters)?),
        [b"adjust", n] => Event::Adjust(signed(n)?),
        [b"single"] => Event::Single,
        _ => return None,
    })
}

pub fn class(word: Word) -> Option<Option<Class>> {
    match word {
        [letter] if letter.is_ascii_alphabetic() => Some(Class::of_letter(*letter)),
        _ => None,
    }
}

/// No letter but those of the two kinds is understood.
pub fn phase(word: Word) -> Option<Phase> {
    match word {
        [letter] => Phase::of_letter(*letter),
        _ => None,
    }
}

pub fn rate_index(word: Word) -> Option<usize> {
    number_up_to(word, RATES)?.checked_sub(1)
}

pub fn hexadecimal(word: Word) -> Option<Vec<u8>> {
    if word.is_empty() || word.len() % 2 != 0 {
        return None;
    }
    let digit = |character: u8| char::from(character).to_digit(16);
    word.chunks(2)
        .map(|pair| match pair {
            [high, low] => u8::try_from(digit(*high)? * 16 + digit(*low)?).ok(),
            _ => None,
        })
        .collect()
}

pub fn print_hexadecimal(bytes: &[u8]) -> String {
    let digit = |number: u8| char::from_digit(u32::from(number), 16).unwrap_or_default();
    bytes.iter().flat_map(|byte| [digit(byte / 16), digit(byte % 16)]).collect()
}

pub fn print(answer: Answer) -> Option<String> {
    Some(format!("{} {}", answer.number, answer.carried))
}

pub fn print_done(carried: usize) -> Option<String> {
    print(Answer::done(carried))
}
