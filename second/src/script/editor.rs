//! The editor's table in a script: entries added, slots set and swapped, the table loaded and drawn, and the room in
//! which a loaded one lies looked at.

use super::words::*;
use super::Player;
use crate::calendar;
use crate::recorder::Event;
use crate::tariff::{
    self, Slot, DEFAULT, EVERY_YEAR, EXCEPTION, SLOTS, SLOT_BYTES, TABLE_BYTES, TIME, UNUSED, WEEKDAY_RUN,
};

/// One byte more than a table has may be offered or lent.
pub const MOST_TABLE_BYTES: usize = TABLE_BYTES + 1;

/// A time of day is a number hhmm, so that its hour is a byte.
const HOUR: usize = 100;
pub const LATEST_TIME: usize = HOUR * (u8::MAX as usize + 1) - 1;

impl Player {
    pub fn edit(&mut self, words: &[Word]) -> Option<String> {
        match words {
            [b"blank"] => {
                self.edited.fill(0);
                print_done(0)
            }
            [b"at", t, time, rate] => {
                let time = number_up_to(time, LATEST_TIME)?;
                let (hour, minute) = (u8::try_from(time / HOUR).ok()?, u8::try_from(time % HOUR).ok()?);
                self.add_entry([TIME, number_u8(t)?, hour, minute, number_u8(rate)?])
            }
            [b"except", t, date] => {
                let [year, month, day] = exception_date(date)?;
                self.add_entry([EXCEPTION, number_u8(t)?, year, month, day])
            }
            [b"weekdays", t, first, last] => {
                self.add_entry([WEEKDAY_RUN, number_u8(t)?, number_u8(first)?, number_u8(last)?, 0])
            }
            [b"default", t] => self.add_entry([DEFAULT, number_u8(t)?, 0, 0, 0]),
            [b"slot", i, k, t, x, y, z] => {
                let bytes = [number_u8(k)?, number_u8(t)?, number_u8(x)?, number_u8(y)?, number_u8(z)?];
                self.set_slot(number_below(i, SLOTS)?, bytes)?;
                print_done(0)
            }
            [b"swap", i, j] => self.swap(number_below(i, SLOTS)?, number_below(j, SLOTS)?),
            [b"load"] => self.load(TABLE_BYTES),
            [b"load", n] => self.load(number_up_to(n, MOST_TABLE_BYTES)?),
            [b"table"] => Some(print_hexadecimal(self.room())),
            [b"rateat", rest @ ..] => {
                let time = only_time(rest)?;
                print_done(usize::from(tariff::rate_at(self.room(), time)))
            }
            [b"week", d] => Some(tariff::week(day(d)?, &self.edited).trim_end().to_string()),
            _ => None,
        }
    }

    fn set_slot(&mut self, index: usize, bytes: Slot) -> Option<()> {
        self.edited.chunks_exact_mut(SLOT_BYTES).nth(index)?.copy_from_slice(&bytes);
        Some(())
    }

    /// An entry goes to the first slot whose first byte is that of an unused one.
    fn add_entry(&mut self, bytes: Slot) -> Option<String> {
        let free = self.edited.chunks_exact(SLOT_BYTES).position(|slot| slot.first() == Some(&UNUSED))?;
        self.set_slot(free, bytes)?;
        print_done(free)
    }

    fn swap(&mut self, one: usize, other: usize) -> Option<String> {
        for byte in 0..SLOT_BYTES {
            self.edited.swap(SLOT_BYTES * one + byte, SLOT_BYTES * other + byte);
        }
        print_done(0)
    }

    fn load(&mut self, bytes: usize) -> Option<String> {
        let mut offered = self.edited.clone();
        offered.resize(bytes, 0);
        self.step(Event::Load(&offered))
    }
}

/// `MMDD` of every year or `YYMMDD`, the date real or not.
fn exception_date(word: Word) -> Option<[u8; 3]> {
    let pair = |digits: &[u8]| calendar::digits(digits).and_then(|number| u8::try_from(number).ok());
    match *word {
        [m0, m1, d0, d1] => Some([EVERY_YEAR, pair(&[m0, m1])?, pair(&[d0, d1])?]),
        [y0, y1, m0, m1, d0, d1] => Some([pair(&[y0, y1])?, pair(&[m0, m1])?, pair(&[d0, d1])?]),
        _ => None,
    }
}
