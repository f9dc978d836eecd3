//! The fields that a script sets by name: those given to the writer, and those of the recorder, its store, the
//! table's room and the ledger, in range or not.

use super::words::*;
use super::Player;
use crate::block::{self, Day};
use crate::calendar::HALF_HOURS;
use crate::identifier;
use crate::recorder::Class;

impl Player {
    pub fn give(&mut self, words: &[Word]) -> Option<String> {
        let given = &mut self.given;
        match words {
            [b"time", n] => given.time = number(n)?,
            [b"kwh", n] => given.kwh = number_32_bits(n)?,
            [b"current", n] => given.current = number_32_bits(n)?,
            [b"previous", n] => given.previous = number_32_bits(n)?,
            [b"summed", n] => given.cumulative = number_32_bits(n)?,
            [b"reset", n] => given.reset = number_32_bits(n)?,
            [b"resets", n] => given.resets = number_32_bits(n)?,
            [b"days", n] => given.days = number_32_bits(n)?,
            [b"letter", i, n] => {
                let n = number_u8(n)?;
                *given.identifier.get_mut(number_below(i, identifier::LENGTH)?)? = n;
            }
            [b"register", i, n] => {
                let n = number_32_bits(n)?;
                *given.registers.get_mut(rate_index(i)?)? = n;
            }
            _ => return self.give_day(words),
        }
        print_done(0)
    }

    fn give_day(&mut self, words: &[Word]) -> Option<String> {
        match words {
            [b"start", i, n] => {
                let n = number_u32(n)?;
                self.given_day(i)?.start = n;
            }
            [b"flags", i, n] => {
                let n = number(n)?;
                self.given_day(i)?.flags = n;
            }
            [b"reversed", i, n] => {
                let n = number(n)?;
                self.given_day(i)?.reverse = n;
            }
            [b"level2", i, n] => {
                let n = number(n)?;
                self.given_day(i)?.level2 = n;
            }
            [b"value", i, j, n] => {
                let n = number_u16(n)?;
                let j = number_below(j, HALF_HOURS)?;
                *self.given_day(i)?.values.get_mut(j)? = n;
            }
            _ => return None,
        }
        print_done(0)
    }

    fn given_day(&mut self, word: Word) -> Option<&mut Day> {
        self.given_days.get_mut(number_below(word, block::MOST_DAYS)?)
    }

    pub fn poke(&mut self, words: &[Word]) -> Option<String> {
        let r = &mut self.recorder;
        match words {
            [b"class", n] => {
                let n = number_up_to(n, Class::ALL.len())?;
                r.class = n.checked_sub(1).and_then(|index| Class::ALL.get(index)).copied();
            }
            [b"weight", n] => r.weight = number_32_bits(n)?,
            [b"time", n] => r.time = number(n)?,
            [b"power", n] => r.power = yes_or_no(n)?,
            [b"days", n] => r.days = number_32_bits(n)?,
            [b"total", n] => r.total = number(n)?,
            [b"last", n] => r.last = number_u32(n)?,
            [b"rate", n] => r.rate = number_32_bits(n)?,
            [b"current", n] => r.current = number_32_bits(n)?,
            [b"previous", n] => r.previous = number_32_bits(n)?,
            [b"summed", n] => r.cumulative = number_32_bits(n)?,
            [b"reset", n] => r.reset = number_32_bits(n)?,
            [b"resets", n] => r.resets = number_32_bits(n)?,
            [b"base", n] => r.base = number_32_bits(n)?,
            [b"reverse", n] => r.reverse = yes_or_no(n)?,
            [b"level2", n] => r.level2 = yes_or_no(n)?,
            [b"loaded", n] => r.loaded = yes_or_no(n)?,
            [b"letter", i, n] => {
                let n = number_u8(n)?;
                *r.identifier.get_mut(number_below(i, identifier::LENGTH)?)? = n;
            }
            [b"register", i, n] => {
                let n = number(n)?;
                *r.registers.get_mut(rate_index(i)?)? = n;
            }
            _ => return self.poke_element(words),
        }
        print_done(0)
    }

    /// An element of the store, a byte of the table's room or of the ledger.
    fn poke_element(&mut self, words: &[Word]) -> Option<String> {
        match words {
            [b"value", i, n] => {
                let n = number_u16(n)?;
                *self.lend().1.values.get_mut(number_up_to(i, usize::MAX)?)? = n;
            }
            [b"start", i, n] => {
                let n = number_u32(n)?;
                *self.lend().1.starts.get_mut(number_up_to(i, usize::MAX)?)? = n;
            }
            [b"mark", i, n] => {
                let n = number(n)?;
                *self.lend().1.marks.get_mut(number_up_to(i, usize::MAX)?)? = n;
            }
            [b"table", i, n] => {
                let n = number_u8(n)?;
                *self.lend().1.table.get_mut(number_up_to(i, usize::MAX)?)? = n;
            }
            [b"ledger", i, n] => {
                let n = number_u8(n)?;
                *self.ledger.get_mut(number_up_to(i, usize::MAX)?)? = n;
            }
            _ => return None,
        }
        print_done(0)
    }
}
