//! The two phase kinds and the active rate: how it is chosen, by Rate or by a table, and what becomes of it when an
//! outstation in service is made single phase.

use super::Recorder;
use crate::answer::{OUT_OF_RANGE, TABLE_LOADED};
use crate::block::RATES;
use crate::tariff;

/// Active after set-up, and what takes over from a rate that single phase has not.
pub(super) const FIRST_RATE: u64 = 1;

/// The highest rate that can be chosen on single phase. Registers there are as many as on polyphase.
const MOST_SINGLE_RATE: u64 = 4;

#[derive(Clone, Copy, Debug, PartialEq, Eq)]
pub enum Phase {
    Single,
    Poly,
}

impl Phase {
    pub fn of_letter(letter: u8) -> Option<Phase> {
        match letter {
            b's' => Some(Phase::Single),
            b'p' => Some(Phase::Poly),
            _ => None,
        }
    }

    /// The highest rate that can be chosen.
    pub const fn most_rate(self) -> u64 {
        match self {
            Phase::Single => MOST_SINGLE_RATE,
            Phase::Poly => RATES as u64,
        }
    }

    pub fn has_rate(self, rate: u64) -> bool {
        (FIRST_RATE..=self.most_rate()).contains(&rate)
    }
}

impl Recorder {
    pub(super) fn choose_rate(&mut self, rate: u32) -> Result<(), u32> {
        let rate = u64::from(rate);
        if !self.phase.has_rate(rate) {
            return Err(OUT_OF_RANGE);
        }
        if self.loaded {
            return Err(TABLE_LOADED);
        }
        self.rate = rate;
        Ok(())
    }

    /// The table offered takes the room; one that names a rate too high is out of range before it clashes.
    pub(super) fn load(&mut self, offered: &[u8], room: &mut [u8]) -> Result<(), u32> {
        if tariff::names_rate_above(offered, self.phase.most_rate()) {
            return Err(OUT_OF_RANGE);
        }
        tariff::judge(offered)?;
        room.copy_from_slice(offered);
        self.loaded = true;
        Ok(())
    }

    /// The active rate becomes the table's at the present time; where damaged bytes name none that can be chosen, it
    /// stays.
    pub(super) fn follow(&mut self, table: &[u8]) {
        let rate = u64::from(tariff::rate_at(table, self.time));
        if self.phase.has_rate(rate) {
            self.rate = rate;
        }
    }

    /// Single phase from now on. What a room has in which no table is loaded is no obstacle.
    pub(super) fn become_single(&mut self, room: &[u8]) -> Result<(), u32> {
        if self.loaded && tariff::names_rate_above(room, MOST_SINGLE_RATE) {
            return Err(OUT_OF_RANGE);
        }
        self.phase = Phase::Single;
        if !self.phase.has_rate(self.rate) {
            self.rate = FIRST_RATE;
        }
        Ok(())
    }
}
