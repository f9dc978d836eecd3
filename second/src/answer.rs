//! The answer numbers, each under a name, and what an answer carries.

pub const DONE: u32 = 0;
pub const WRONG_POWER: u32 = 1;
pub const WRONG_TIME: u32 = 2;
pub const TOO_MANY_UNITS: u32 = 3;
pub const WRONG_LENGTH: u32 = 4;
pub const DAMAGED: u32 = 5;
pub const OUT_OF_RANGE: u32 = 6;
pub const OUTPUT_SHORT: u32 = 7;
pub const NOT_A_BLOCK: u32 = 8;
pub const WRONG_FIELD: u32 = 9;
pub const NOT_CONSISTENT: u32 = 10;
pub const OTHER_METER: u32 = 11;
pub const CONFLICT: u32 = 12;
pub const HALF_HOUR_ENDED: u32 = 13;
pub const TABLE_CLASH: u32 = 14;
pub const TABLE_LOADED: u32 = 15;

#[derive(Clone, Copy, Debug, PartialEq, Eq)]
pub struct Answer {
    pub number: u32,
    pub carried: u32,
}

impl Answer {
    pub fn done(carried: usize) -> Answer {
        Answer { number: DONE, carried: u32::try_from(carried).unwrap_or(u32::MAX) }
    }

    /// A refusal that carries nothing.
    pub fn refused(number: u32) -> Answer {
        Answer { number, carried: 0 }
    }

    /// A refusal that carries an offset (9) or the bytes needed (7).
    pub fn refused_with(number: u32, carried: usize) -> Answer {
        Answer { number, carried: u32::try_from(carried).unwrap_or(u32::MAX) }
    }
}
