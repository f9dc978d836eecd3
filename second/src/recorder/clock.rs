//! The recorder's clock: time that passes, power that comes back and adjustments, and the half-hours that these close.

use super::{Class, Recorder, Store};
use crate::answer::{HALF_HOUR_ENDED, OUT_OF_RANGE, WRONG_TIME};
use crate::block::POWER_LOST;
use crate::calendar::{self, LAST_TIME, SECONDS_PER_DAY, SECONDS_PER_HALF_HOUR};
use crate::quantities;

/// An Adjust moves the clock by at most so many seconds, forward or back.
pub const MOST_SHIFT: i64 = 900;

impl Recorder {
    /// Time becomes `time`; each boundary passed closes a half-hour at the present reading.
    pub(super) fn pass_time(&mut self, time: u64, class: Class, store: &mut Store) -> Result<(), u32> {
        if time < self.time || time > LAST_TIME {
            return Err(WRONG_TIME);
        }
        let mut boundary = (self.time / SECONDS_PER_HALF_HOUR + 1) * SECONDS_PER_HALF_HOUR;
        while boundary <= time {
            self.close_half_hour(boundary, class, store);
            if boundary % SECONDS_PER_DAY == 0 {
                store.open_day(class.room(calendar::day_of(boundary)), quantities::reading(self.total));
                self.days = (self.days + 1).min(class.days() as u64);
            }
            boundary += SECONDS_PER_HALF_HOUR;
        }
        self.time = time;
        Ok(())
    }

    /// The running half-hour is marked, and then the clock is moved: forward as time passes, back inside that half-hour.
    pub(super) fn adjust(&mut self, seconds: i64, class: Class, store: &mut Store) -> Result<(), u32> {
        if !(-MOST_SHIFT..=MOST_SHIFT).contains(&seconds) {
            return Err(OUT_OF_RANGE);
        }
        let half_hour = SECONDS_PER_HALF_HOUR as i64;
        let (now, moved) = (self.time as i64, self.time as i64 + seconds);
        if moved.div_euclid(half_hour) < now.div_euclid(half_hour) {
            return Err(HALF_HOUR_ENDED);
        }
        self.level2 = true;
        // From the earlier of the two times on: a move back passes no boundary.
        self.time = now.min(moved) as u64;
        self.pass_time(moved as u64, class, store)
    }

    /// Power is back: the days from that of Off on that are still stored are flagged.
    pub(super) fn restore_power(&mut self, time: u64, class: Class, store: &mut Store) -> Result<(), u32> {
        let lost = calendar::day_of(self.time);
        self.pass_time(time, class, store)?;
        self.power = true;
        let newest = calendar::day_of(time);
        let oldest = (newest + 1).saturating_sub(self.days);
        for day in lost.max(oldest)..=newest {
            store.add_flag(class.room(day), POWER_LOST);
        }
        Ok(())
    }

    /// The half-hour that ends at the boundary gets its value and marks.
    fn close_half_hour(&mut self, boundary: u64, class: Class, store: &mut Store) {
        let began = boundary - SECONDS_PER_HALF_HOUR;
        let day = calendar::day_of(began);
        let room = class.room(day);
        let reading = quantities::reading(self.total);
        let advance = quantities::advance(quantities::value(self.base), quantities::value(reading));
        store.set_value(room, calendar::ended(began, day), quantities::value(reading));
        store.add_marks(room, self.reverse, self.level2);
        self.current = self.current.max(quantities::demand(advance));
        self.base = reading;
        self.reverse = false;
        self.level2 = false;
    }
}
