//! Every complete day of the class is there, whatever happens, the identifier is set-up's with the last PPP accepted, and
//! each rate register has what was counted while its rate was active: random lives of both phase kinds, in which clocks
//! are adjusted and outstations converted, beside a history that forgets nothing.

use super::tariff::rate_by_looking;
use super::*;
use crate::answer::{HALF_HOUR_ENDED, TABLE_LOADED};
use crate::block::{DEMAND_RESET, METER_CHANGED, POWER_LOST, RATES};
use crate::calendar::{day_of, ended, HALF_HOURS, SECONDS_PER_DAY, SECONDS_PER_HALF_HOUR};
use crate::lives;
use crate::quantities::TOTAL_MODULUS;
use crate::random::Random;

const WEIGHT: u64 = 10_000;

/// All days since set-up, as a block has them, the identifier, the table and the registers, kept by the events that were
/// accepted.
pub struct History {
    pub identifier: Identifier,
    pub time: u64,
    total: u64,
    last: u32,
    pub rate: u64,
    pub registers: [u64; RATES],
    start_total: u64,
    /// On single phase, what stood in the registers of the rates that it has not when it began.
    pub kept: Option<[u64; 4]>,
    table: Option<Vec<u8>>,
    off_since: u64,
    reverse: bool,
    level2: bool,
    pub first: u64,
    pub days: Vec<Day>,
}

impl History {
    fn new(given: &Recorder, start: u32) -> History {
        let mut day = Day { start, ..Day::ZERO };
        let first = day_of(given.time);
        for value in &mut day.values[..ended(given.time, first)] {
            *value = (start % 10_000) as u16;
        }
        let Recorder { identifier, time, total, last, .. } = *given;
        History {
            identifier,
            time,
            total,
            last,
            rate: 1,
            registers: [0; RATES],
            start_total: total,
            kept: (given.phase == Phase::Single).then_some([0; 4]),
            table: None,
            off_since: 0,
            reverse: false,
            level2: false,
            first,
            days: vec![day],
        }
    }

    fn today(&mut self) -> &mut Day {
        self.days.last_mut().unwrap()
    }

    /// A day since set-up.
    pub fn day(&self, day: u64) -> &Day {
        &self.days[(day - self.first) as usize]
    }

    fn accept(&mut self, event: Event) {
        match event {
            Event::Count(counter) => {
                let pulses = u64::from(counter.wrapping_sub(self.last));
                self.total = (self.total + pulses * WEIGHT) % TOTAL_MODULUS;
                let register = &mut self.registers[self.rate as usize - 1];
                *register = (*register + pulses * WEIGHT) % TOTAL_MODULUS;
                self.last = counter;
            }
            Event::Clock(time) => self.pass(time),
            Event::Off => self.off_since = day_of(self.time),
            Event::On(time) => {
                self.pass(time);
                let lost = (self.off_since - self.first) as usize;
                self.days[lost..].iter_mut().for_each(|day| day.flags |= POWER_LOST);
            }
            Event::Access => self.level2 = true,
            Event::Meter(counter) => {
                self.last = counter;
                self.level2 = true;
                self.today().flags |= METER_CHANGED;
            }
            Event::Reset => {
                self.level2 = true;
                self.today().flags |= DEMAND_RESET;
            }
            Event::Rate(rate) => self.rate = u64::from(rate),
            Event::Adjust(seconds) => self.adjust(seconds),
            Event::Load(table) => {
                self.table = Some(table.to_vec());
                self.switch();
            }
            Event::Single => {
                let [_, _, _, _, kept @ ..] = self.registers;
                self.kept = Some(self.kept.unwrap_or(kept));
                self.rate = if self.rate > 4 { 1 } else { self.rate };
            }
            Event::Reverse => self.reverse = true,
            Event::Ppp(ppp) => {
                let nine = self.identifier[3..].to_vec();
                self.identifier = [&ppp[..], &nine].concat().try_into().unwrap();
                self.level2 = true;
            }
        }
    }

    fn adjust(&mut self, seconds: i64) {
        self.level2 = true;
        self.pass(walked(self.time, seconds).unwrap());
    }

    /// Every half-hour that ends goes to its place in its day; behind a day's last one the next day begins.
    fn pass(&mut self, time: u64) {
        let reading = (self.total / 10_000) as u32;
        for half_hour in self.time / SECONDS_PER_HALF_HOUR..time / SECONDS_PER_HALF_HOUR {
            let place = (half_hour % HALF_HOURS as u64) as usize;
            let mark = 1 << (HALF_HOURS - 1 - place);
            let (reverse, level2) = (self.reverse, self.level2);
            let today = self.today();
            today.values[place] = (reading % 10_000) as u16;
            today.reverse |= if reverse { mark } else { 0 };
            today.level2 |= if level2 { mark } else { 0 };
            (self.reverse, self.level2) = (false, false);
            if place == HALF_HOURS - 1 {
                self.days.push(Day { start: reading, ..Day::ZERO });
            }
        }
        self.time = time;
        self.switch();
    }

    /// A table that was accepted names a rate at every second.
    fn switch(&mut self) {
        if let Some(table) = &self.table {
            self.rate = u64::from(rate_by_looking(table, self.time));
        }
    }

    /// The answer due while power is on: to an adjustment, to a conversion, and to a choice of the rate, but for a table's
    /// own faults.
    fn due(&self, event: Event) -> Option<u32> {
        let most = if self.kept.is_some() { 4 } else { 8 };
        match event {
            Event::Adjust(seconds) => Some(walked(self.time, seconds).err().unwrap_or(0)),
            Event::Rate(rate) if !(1..=most).contains(&rate) => Some(OUT_OF_RANGE),
            Event::Rate(_) => Some(if self.table.is_some() { TABLE_LOADED } else { 0 }),
            Event::Load(table) if most == 4 && names_above_four(table) => Some(OUT_OF_RANGE),
            Event::Single => {
                let refused = self.table.as_ref().is_some_and(|table| names_above_four(table));
                Some(if refused { OUT_OF_RANGE } else { 0 })
            }
            _ => None,
        }
    }

    /// Today as a read sends it.
    fn today_filled(&self) -> Day {
        let mut today = *self.day(day_of(self.time));
        let ended = ended(self.time, day_of(self.time));
        let fill = if ended == 0 { (today.start % 10_000) as u16 } else { today.values[ended - 1] };
        today.values[ended..].fill(fill);
        today
    }
}

/// An outstation beside its history.
pub struct Watched {
    pub outstation: Outstation,
    pub history: History,
}

impl Watched {
    pub fn begin(class: Class, random: &mut Random) -> Watched {
        let time = random.below(20_000 * SECONDS_PER_DAY);
        let total = random.below(TOTAL_MODULUS);
        let phase = *random.pick(&[Phase::Poly, Phase::Poly, Phase::Single]);
        let counter = random.bits() as u32;
        let given = SetUp { identifier: IDENTIFIER, class: Some(class), phase, weight: WEIGHT, time, total, counter };
        let outstation = Outstation::set_up(&given);
        let history = History::new(&outstation.recorder, (total / 10_000) as u32);
        Watched { outstation, history }
    }

    fn class(&self) -> Class {
        self.outstation.recorder.class.unwrap()
    }

    /// The complete days that must be there, the newest first.
    fn complete_days(&self) -> Vec<u64> {
        let today = day_of(self.history.time);
        let oldest = today.saturating_sub(self.class().complete_days() as u64).max(self.history.first);
        (oldest..today).rev().collect()
    }

    /// An event, and then all that must be there. Time may fall, half-hours never do.
    pub fn event(&mut self, event: Event) {
        let began = self.outstation.recorder.time;
        let before = self.outstation.clone();
        let answer = self.outstation.event(event);
        if let Some(due) = self.history.due(event) {
            assert_eq!(answer, if before.recorder.power { due } else { WRONG_POWER }, "{event:?} at {began}");
        }
        if answer == 0 {
            self.history.accept(event);
        } else {
            assert!(self.outstation == before, "{event:?} at {began}");
        }
        self.rates();
        let Recorder { identifier, time, rate, registers, .. } = self.outstation.recorder;
        assert!(time / SECONDS_PER_HALF_HOUR >= began / SECONDS_PER_HALF_HOUR);
        assert_eq!((identifier, time), (self.history.identifier, self.history.time));
        assert_eq!((rate, registers), (self.history.rate, self.history.registers));
        assert_eq!(identifier[3..], IDENTIFIER[3..]);
        for day in self.complete_days() {
            assert_eq!(self.outstation.day(&calendar::write_date(day)), *self.history.day(day));
        }
        self.today();
        if self.outstation.recorder.power {
            self.read();
        }
    }

    /// The registers sum to the total, and single phase changes none but its own.
    fn rates(&self) {
        let Recorder { total, rate, registers, phase, .. } = self.outstation.recorder;
        let sum = registers.iter().sum::<u64>();
        assert_eq!(total, (self.history.start_total + sum) % TOTAL_MODULUS);
        assert_eq!(phase == Phase::Single, self.history.kept.is_some());
        if let Some(kept) = self.history.kept {
            assert!((1..=4).contains(&rate));
            assert_eq!(registers[4..], kept);
        }
    }

    /// Of today the start, the flags and what has ended.
    fn today(&mut self) {
        let day = day_of(self.history.time);
        let ended = ended(self.history.time, day);
        let (stored, kept) = (self.outstation.day(&calendar::write_date(day)), self.history.day(day));
        assert_eq!((stored.start, stored.flags), (kept.start, kept.flags));
        assert_eq!(stored.values[..ended], kept.values[..ended]);
        for (stored, kept) in [(stored.reverse, kept.reverse), (stored.level2, kept.level2)] {
            assert_eq!(stored % (1 << ended), kept >> (HALF_HOURS - ended));
        }
    }

    /// A read of one more than the complete days sends today and all of them.
    fn read(&mut self) {
        let block = self.outstation.read(self.class().complete_days() as u32 + 1);
        assert_eq!(block[5..17], self.history.identifier);
        let sent = block::read(&block).unwrap().days;
        let complete = self.complete_days();
        assert_eq!(sent.len(), complete.len() + 1);
        assert_eq!(sent[0], self.history.today_filled());
        let dates = [day_of(self.history.time)].into_iter().chain(complete.iter().copied());
        for (day, record) in dates.zip(0..) {
            assert_eq!(block[block::bytes_for(record)..][..6], *calendar::write_date(day).as_bytes());
        }
        for (day, sent) in complete.iter().zip(&sent[1..]) {
            assert_eq!(sent, self.history.day(*day));
        }
    }
}

/// Some switching time, used or not, has a rate above four.
fn names_above_four(table: &[u8]) -> bool {
    table.chunks(5).any(|slot| slot[0] == 1 && slot[4] > 4)
}

/// Where an adjustment leads, second by second: a step back from a boundary would leave the half-hour.
pub fn walked(time: u64, seconds: i64) -> Result<u64, u32> {
    if !(-900..=900).contains(&seconds) {
        return Err(OUT_OF_RANGE);
    }
    let mut now = time;
    for _ in 0..seconds.abs() {
        if seconds > 0 {
            now += 1;
        } else if now % SECONDS_PER_HALF_HOUR == 0 {
            return Err(HALF_HOUR_ENDED);
        } else {
            now -= 1;
        }
    }
    if now > calendar::LAST_TIME {
        return Err(WRONG_TIME);
    }
    Ok(now)
}

/// Seconds of an adjustment: any, few or none, and about the ends of the running half-hour and of the range.
fn any_shift(time: u64, random: &mut Random) -> i64 {
    let passed = (time % SECONDS_PER_HALF_HOUR) as i64;
    let any = random.below(1_811) as i64 - 905;
    let beside = random.below(3) as i64 - 1;
    *random.pick(&[any, any, any, any / 90, beside - passed, 1_800 - passed + beside, 900 + beside, beside - 900])
}

/// A time later by anything from nothing to a little more than the class's days; now and then an earlier one.
fn later(watched: &Watched, random: &mut Random) -> u64 {
    let now = watched.history.time;
    let held = watched.class().days() as u64;
    let passed = match random.below(12) {
        0 => 0,
        1 => SECONDS_PER_HALF_HOUR - now % SECONDS_PER_HALF_HOUR,
        2 | 3 => SECONDS_PER_DAY - now % SECONDS_PER_DAY,
        4 => random.between(held - 2, held + 1) * SECONDS_PER_DAY,
        5 => random.below(held / 2) * SECONDS_PER_DAY + random.below(SECONDS_PER_DAY),
        6 => return now.saturating_sub(random.between(1, SECONDS_PER_DAY)),
        _ => random.below(SECONDS_PER_DAY),
    };
    now + passed
}

/// Three letters or digits; now and then one of any bytes among them.
pub fn any_ppp(random: &mut Random) -> Ppp {
    let mut ppp = [0; 3].map(|_: u8| *random.pick(b"azAZ09mQ5"));
    if random.once_in(4) {
        ppp[random.below(3) as usize] = random.bits() as u8;
    }
    ppp
}

/// Anything that may happen, what is refused among it.
pub fn any_event(watched: &Watched, random: &mut Random) -> Event<'static> {
    let recorder = &watched.outstation.recorder;
    let left = lives::pulses_left(recorder);
    match random.below(20) {
        0..=4 => Event::Count(recorder.last.wrapping_add(random.below(left + left / 8 + 2) as u32)),
        5..=8 => Event::Clock(later(watched, random)),
        9 => Event::Off,
        10 | 11 => Event::On(later(watched, random)),
        12 => Event::Access,
        13 => Event::Reverse,
        14 => Event::Meter(random.bits() as u32),
        15 => Event::Ppp(any_ppp(random)),
        16..=18 => Event::Adjust(any_shift(recorder.time, random)),
        _ if random.once_in(2) => Event::Reset,
        _ if random.once_in(6) => Event::Single,
        _ => Event::Rate(random.below(RATES as u64 + 2) as u32),
    }
}

#[test]
fn every_complete_day_is_there_and_is_read() {
    for (class, seed) in Class::ALL.into_iter().zip(1..) {
        let mut random = Random::new(seed);
        for _ in 0..5 {
            let mut watched = Watched::begin(class, &mut random);
            while watched.history.days.len() <= 2 * class.days() {
                let event = any_event(&watched, &mut random);
                watched.event(event);
            }
        }
    }
}
