//! An interpreter of docs/REPLAY.md: it plays a script line by line and answers
//! each line with the text that the proved program must print.

mod editor;
mod fields;
mod words;

pub use editor::{LATEST_TIME, MOST_TABLE_BYTES};
use words::*;
pub use words::{MOST_DIGITS, MOST_NUMBER};

use crate::answer::{Answer, DONE};
use crate::block::{self, Day, Fields, Header};
use crate::identifier::Identifier;
use crate::ledger;
use crate::listing;
use crate::recorder::{self, Class, Event, Phase, Recorder, SetUp, Store, StoreLength, BLANK};
use crate::tariff::TABLE_BYTES;

/// Of a longer script nothing is played.
pub const MOST_SCRIPT_BYTES: usize = 2_000_000;
pub const KEPT_BLOCKS: usize = 32;
pub const LONGEST_STORE: StoreLength = Class::D.store_length();

/// All that a script works on.
pub struct Player {
    pub recorder: Recorder,
    values: Vec<u16>,
    starts: Vec<u32>,
    marks: Vec<u64>,
    pub lent: StoreLength,
    /// A `lend V S M` stands.
    lend_stands: bool,
    /// The table's room, with the byte more that can be lent, and how much of it is lent.
    room: Vec<u8>,
    pub room_lent: usize,
    /// The editor's table.
    pub edited: Vec<u8>,
    pub block: Vec<u8>,
    kept: Vec<Vec<u8>>,
    pub ledger: Vec<u8>,
    pub given: Header,
    given_days: Vec<Day>,
}

/// One script line's number from 1, and its answer: one line or more, without the last newline.
pub struct Played {
    pub line: usize,
    pub answer: String,
}

/// Plays a whole script.
pub fn play(script: &[u8]) -> Vec<Played> {
    if script.len() > MOST_SCRIPT_BYTES {
        return vec![Played { line: 0, answer: "? 0".to_string() }];
    }
    let mut player = Player::new();
    let mut played = Vec::new();
    for (text, line) in script.split(|&byte| byte == b'\n').zip(1..) {
        if let Some(answer) = player.play_line(line, text) {
            played.push(Played { line, answer });
        }
    }
    played
}

impl Player {
    pub fn new() -> Player {
        Player {
            recorder: BLANK,
            values: vec![0; LONGEST_STORE.values],
            starts: vec![0; LONGEST_STORE.starts],
            marks: vec![0; LONGEST_STORE.marks],
            lent: StoreLength::default(),
            lend_stands: false,
            room: vec![0; MOST_TABLE_BYTES],
            room_lent: TABLE_BYTES,
            edited: vec![0; TABLE_BYTES],
            block: Vec::new(),
            kept: vec![Vec::new(); KEPT_BLOCKS],
            ledger: Vec::new(),
            given: Header::default(),
            given_days: vec![Day::ZERO; block::MOST_DAYS],
        }
    }

    /// Plays one line; an empty line or a comment answers nothing.
    pub fn play_line(&mut self, line: usize, text: &[u8]) -> Option<String> {
        if text.is_empty() || text.starts_with(b"#") {
            return None;
        }
        let words: Vec<Word> = text.split(|&byte| byte == b' ').collect();
        Some(self.obey(&words).unwrap_or_else(|| format!("? {line}")))
    }

    /// The answer to a command, or nothing where it can't be understood; then nothing has changed.
    fn obey(&mut self, words: &[Word]) -> Option<String> {
        match words {
            [b"setup", rest @ ..] => self.set_up(rest),
            [b"read", n] => self.read(number_u32(n)?, block::MOST_BYTES),
            [b"read", n, room] => self.read(number_u32(n)?, number_up_to(room, block::MOST_BYTES)?),
            [b"day", d] => self.show_day(day(d)?),
            [b"show"] => Some(self.show()),
            [b"fields"] => self.fields(),
            [b"given", rest @ ..] => self.give(rest),
            [b"write", room] => self.write(number_up_to(room, block::MOST_BYTES)?),
            [b"lend", rest @ ..] => self.lend_lengths(rest),
            [b"poke", rest @ ..] => self.poke(rest),
            _ => match event(words) {
                Some(event) => self.step(event),
                None => self.obey_block(words).or_else(|| self.obey_ledger(words)).or_else(|| self.edit(words)),
            },
        }
    }

    /// A command about the current block and those kept.
    fn obey_block(&mut self, words: &[Word]) -> Option<String> {
        match words {
            [b"block"] => Some(print_hexadecimal(&self.block)),
            [b"hex", bytes] => self.hex(bytes),
            [b"byte", at, n] => {
                let n = number_u8(n)?;
                let at = number_below(at, self.block.len())?;
                *self.block.get_mut(at)? = n;
                print_done(0)
            }
            [b"cut", n] => {
                let n = number_up_to(n, block::MOST_BYTES)?;
                self.block.resize(n, 0);
                print_done(n)
            }
            [b"check"] => print(block::check(&self.block)),
            [b"keep", k] => {
                let kept = self.kept.get_mut(number_below(k, KEPT_BLOCKS)?)?;
                kept.clone_from(&self.block);
                print_done(kept.len())
            }
            [b"take", k] => {
                self.block.clone_from(self.kept.get(number_below(k, KEPT_BLOCKS)?)?);
                print_done(self.block.len())
            }
            [b"listing"] => Some(listing::listing(&self.block).trim_end().to_string()),
            _ => None,
        }
    }

    fn obey_ledger(&mut self, words: &[Word]) -> Option<String> {
        match words {
            [b"open", id, d, n] => self.open(&identifier(id)?, day(d)?, number_u32(n)?),
            [b"file"] => print(ledger::file(&mut self.ledger, &self.block)),
            [b"deliver", k] => {
                let kept = self.kept.get(number_below(k, KEPT_BLOCKS)?)?;
                print(ledger::file(&mut self.ledger, kept))
            }
            [b"summary", d] => {
                let s = ledger::summary(&self.ledger, day(d)?);
                let (answer, held) = (s.answer, u8::from(s.held));
                Some(format!("{answer} {held} {} {} {} {} {}", s.half_hours, s.start, s.sum, s.reverse, s.level2))
            }
            [b"missing", d] => {
                let m = ledger::missing(&self.ledger, day(d)?);
                Some(format!("{} {} {}", m.answer, m.first, m.count))
            }
            [b"ledger"] => Some(print_hexadecimal(&self.ledger)),
            _ => None,
        }
    }

    fn lend_lengths(&mut self, words: &[Word]) -> Option<String> {
        match words {
            [] => {
                self.lend_stands = false;
                self.lent = self.recorder.class.map(Class::store_length).unwrap_or_default();
                self.room_lent = TABLE_BYTES;
            }
            [b"table", n] => self.room_lent = number_up_to(n, MOST_TABLE_BYTES)?,
            [b"ledger", n] => {
                let n = number_up_to(n, ledger::MOST_BYTES)?;
                self.ledger.resize(n, 0);
            }
            [v, s, m] => {
                self.lent = StoreLength {
                    values: number_up_to(v, LONGEST_STORE.values)?,
                    starts: number_up_to(s, LONGEST_STORE.starts)?,
                    marks: number_up_to(m, LONGEST_STORE.marks)?,
                };
                self.lend_stands = true;
            }
            _ => return None,
        }
        print_done(0)
    }

    /// The recorder beside the store as it is lent.
    fn lend(&mut self) -> (&mut Recorder, Store<'_>) {
        let store = Store {
            values: self.values.get_mut(..self.lent.values).unwrap_or_default(),
            starts: self.starts.get_mut(..self.lent.starts).unwrap_or_default(),
            marks: self.marks.get_mut(..self.lent.marks).unwrap_or_default(),
            table: self.room.get_mut(..self.room_lent).unwrap_or_default(),
        };
        (&mut self.recorder, store)
    }

    /// The table's room as it is lent.
    pub fn room(&mut self) -> &[u8] {
        self.lend().1.table
    }

    fn set_up(&mut self, words: &[Word]) -> Option<String> {
        let [id, class_letter, phase_letter, weight, rest @ ..] = words else { return None };
        let (time, rest) = time(rest)?;
        let [total, counter] = rest else { return None };
        let given = SetUp {
            identifier: identifier(id)?,
            class: class(class_letter)?,
            phase: phase(phase_letter)?,
            weight: number_32_bits(weight)?,
            time,
            total: number(total)?,
            counter: number_u32(counter)?,
        };
        if !self.lend_stands {
            self.lent = given.class.map(Class::store_length).unwrap_or_default();
        }
        let (recorder, mut store) = self.lend();
        let answer;
        (*recorder, answer) = recorder::set_up(&given, &mut store);
        print(answer)
    }

    fn step(&mut self, event: Event) -> Option<String> {
        let (recorder, mut store) = self.lend();
        let answer;
        (*recorder, answer) = recorder.step(event, &mut store);
        print(answer)
    }

    fn read(&mut self, asked: u32, room: usize) -> Option<String> {
        let mut output = vec![0; room];
        let (recorder, store) = self.lend();
        let answer = recorder.read(asked, &store, &mut output);
        self.take_output(answer, output)
    }

    fn write(&mut self, room: usize) -> Option<String> {
        let days = usize::try_from(self.given.days).unwrap_or(usize::MAX);
        let days = self.given_days.get(..days).unwrap_or(&self.given_days);
        let mut output = vec![0; room];
        let answer = block::write(&self.given, days, &mut output);
        self.take_output(answer, output)
    }

    /// A written block becomes the current one.
    fn take_output(&mut self, answer: Answer, mut output: Vec<u8>) -> Option<String> {
        if answer.number == DONE {
            output.truncate(answer.carried as usize);
            self.block = output;
        }
        print(answer)
    }

    fn show_day(&mut self, day: u64) -> Option<String> {
        let room = self.recorder.class?.room(day);
        let (_, store) = self.lend();
        let day = store.day(room)?;
        let mut text = format!("{} {} {} {}", day.start, day.flags, day.reverse, day.level2);
        for value in day.values {
            text += &format!(" {value}");
        }
        Some(text)
    }

    fn show(&self) -> String {
        let r = &self.recorder;
        let mut numbers = vec![
            Class::ALL.iter().zip(1..).find(|(class, _)| Some(**class) == r.class).map_or(0, |(_, number)| number),
            r.weight,
            r.time,
            u64::from(r.power),
            r.days,
            r.total,
            u64::from(r.last),
            r.rate,
        ];
        numbers.extend(r.registers);
        numbers.extend([
            r.current,
            r.previous,
            r.cumulative,
            r.reset,
            r.resets,
            r.base,
            u64::from(r.reverse),
            u64::from(r.level2),
            u64::from(r.loaded),
            phases(r.phase),
        ]);
        numbers.iter().map(u64::to_string).collect::<Vec<String>>().join(" ")
    }

    fn hex(&mut self, word: Word) -> Option<String> {
        let bytes = hexadecimal(word).filter(|bytes| bytes.len() <= block::MOST_BYTES)?;
        self.block = bytes;
        print_done(self.block.len())
    }

    /// The current block's fields become the given ones, if the reader accepts it.
    fn fields(&mut self) -> Option<String> {
        match block::read(&self.block) {
            Err(refusal) => print(refusal),
            Ok(Fields { header, days }) => {
                self.given = header;
                for (place, day) in self.given_days.iter_mut().zip(&days) {
                    *place = *day;
                }
                print_done(days.len())
            }
        }
    }

    fn open(&mut self, identifier: &Identifier, first: u64, days: u32) -> Option<String> {
        let days = u64::from(days);
        let in_range = (1..=ledger::MOST_DAYS).contains(&days);
        let length = if in_range { ledger::bytes_for(days as usize) } else { 0 };
        self.ledger = vec![0; length];
        print(ledger::open(identifier, first, days, &mut self.ledger))
    }
}

/// How many phases `show` prints for a phase kind.
pub fn phases(phase: Phase) -> u64 {
    match phase {
        Phase::Single => 1,
        Phase::Poly => 3,
    }
}
