//! Inputs for the programs that print one text: the blocks that scripts list, the tables of which they draw weeks, and
//! inputs that no script can make.

use crate::block;
use crate::calendar::{self, LAST_DAY};
use crate::listing::{self, REFUSED};
use crate::script::{self, Player};
use crate::tariff;
use std::collections::{BTreeMap, BTreeSet};

/// Inputs of one kind that are handed to a program in a round.
const OF_A_KIND: usize = 25;

/// A program's longest input here.
const LONG: usize = 1_000_000;

/// Different inputs, so many of each kind.
#[derive(Default)]
struct Kinds {
    kinds: BTreeMap<String, BTreeSet<Vec<u8>>>,
}

impl Kinds {
    fn add(&mut self, kind: String, input: Vec<u8>) {
        let inputs = self.kinds.entry(kind).or_default();
        if inputs.len() < OF_A_KIND {
            inputs.insert(input);
        }
    }

    fn list(&self) -> Vec<Vec<u8>> {
        self.kinds.values().flatten().cloned().collect()
    }
}

/// What a text says, before anything else: its refusal, or that there is none.
fn refusal(text: &str) -> &str {
    text.strip_prefix(REFUSED).unwrap_or("accepted").trim_end()
}

fn is_refused(text: &str) -> bool {
    text.starts_with(REFUSED)
}

#[derive(Default)]
pub struct Inputs {
    blocks: Kinds,
    weeks: Kinds,
}

impl Inputs {
    pub fn collect(&mut self, text: &[u8]) {
        if text.len() > script::MOST_SCRIPT_BYTES {
            return;
        }
        let mut player = Player::new();
        for (line, number) in text.split(|&byte| byte == b'\n').zip(1..) {
            player.play_line(number, line);
            if line == b"listing" {
                self.add_block(&player.block);
            } else if let Some(day) = line.strip_prefix(b"week ") {
                self.add_week(day, &player.edited);
            }
        }
    }

    fn add_block(&mut self, block: &[u8]) {
        let records = block.len().saturating_sub(block::HEADER_BYTES) / block::DAY_BYTES;
        let text = listing::listing(block);
        self.blocks.add(format!("{} {records}", refusal(&text)), block.to_vec());
    }

    /// A day's word, where it names a day that has a date, and the table of which the week is drawn.
    fn add_week(&mut self, word: &[u8], table: &[u8]) {
        let day = word.strip_prefix(b"@").map_or_else(|| calendar::read_date(word), calendar::digits);
        let Some(day) = day.filter(|&day| day <= LAST_DAY) else { return };
        let input = week_input(&calendar::write_date(day), table);
        let text = tariff::week_of_input(&input);
        self.weeks.add(format!("{} {}", refusal(text.lines().next().unwrap_or_default()), text.lines().count()), input);
    }

    /// Blocks, with inputs that no script can make.
    pub fn blocks(&self) -> Vec<Vec<u8>> {
        let mut list = self.blocks.list();
        let mut listed: Vec<&Vec<u8>> = list.iter().filter(|block| !is_refused(&listing::listing(block))).collect();
        listed.sort_by_key(|block| block.len());
        let ends: Vec<&Vec<u8>> = listed.first().into_iter().chain(listed.last()).copied().collect();
        let followed: Vec<Vec<u8>> = ends.iter().map(|block| [block.as_slice(), b"\n"].concat()).collect();
        list.extend(followed);
        let lengths = [
            0,
            1,
            block::HEADER_BYTES - 1,
            block::HEADER_BYTES,
            listing::MOST_BYTES,
            listing::MOST_BYTES + 1,
            block::bytes_for(block::MOST_DAYS + 1),
            LONG,
        ];
        list.extend(lengths.map(|length| vec![0; length]));
        list
    }

    /// Days and tables, with inputs that no script can make.
    pub fn weeks(&self) -> Vec<Vec<u8>> {
        let mut list = self.weeks.list();
        let tables: Vec<Vec<u8>> = list
            .iter()
            .filter(|input| !is_refused(&tariff::week_of_input(input)))
            .filter_map(|input| input.get(calendar::DATE_DIGITS + 1..).map(<[u8]>::to_vec))
            .collect();
        let spread = tables.iter().step_by(tables.len() / 3 + 1);
        list.extend(spread.flat_map(|table| unlike_weeks(table)));
        list.extend([Vec::new(), b"\n".to_vec(), b"240226".to_vec(), b"240226\n".to_vec(), vec![0; LONG]]);
        list.push(week_input("240226", &[0; LONG]));
        list
    }
}

fn week_input(date: &str, table: &[u8]) -> Vec<u8> {
    [date.as_bytes(), b"\n", table].concat()
}

/// An accepted table behind dates of all kinds, cut, grown, and behind what is no date.
fn unlike_weeks(table: &[u8]) -> Vec<Vec<u8>> {
    let dates = [
        "000101", "000229", "010228", "240229", "991224", "991225", "991226", "991231", "230229", "000000", "240230",
        "241301", "240001", "240100", "240431", "24022x", "24022", "2402266", "0240226", " 240226", "240226 ",
        "240226\r", "@8822", "", "\n240226", "240226\n", "-40226", "+40226", "24 226", "24022\0",
    ];
    let mut inputs: Vec<Vec<u8>> = dates.iter().map(|date| week_input(date, table)).collect();
    for length in [0, 1, table.len() - 5, table.len() - 1] {
        inputs.push(week_input("240226", &table[..length]));
    }
    for more in [&b"\n"[..], b"\0", b"\0\0\0\0\0", table] {
        inputs.push(week_input("240226", &[table, more].concat()));
    }
    inputs.extend([table.to_vec(), [b"240226", table].concat(), [table, b"240226\n"].concat()]);
    inputs.push([b"\xb2\xb4\xb0\xb2\xb2\xb6\n", table].concat());
    inputs
}
