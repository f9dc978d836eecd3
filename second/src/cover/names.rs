//! The characters of an identifier at the edges of their ranges, at each place and by each call that judges one, and the
//! places at which a ledger and a block may differ: whether each was met with its answer.

use crate::answer::*;
use crate::block::{AT_IDENTIFIER, AT_TIME};
use crate::identifier::{self, Identifier, LENGTH, PPP_LENGTH};
use crate::lives::{EDGES, IDENTIFIER};
use crate::recorder::Recorder;
use crate::script::Player;
use std::collections::BTreeSet;

/// What judged an identifier, the place and the character there, and how it was answered.
type Side = (&'static str, usize, u8, u32);

const SET_UP: &str = "a set-up";
const EVENT: &str = "an event of a recorder";
const READ: &str = "a read of a recorder";
const READER: &str = "a block that is checked";
const WRITER: &str = "a block that is written";
const LEDGER: &str = "a ledger";
const OPENING: &str = "an opening";
const PPP: &str = "the event that sets PPP";

/// Each judge and what it refuses a wrong character with.
const JUDGES: [(&str, u32); 7] = [
    (SET_UP, OUT_OF_RANGE),
    (EVENT, DAMAGED),
    (READ, DAMAGED),
    (READER, WRONG_FIELD),
    (WRITER, DAMAGED),
    (LEDGER, DAMAGED),
    (OPENING, OUT_OF_RANGE),
];

fn example() -> Identifier {
    IDENTIFIER.as_bytes().try_into().unwrap_or_default()
}

/// Every side that is to be met: each edge at each place, which is taken or refused.
fn all() -> BTreeSet<Side> {
    let mut sides = BTreeSet::new();
    for place in 0..LENGTH {
        for edge in EDGES {
            let mut tried = example();
            tried[place] = edge;
            let answer = |refusal| if identifier::is_right(&tried) { DONE } else { refusal };
            sides.extend(JUDGES.map(|(judge, refusal)| (judge, place, edge, answer(refusal))));
            if place < PPP_LENGTH {
                sides.insert((PPP, place, edge, answer(OUT_OF_RANGE)));
            }
        }
    }
    sides
}

/// Each place at which a block's identifier is another than the ledger's, and how that is filed.
fn all_filed() -> BTreeSet<(usize, u32)> {
    (0..LENGTH).map(|place| (place, if place < PPP_LENGTH { DONE } else { OTHER_METER })).collect()
}

#[derive(Default)]
pub struct Names {
    met: BTreeSet<Side>,
    filed: BTreeSet<(usize, u32)>,
}

impl Names {
    /// A line, as it was answered, between the recorder before it and all that is there after it.
    pub fn add(&mut self, before: &Recorder, line: &[u8], answer: &str, player: &Player) {
        let Some(number) = answer.split(' ').next().and_then(|number| number.parse().ok()) else { return };
        let words: Vec<&[u8]> = line.split(|&byte| byte == b' ').collect();
        let in_block = player.block.get(AT_IDENTIFIER..AT_TIME).unwrap_or_default();
        let in_ledger = player.ledger.get(..LENGTH).unwrap_or_default();
        match words[..] {
            [b"setup", identifier, ..] => self.meet(SET_UP, identifier, number),
            [b"access"] => self.meet(EVENT, &before.identifier, number),
            [b"read", _] => self.meet(READ, &before.identifier, number),
            [b"check"] if number == DONE || answer == format!("{WRONG_FIELD} {AT_IDENTIFIER}") => {
                self.meet(READER, in_block, number);
            }
            [b"write", _] => self.meet(WRITER, &player.given.identifier, number),
            [b"missing", _] => self.meet(LEDGER, in_ledger, number),
            [b"open", identifier, ..] => self.meet(OPENING, identifier, number),
            [b"ppp", ppp] => self.meet_ppp(ppp, number),
            [b"file"] => self.file(in_block, in_ledger, number),
            _ => {}
        }
    }

    /// An identifier that is the example's but for the place.
    fn meet(&mut self, judge: &'static str, identifier: &[u8], number: u32) {
        for (place, &character) in identifier.iter().enumerate() {
            let mut other = example();
            if let Some(own) = other.get_mut(place) {
                *own = character;
            }
            if other == identifier {
                self.met.insert((judge, place, character, number));
            }
        }
    }

    /// The characters beside the place are right ones.
    fn meet_ppp(&mut self, ppp: &[u8], number: u32) {
        for (place, &character) in ppp.iter().enumerate() {
            let beside = ppp.iter().enumerate().filter(|&(other, _)| other != place);
            if beside.into_iter().all(|(_, character)| character.is_ascii_alphanumeric()) {
                self.met.insert((PPP, place, character, number));
            }
        }
    }

    fn file(&mut self, block: &[u8], ledger: &[u8], number: u32) {
        let differs = |&place: &usize| block.get(place) != ledger.get(place);
        let places: Vec<usize> = (0..LENGTH).filter(differs).collect();
        if let [place] = places[..] {
            self.filed.insert((place, number));
        }
    }

    /// Prints how many of each were met, and those that weren't; true where all were.
    pub fn told(&self) -> bool {
        let (all, all_filed) = (all(), all_filed());
        let missing: Vec<&Side> = all.difference(&self.met).collect();
        println!("edges of an identifier's characters met: {} of {}", all.len() - missing.len(), all.len());
        for (judge, place, character, answer) in &missing {
            println!("MISSING {judge}: place {place}, {}, answered {answer}", char::from(*character));
        }
        let missing_filed: Vec<&(usize, u32)> = all_filed.difference(&self.filed).collect();
        let filed = all_filed.len() - missing_filed.len();
        println!("places at which a block filed differed from its ledger: {filed} of {}", all_filed.len());
        for (place, answer) in &missing_filed {
            println!("MISSING a block filed that differs at place {place}, answered {answer}");
        }
        missing.is_empty() && missing_filed.is_empty()
    }
}
