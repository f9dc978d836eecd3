//! Lives of both phase kinds: what can be chosen on each, and outstations in service that are made single phase.

pub mod chosen;
pub mod converted;
pub mod damaged;
pub mod lines;
pub mod states;

use super::tables::{default, switching_time};
use super::{Life, LATEST_START, UNIT_A_PULSE};
use crate::calendar::{MINUTES, SECONDS, SECONDS_PER_DAY};
use crate::recorder::{Class, Phase};
use crate::tariff::{Slot, SLOT_BYTES};

/// How an outstation has come to its phase kind.
#[derive(Clone, Copy, PartialEq, Eq)]
enum Made {
    Poly,
    Single,
    Converted,
}

const MADE: [Made; 3] = [Made::Poly, Made::Single, Made::Converted];

/// The minute of the day at which tables switch, and the seconds by which a life begins before it.
const SWITCHING: usize = 12 * MINUTES as usize + 10;
const BEFORE: u64 = 5 * SECONDS;

/// The place of the byte that names the rate from the switching on.
const LATER_RATE: usize = 3 * SLOT_BYTES - 1;

/// A table of every day with one rate until the switching and another one from then on.
fn switching(before: u8, after: u8) -> Vec<Slot> {
    vec![default(1), switching_time(1, 0, before), switching_time(1, SWITCHING, after)]
}

fn begin(life: &mut Life, made: Made) {
    let day = life.random.between(1, LATEST_START);
    let time = day * SECONDS_PER_DAY + SWITCHING as u64 * SECONDS - BEFORE;
    let phase = if made == Made::Single { Phase::Single } else { Phase::Poly };
    life.set_up_as(phase, Class::A, UNIT_A_PULSE, time, 0, 0);
    if made == Made::Converted {
        life.say_all(&["rate 6", "single"]);
    }
}

/// A table of rates that each phase kind has.
fn load(life: &mut Life) {
    life.edit(&switching(2, 3));
    life.say("load");
}
