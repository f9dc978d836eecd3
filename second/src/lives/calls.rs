//! Hostile calls: wrong power, bad times, adjustments, rates, PPPs and asks, lengths lent wrong, outputs too short, and calls of all
//! kinds by chance.

use super::hostile::{asked_too_many, every_call, rate_too_many, wrong_lengths};
use super::{plain_events, Life, Script, MOST_32_BITS};
use crate::block::{bytes_for, AT_TIME, DAY_BYTES, FRAME_BYTES, HEADER_BYTES, LENGTH_BYTES, MOST_BYTES, RATES};
use crate::calendar::{LAST_TIME, SECONDS_PER_DAY};
use crate::quantities::READING_MODULUS;
use crate::recorder::{Class, MOST_ASKED, MOST_SHIFT};
use crate::script::MOST_NUMBER;

/// Calls with wrong power, wrong times, wrong lengths and short outputs.
pub fn calls(seed: u64) -> Script {
    let mut life = Life::new(seed);
    for class in Class::ALL {
        life.lived(class, 3);
        for lent in wrong_lengths(class.store_length()) {
            life.lend(lent);
            every_call(&mut life);
            life.say("show");
            let today = life.today();
            life.day(today);
            // 5 stands behind 4, and 4 before all others.
            life.say(format!("poke {}", rate_too_many()));
            every_call(&mut life);
            life.say("poke rate 1");
            life.say("poke class 0");
            every_call(&mut life);
            life.day(today);
            life.say(format!("poke class {}", class as usize + 1));
        }
        life.say("lend");
        life.say("show");
        power(&mut life);
        times(&mut life);
        life.lived(class, 3);
        outputs(&mut life);
    }
    // Random calls one after the other, with a table to load among them.
    life.say_all(&["at 1 0000 3", "at 1 0815 5", "at 1 1700 8", "default 1"]);
    for _ in 0..40 {
        let days = life.random.below(3);
        life.lived(Class::A, days);
        for _ in 0..30 {
            random_call(&mut life);
        }
        life.say("show");
    }
    life.finish("hostile calls")
}

/// On while on, everything else while off, alone and with a later fault beside it.
fn power(life: &mut Life) {
    life.say("on @0");
    let now = life.time();
    life.say(format!("on @{now}"));
    life.say(format!("on @{}", LAST_TIME + 1));
    life.say("off");
    for event in plain_events(now, 5) {
        if !event.starts_with("on") {
            life.say(event);
        }
    }
    life.say_all(&[&rate_too_many(), "rate 0", "ppp a-c", &asked_too_many(), "read 1", "read 0 0", "clock @0"]);
    life.say_all(&[&format!("clock @{MOST_NUMBER}"), "count 4000000000", "show"]);
    for seconds in [-MOST_SHIFT - 1, -MOST_SHIFT, -1, MOST_SHIFT, MOST_SHIFT + 1] {
        life.adjust(seconds);
    }
    life.say(format!("on @{}", now - 1));
    life.say(format!("on @{}", LAST_TIME + 1));
    life.say("show");
    life.say(format!("on @{now}"));
    let today = life.today();
    life.day(today);
    life.say_all(&["show", "read 2", "block"]);
}

fn times(life: &mut Life) {
    let now = life.time();
    let times = [
        0,
        1,
        now - SECONDS_PER_DAY,
        now - 1,
        LAST_TIME + 1,
        LAST_TIME + 2,
        MOST_32_BITS,
        MOST_32_BITS + 1,
        MOST_32_BITS + 1 + now,
        1 << 40,
        MOST_NUMBER,
        now,
        now + 1,
    ];
    for time in times {
        life.say(format!("clock @{time}"));
        life.say("show");
    }
    for time in times {
        life.say("off");
        life.say(format!("on @{time}"));
        life.say("show");
        let now = life.time();
        life.say(format!("on @{now}"));
    }
    for rate in (0..=RATES as u64 + 2).chain([255, 256, 257, MOST_32_BITS]) {
        life.say(format!("rate {rate}"));
        life.pulses(1);
        life.say("show");
    }
}

/// Reads with asks about the limits and outputs of every interesting length.
fn outputs(life: &mut Life) {
    let most = u64::from(MOST_ASKED);
    let few = [0, 1, 2, 3, 4, Class::A.days() as u64, Class::D.days() as u64];
    for asked in few.into_iter().chain(most - 1..=most + 2).chain([65_536, MOST_32_BITS]) {
        life.say(format!("read {asked}"));
        life.say("check");
    }
    for asked in [0, 1, 2, most, most + 1] {
        let needed = bytes_for(life.player.recorder.days.min(asked) as usize);
        let rooms = [0, 1, LENGTH_BYTES - 1, LENGTH_BYTES, FRAME_BYTES, AT_TIME]
            .into_iter()
            .chain(HEADER_BYTES - 1..=HEADER_BYTES + 1)
            .chain(bytes_for(1) - 1..=bytes_for(1) + 1)
            .chain([needed.saturating_sub(DAY_BYTES)])
            .chain(needed - 2..=needed + 1)
            .chain([needed + DAY_BYTES, MOST_BYTES - 1, MOST_BYTES]);
        for room in rooms {
            life.say(format!("read {asked} {room}"));
        }
        life.say_all(&["listing", "check"]);
    }
    // The days to be sent are judged after 6 and before 7.
    let room = life.player.recorder.class.map_or(0, |class| class.room(life.today()));
    life.say(format!("poke start {room} {READING_MODULUS}"));
    life.say_all(&[&asked_too_many(), "read 1 0", "read 1", &format!("read 0 {}", HEADER_BYTES - 1), "read 0"]);
    life.say(asked_too_many() + " 0");
    let now = life.time();
    life.clock(now + SECONDS_PER_DAY);
    life.say_all(&["read 1", "read 2", "read 1 5", "read 2 5", "listing"]);
}

fn random_call(life: &mut Life) {
    let now = life.time();
    let call = match life.random.below(23) {
        0 => "off".to_string(),
        1 | 2 => format!("on @{}", (now + life.random.below(9_000)).saturating_sub(life.random.below(4_000))),
        3 | 4 => format!("clock @{}", (now + life.random.below(9_000)).saturating_sub(life.random.below(4_000))),
        5 => format!("count {}", life.random.bits() as u32),
        6 => format!("count {}", life.player.recorder.last.wrapping_add(life.random.below(2_000) as u32)),
        7 => format!("rate {}", life.random.below(RATES as u64 + 3)),
        8 => "access".to_string(),
        9 => "reverse".to_string(),
        10 => "reset".to_string(),
        11 => format!("meter {}", life.random.bits() as u32),
        12 => format!("read {} {}", life.random.below(4), life.random.below(800)),
        13 => format!("read {}", life.random.below(u64::from(MOST_ASKED) + 101)),
        14 => "listing".to_string(),
        15 => format!("ppp {}", life.random_ppp()),
        16 => format!("ppp {}", life.random.pick(&["-bc", "a-c", "ab-", "@A[", "`a{", "/0:"])),
        17 => "load".to_string(),
        18 => format!("poke loaded {}", life.random.below(2)),
        19 | 20 => format!("adjust {}", life.random_shift()),
        21 => "single".to_string(),
        _ => "show".to_string(),
    };
    life.say(call);
}
