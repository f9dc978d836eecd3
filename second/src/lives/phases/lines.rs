//! Lines that are nearly a conversion or a set-up with a phase letter, each in a life in which nothing has changed behind
//! it.

use super::{begin, Made, MADE};
use crate::lives::{Life, Script, IDENTIFIER};

/// Lines that are not understood.
fn not_understood() -> Vec<&'static str> {
    let lines = "single 1\n\
        single 0\n\
        single s\n\
        single p\n\
        single single\n\
        single \n\
        single  \n\
        single\t\n\
        single\r\n\
        \tsingle\n\
        -single\n\
        @single\n\
        single-\n\
        single1\n\
        Single\n\
        SINGLE\n\
        singles\n\
        singl\n\
        s\n\
        p\n\
        poly\n\
        phase\n\
        phase s\n\
        phase 1\n\
        convert\n\
        poke phase\n\
        poke phase 1\n\
        poke phase 3\n\
        poke phase s\n\
        poke phase 1 1\n\
        poke single 1\n\
        given phase 1\n\
        show phase\n\
        load single\n\
        rate single";
    lines.split('\n').collect()
}

/// Words that are no phase letter, a missing one among them.
const WORDS: [&str; 26] = [
    "",
    " ",
    "S",
    "P",
    "ss",
    "pp",
    "sp",
    "ps",
    "s s",
    "p p",
    "s p",
    "sS",
    "s ",
    " p",
    "1",
    "3",
    "0",
    "single",
    "poly",
    "single phase",
    "s1",
    "-s",
    "@p",
    "s\t",
    "p\r",
    "\u{17f}",
];

fn set_up(class: &str, phase: &[u8]) -> Vec<u8> {
    [format!("setup {IDENTIFIER} {class} ").as_bytes(), phase, b" 1000 240229 110000 0 0"].concat()
}

/// Behind each line the recorder is shown; at last a conversion follows.
pub fn forms(seed: u64) -> Script {
    let mut life = Life::new(seed);
    for made in MADE {
        begin(&mut life, made);
        life.say_all(&["rate 5", "count 7"]);
        for line in not_understood() {
            life.say_all(&[line, "show"]);
        }
        for word in WORDS {
            life.say(set_up("a", word.as_bytes()));
            life.say("show");
        }
        life.say(format!("setup {IDENTIFIER} a 1000 240229 110000 0 0"));
        life.say(format!("setup {IDENTIFIER} s 1000 240229 110000 0 0"));
        life.say(format!("setup {IDENTIFIER} s a 1000 240229 110000 0 0"));
        life.say(format!("setup s {IDENTIFIER} a 1000 240229 110000 0 0"));
        life.say(format!("setup {IDENTIFIER} a 1000 s 240229 110000 0 0"));
        life.say(format!("setup {IDENTIFIER} a 1000 240229 110000 0 0 s"));
        life.say_all(&["show", "single", "show"]);
    }
    letters(&mut life);
    life.finish("lines that are nearly about phases")
}

/// Every byte as phase letter, alone and doubled; and classes that are none beside right ones.
fn letters(life: &mut Life) {
    begin(life, Made::Poly);
    for byte in 0..=u8::MAX {
        if byte != b'\n' {
            life.say(set_up("a", &[byte]));
            life.say(set_up("b", &[byte, byte]));
            life.say("show");
        }
    }
    for class in ["a", "b", "c", "d", "e", "p", "s", "z", "A", "S", "P", "1", "ab", ""] {
        for phase in ["s", "p", "S", "x", "a"] {
            life.say(set_up(class, phase.as_bytes()));
            life.say_all(&["show", "rate 4", "rate 5"]);
        }
    }
}
