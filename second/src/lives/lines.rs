//! Lines that can't be understood among lines that can, and scripts about the
//! longest that is played.

use super::{Life, Script, IDENTIFIER, MOST_32_BITS};
use crate::block::{self, DEMAND_RESET, HEADER_BYTES, MOST_BYTES, RATES, VERSION};
use crate::calendar::{write_digits, HALF_HOURS};
use crate::identifier;
use crate::ledger;
use crate::quantities::VALUE_MODULUS;
use crate::recorder::{Class, StoreLength};
use crate::script::{KEPT_BLOCKS, LONGEST_STORE, MOST_DIGITS, MOST_NUMBER, MOST_SCRIPT_BYTES};

/// Lines that are understood, many with a number at its limit.
fn well_formed() -> Vec<String> {
    let StoreLength { values, starts, marks } = Class::A.store_length();
    let two_days = block::bytes_for(2);
    let after_length = HEADER_BYTES - block::LENGTH_BYTES;
    let (last_kept, last_letter) = (KEPT_BLOCKS - 1, identifier::LENGTH - 1);
    let (last_day, last_half_hour) = (block::MOST_DAYS - 1, HALF_HOURS - 1);
    let (most_value, longest_window) = (VALUE_MODULUS - 1, ledger::MOST_DAYS);
    split(format!(
        "setup {IDENTIFIER} a p 10000 240229 110000 0 0\n\
         setup {IDENTIFIER} b s 10000 @762000000 5000 {MOST_32_BITS}\n\
         count 5\n\
         clock 240229 120000\n\
         clock @762000000\n\
         off\n\
         on 240301 000000\n\
         on @{MOST_NUMBER}\n\
         access\n\
         meter {MOST_32_BITS}\n\
         reset\n\
         rate 3\n\
         reverse\n\
         ppp Z9z\n\
         ppp a-c\n\
         adjust 7\n\
         adjust -{MOST_32_BITS}\n\
         single\n\
         read 2\n\
         read 2 {two_days}\n\
         read 0 {MOST_BYTES}\n\
         day 240229\n\
         day @8825\n\
         show\n\
         block\n\
         hex {after_length:08X}{VERSION:02X}\n\
         hex 00abCDef\n\
         byte 0 255\n\
         cut {HEADER_BYTES}\n\
         cut 0\n\
         check\n\
         keep 0\n\
         keep {last_kept}\n\
         take {last_kept}\n\
         listing\n\
         fields\n\
         given time {MOST_NUMBER}\n\
         given kwh 5\n\
         given letter {last_letter} 65\n\
         given register {RATES} 5\n\
         given start {last_day} 5\n\
         given flags 0 {DEMAND_RESET}\n\
         given reversed 1 1\n\
         given level2 1 1\n\
         given value {last_day} {last_half_hour} {most_value}\n\
         write {HEADER_BYTES}\n\
         open {IDENTIFIER} 240229 3\n\
         open {IDENTIFIER} @0 {longest_window}\n\
         file\n\
         deliver {last_kept}\n\
         summary 240229\n\
         missing @8825\n\
         ledger\n\
         lend\n\
         lend {values} {starts} {marks}"
    ))
}

/// Lines that are not, many with a number past its limit.
fn not_understood() -> Vec<String> {
    let past_32_bits = MOST_32_BITS + 1;
    let past_most = MOST_NUMBER + 1;
    let padded_one = write_digits(1, MOST_DIGITS + 1);
    let past_block = MOST_BYTES + 1;
    let (past_rates, past_classes) = (RATES + 1, Class::ALL.len() + 1);
    let letters = identifier::LENGTH;
    split(format!(
        "count\n\
         count x\n\
         count -1\n\
         count +1\n\
         count {past_32_bits}\n\
         count 1 2\n\
         count {past_most}\n\
         count {padded_one}\n\
         count 1.0\n\
         count 0x1\n\
         Count 1\n\
         COUNT 1\n\
         counts 1\n\
         clock\n\
         clock 240229\n\
         clock 240230 000000\n\
         clock 230229 000000\n\
         clock 240229 240000\n\
         clock 240229 236000\n\
         clock 240229 235960\n\
         clock 2402290 00000\n\
         clock 240229 00000\n\
         clock @\n\
         clock @x\n\
         clock @-1\n\
         clock @1 000000\n\
         clock @{past_most}\n\
         clock 240229000000\n\
         clock @@1\n\
         off 1\n\
         off off\n\
         on\n\
         on 240229\n\
         access 1\n\
         meter\n\
         meter {past_32_bits}\n\
         reset 0\n\
         rate\n\
         rate x\n\
         rate {past_32_bits}\n\
         reverse 1\n\
         read\n\
         read x\n\
         read {past_32_bits}\n\
         read 1 {past_block}\n\
         read 1 2 3\n\
         read -1\n\
         day\n\
         day 230229\n\
         day 240229 000000\n\
         day @\n\
         show 1\n\
         block 1\n\
         hex\n\
         hex 0\n\
         hex 000\n\
         hex 0g\n\
         hex 00 00\n\
         byte 0\n\
         byte {MOST_BYTES} 0\n\
         byte 0 256\n\
         byte x 0\n\
         cut\n\
         cut x\n\
         cut {past_block}\n\
         check 1\n\
         keep\n\
         keep {KEPT_BLOCKS}\n\
         take {KEPT_BLOCKS}\n\
         keep x\n\
         deliver {KEPT_BLOCKS}\n\
         deliver\n\
         write\n\
         write {past_block}\n\
         open {IDENTIFIER} 240229\n\
         open ABCX2400001 240229 1\n\
         open {IDENTIFIER} 230229 1\n\
         given\n\
         given nothing 1\n\
         given value 0 1\n\
         given value 0 {HALF_HOURS} 1\n\
         given register 0 5\n\
         given register {past_rates} 5\n\
         given letter {letters} 65\n\
         poke\n\
         poke nothing 1\n\
         poke class {past_classes}"
    ))
}

/// More of them, about a recorder of class a and its store.
fn not_understood_either() -> Vec<String> {
    let StoreLength { values, starts, marks } = Class::A.store_length();
    let (past_values, past_starts, past_marks) =
        (LONGEST_STORE.values + 1, LONGEST_STORE.starts + 1, LONGEST_STORE.marks + 1);
    let (longest_ledger, past_ledger) = (ledger::MOST_BYTES, ledger::MOST_BYTES + 1);
    let past_32_bits = MOST_32_BITS + 1;
    let past_most = MOST_NUMBER + 1;
    let (letters, past_rates, given_days) = (identifier::LENGTH, RATES + 1, block::MOST_DAYS);
    split(format!(
        "lend 1\n\
         lend 1 2\n\
         lend {past_values} 0 0\n\
         lend 0 {past_starts} 0\n\
         lend 0 0 {past_marks}\n\
         lend x 0 0\n\
         lend ledger\n\
         lend ledger {past_ledger}\n\
         lend ledger x\n\
         lend ledger 1 2\n\
         poke ledger {longest_ledger} 0\n\
         poke letter {letters} 65\n\
         poke register 0 1\n\
         poke register {past_rates} 1\n\
         poke register 1 0.5\n\
         poke register 1 {past_most}\n\
         poke weight 1.25\n\
         poke weight {past_32_bits}\n\
         poke total 0.5\n\
         poke total {past_most}\n\
         poke value {values} 1\n\
         poke value 0 65536\n\
         poke start 0 {past_32_bits}\n\
         poke start {starts} 1\n\
         poke mark {marks} 1\n\
         poke mark 0 {past_most}\n\
         setup\n\
         setup {IDENTIFIER}\n\
         setup {IDENTIFIER} a 10000 240229 110000 0 0\n\
         setup {IDENTIFIER} a p 10000 240229 110000 0\n\
         setup {IDENTIFIER} a p 10000 240229 110000 0 0 0\n\
         setup {IDENTIFIER} a p 10000 230229 110000 0 0\n\
         setup {IDENTIFIER} a p 10000 240229 110000 0 {past_32_bits}\n\
         setup ABCX2400001 a p 10000 @0 0 0\n\
         setup {IDENTIFIER} a p x @0 0 0\n\
         setup {IDENTIFIER} a p 1.25 @0 0 0\n\
         setup {IDENTIFIER} a p 1,250 @0 0 0\n\
         setup {IDENTIFIER} a p {past_32_bits} @0 0 0\n\
         setup {IDENTIFIER} a p 10000 @0 0.5 0\n\
         setup {IDENTIFIER} a p 10000 @0 {past_most} 0\n\
         setup {IDENTIFIER} a p 10000 @0 x 0\n\
         ?\n\
         ? 1\n\
         help\n\
         quit\n\
         @\n\
         0\n\
         0 0\n\
         summary\n\
         summary 230229\n\
         missing\n\
         missing x\n\
         ledger 1\n\
         file 1\n\
         listing 1\n\
         fields 1\n\
         \t\n\
         show\t\n\
         show\r\n\
         \r\n\
         -\n\
         given time\n\
         given time {past_most}\n\
         given value 0 0 65536\n\
         given start {given_days} 0\n\
         given letter 0 256\n\
         byte {past_32_bits} 0\n\
         byte 18446744073709551616 0"
    ))
}

pub fn split(text: String) -> Vec<String> {
    text.split('\n').map(str::to_string).collect()
}

/// Well-formed lines, lines that are none, and well-formed lines garbled.
pub fn garbled(seed: u64) -> Script {
    let mut life = Life::new(seed);
    let well_formed = well_formed();
    life.say("# a life of misprints");
    life.say("");
    life.lived(Class::A, 1);
    for _ in 0..3 {
        for line in well_formed.iter().chain(&not_understood()) {
            life.say(line);
        }
        life.say_all(&["lend", "show", "setup ABCX24000017 a p 10000 240229 110000 0 0", "read 1"]);
        for line in not_understood_either() {
            life.say(line);
        }
        life.say("show");
    }
    odd_bytes(&mut life);
    life.say_all(&[
        "setup ABCX24000017 a p 10000 240229 110000 0 0",
        &format!("count {}", write_digits(7, MOST_DIGITS)),
        &format!("count {}", write_digits(8, MOST_DIGITS + 1)),
        &format!("rate {}", write_digits(2, MOST_DIGITS)),
        "show",
    ]);
    for _ in 0..1_500 {
        let line = life.random.pick(&well_formed).as_bytes().to_vec();
        let line = garble(&mut life, line);
        life.say(line);
        if life.random.once_in(20) {
            life.say_all(&["lend", "show", "block"]);
        }
    }
    life.finish("garbled lines")
}

/// Bytes that are no printed character, and PPPs of three bytes, of fewer and of more.
fn odd_bytes(life: &mut Life) {
    life.say(b"setup \xff\xfe\x80\x00\x01\x7f\xc3\xa9ABCD a p 10000 240229 110000 0 0");
    life.say(b"open \xff\xfe\x80\x00\x01\x7f\xc3\xa9ABCD 240229 2");
    life.say(b"\xff\xfe");
    life.say(b"count \xd9\xa1");
    life.say(b"show\x00");
    life.say(format!("setup {IDENTIFIER} a p 10000 240229 110000 0 0"));
    life.say(b"ppp \xff\xfe\x80");
    life.say(b"ppp ab\xc3\xa9");
    for line in ["ppp", "ppp ", "ppp a", "ppp ab", "ppp abcd", "ppp a b c", "ppp abc d", "ppp  ab", "ppp abc "] {
        life.say(line);
    }
    life.say_all(&[
        "ppp ab\t",
        "ppp abc\t",
        "ppp ab\r",
        "ppp abc\r",
        "ppp\tabc",
        "Ppp abc",
        "PPP ABC",
        "pppabc",
        "show",
    ]);
}

/// One slip of the pen.
pub fn garble(life: &mut Life, mut line: Vec<u8>) -> Vec<u8> {
    let at = life.random.below(line.len() as u64) as usize;
    match life.random.below(7) {
        0 => line.extend(b" x"),
        1 => line.extend(b" "),
        2 => line.insert(0, b' '),
        3 => {
            let space = line.iter().position(|&byte| byte == b' ').unwrap_or(0);
            line.insert(space, b' ');
        }
        4 => line.truncate(line.iter().rposition(|&byte| byte == b' ').unwrap_or(at)),
        5 => {
            if let Some(byte) = line.get_mut(at).filter(|byte| !byte.is_ascii_alphabetic()) {
                *byte = b'!';
            }
        }
        _ => line.insert(0, b'#'),
    }
    line
}

/// A script of exactly the most bytes, one without a last newline, and one byte too many.
pub fn longest() -> Vec<Script> {
    let begin = b"setup ABCX24000017 a p 10000 240229 110000 0 0\ncount 7\nshow\n#".to_vec();
    let end = b"\nread 0\nshow";
    let mut scripts = Vec::new();
    for (name, length) in [("longest", MOST_SCRIPT_BYTES), ("too long", MOST_SCRIPT_BYTES + 1)] {
        let mut text = begin.clone();
        text.resize(length - end.len(), b'x');
        text.extend(end);
        scripts.push(Script { name: name.to_string(), text });
    }
    scripts.push(Script { name: "empty".to_string(), text: Vec::new() });
    scripts.push(Script { name: "one newline".to_string(), text: b"\n".to_vec() });
    scripts
}
