//! The comparer: it makes scripts, plays them here and in the other program, and
//! compares the answers line by line, and the listings and the weeks drawn byte by byte.

mod inputs;

use crate::listing;
use crate::lives::{self, Script};
use crate::script::{self, Played};
use crate::tariff;
use inputs::Inputs;
use std::io::Write;
use std::process::{Command, Stdio};
use std::thread;

/// Of a long answer so many characters are shown, from a little before the difference on.
const SHOWN: usize = 200;

#[derive(Default)]
struct Tally {
    passed: u64,
    failed: u64,
}

impl Tally {
    /// Prints both counts; true where nothing failed.
    fn told(&self) -> bool {
        println!("{} passed, {} failed", self.passed, self.failed);
        self.failed == 0
    }
}

/// A program that reads one input and prints a text: its name, what it must print, and the command that runs it.
struct Program<'a> {
    name: &'static str,
    text: fn(&[u8]) -> String,
    command: &'a str,
}

impl Program<'_> {
    fn listing(command: &str) -> Program<'_> {
        Program { name: "listing", text: listing::listing, command }
    }

    fn week(command: &str) -> Program<'_> {
        Program { name: "week", text: tariff::week_of_input, command }
    }
}

/// Compares so many rounds; true where no difference was found.
pub fn compare(seed: u64, rounds: u64, replay: &str, list: &str, week: &str) -> bool {
    let mut tally = Tally::default();
    for round in 0..rounds {
        let scripts = lives::round(seed.wrapping_add(round));
        let mut inputs = Inputs::default();
        for (index, script) in scripts.iter().enumerate() {
            eprintln!("round {round}, script {index} of {}: {}", scripts.len(), script.name);
            let name = format!("second-{seed}-{round}-{index}");
            compare_script(script, &name, replay, &mut tally);
            inputs.collect(&script.text);
        }
        let name = format!("second-{seed}-{round}");
        compare_texts(&inputs.blocks(), &name, &Program::listing(list), &mut tally);
        compare_texts(&inputs.weeks(), &name, &Program::week(week), &mut tally);
    }
    tally.told()
}

/// Compares the listings of one round's blocks alone; true where no difference was found.
pub fn listings(seed: u64, list: &str) -> bool {
    compare_alone(seed, Inputs::blocks, &Program::listing(list))
}

/// Compares the weeks of one round's tables alone; true where no difference was found.
pub fn weeks(seed: u64, week: &str) -> bool {
    compare_alone(seed, Inputs::weeks, &Program::week(week))
}

fn compare_alone(seed: u64, list: fn(&Inputs) -> Vec<Vec<u8>>, program: &Program) -> bool {
    let mut tally = Tally::default();
    let mut inputs = Inputs::default();
    for script in &lives::round(seed) {
        inputs.collect(&script.text);
    }
    compare_texts(&list(&inputs), &format!("second-{seed}"), program, &mut tally);
    tally.told()
}

fn compare_texts(inputs: &[Vec<u8>], name: &str, program: &Program, tally: &mut Tally) {
    eprintln!("{name}: {} inputs of the {} program", inputs.len(), program.name);
    for (index, input) in inputs.iter().enumerate() {
        compare_text(input, &format!("{name}-{}-{index}", program.name), program, tally);
    }
}

/// Runs a command with an input; what it printed. A command that can't be run prints nothing.
fn run(command: &str, input: &[u8]) -> Vec<u8> {
    let spawned = Command::new("sh").arg("-c").arg(command).stdin(Stdio::piped()).stdout(Stdio::piped()).spawn();
    let mut child = match spawned {
        Ok(child) => child,
        Err(error) => {
            eprintln!("can't run {command}: {error}");
            return Vec::new();
        }
    };
    let stdin = child.stdin.take();
    let output = thread::scope(|scope| {
        scope.spawn(move || {
            // A program may stop reading: what it prints is compared all the same.
            stdin.map(|mut stdin| stdin.write_all(input));
        });
        child.wait_with_output()
    });
    match output {
        Ok(output) => output.stdout,
        Err(error) => {
            eprintln!("can't read from {command}: {error}");
            Vec::new()
        }
    }
}

/// The first difference between what must be printed and what was.
struct Difference {
    /// The script's line, from 1; 0 where it is none of them.
    line: usize,
    /// Lines of answers that are equal before it.
    equal: u64,
    expected: String,
    printed: String,
}

fn first_difference(expected: &[Played], printed: &[u8]) -> Result<u64, Difference> {
    let readable = |line: Option<&[u8]>| {
        line.map_or("(nothing more)".to_string(), |line| String::from_utf8_lossy(line).to_string())
    };
    let mut lines = printed.split_inclusive(|&byte| byte == b'\n');
    let mut equal = 0;
    for played in expected {
        for line in played.answer.split('\n') {
            let printed = lines.next();
            if printed.and_then(|printed| printed.strip_suffix(b"\n")) != Some(line.as_bytes()) {
                return Err(Difference {
                    line: played.line,
                    equal,
                    expected: line.to_string(),
                    printed: readable(printed),
                });
            }
            equal += 1;
        }
    }
    let line = expected.last().map_or(0, |played| played.line);
    match lines.next() {
        None => Ok(equal),
        more => Err(Difference { line, equal, expected: readable(None), printed: readable(more) }),
    }
}

fn compare_script(script: &Script, name: &str, replay: &str, tally: &mut Tally) {
    let expected = script::play(&script.text);
    match first_difference(&expected, &run(replay, &script.text)) {
        Ok(equal) => tally.passed += equal,
        Err(difference) => {
            tally.passed += difference.equal;
            tally.failed += 1;
            report(script, name, replay, &difference);
        }
    }
}

/// Prints a difference and writes the script, cut behind the line if that still shows it.
fn report(script: &Script, name: &str, replay: &str, difference: &Difference) {
    let lines: Vec<&[u8]> = script.text.split(|&byte| byte == b'\n').collect();
    let line = difference.line;
    let command = line.checked_sub(1).and_then(|index| lines.get(index)).copied().unwrap_or_default();
    let mut prefix = lines.get(..line).unwrap_or_default().join(&b'\n');
    prefix.push(b'\n');
    let still_shown = line > 0 && first_difference(&script::play(&prefix), &run(replay, &prefix)).is_err();
    let kept = if still_shown { &prefix } else { &script.text };
    let (expected, printed) =
        (shown(&difference.expected, &difference.printed), shown(&difference.printed, &difference.expected));
    println!("DIFFERENCE in {} ({name}), line {line}", script.name);
    println!("  command: {}", shown(&String::from_utf8_lossy(command), ""));
    println!("  second:  {expected}");
    println!("  replay:  {}", printed.trim_end_matches('\n'));
    save(&format!("{name}.difference.script"), kept);
}

fn save(file: &str, bytes: &[u8]) {
    match std::fs::write(file, bytes) {
        Ok(()) => println!("  written: {file}"),
        Err(error) => println!("  not written: {file}: {error}"),
    }
}

/// A text, cut about the first place where it differs from another if it is long.
fn shown(text: &str, other: &str) -> String {
    let same = text.chars().zip(other.chars()).take_while(|(one, two)| one == two).count();
    if text.chars().count() <= SHOWN {
        return text.to_string();
    }
    let from = if other.is_empty() { 0 } else { same.saturating_sub(SHOWN / 4) };
    let part: String = text.chars().skip(from).take(SHOWN).collect();
    format!("[from character {from}] {part}")
}

fn compare_text(input: &[u8], name: &str, program: &Program, tally: &mut Tally) {
    let expected = (program.text)(input);
    let printed = run(program.command, input);
    let lines = expected.lines().count() as u64;
    if printed == expected.as_bytes() {
        tally.passed += lines;
        return;
    }
    tally.failed += 1;
    println!("DIFFERENCE in a {} ({name}) of {} bytes", program.name, input.len());
    let printed = String::from_utf8_lossy(&printed).to_string();
    println!("  second:  {:?}", shown(&expected, &printed));
    println!("  printed: {:?}", shown(&printed, &expected));
    save(&format!("{name}.difference.input"), input);
}
