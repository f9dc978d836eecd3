//! The second program: the rules of docs/RULES.md written again, on their own, and a
//! comparer that plays scripts here and in the proved program.

#![deny(warnings)]

mod answer;
mod block;
mod calendar;
mod compare;
mod cover;
mod identifier;
mod ledger;
mod listing;
mod lives;
mod quantities;
mod random;
mod recorder;
mod script;
mod tariff;
#[cfg(test)]
mod tests;

use std::io::{self, Read, Write};
use std::path::Path;
use std::process::ExitCode;

const HELP: &str = "\
second play                                  plays the script on standard input and prints its answers
second list                                  lists the block on standard input
second week                                  draws a week of the table on standard input, behind its day and a newline
second make SEED DIR COUNT                   writes COUNT scripts of all kinds as DIR/NNN.script
second compare SEED ROUNDS REPLAY LISTING WEEK
                                             plays scripts here and by the command REPLAY, lists blocks here and by the
                                             command LISTING, draws weeks here and by the command WEEK, and prints
                                             where they differ
second listings SEED LISTING                 lists the blocks of one round here and by the command LISTING
second weeks SEED WEEK                       draws the weeks of one round here and by the command WEEK
second cover SEED                            prints how often each call gives each answer in one round
second --help                                prints this

SEED, ROUNDS and COUNT are whole numbers. REPLAY, LISTING and WEEK are run by sh. The exit status is 0 where all is well,
1 where a difference or a gap was found, 2 where the command was not understood.
";

fn main() -> ExitCode {
    let arguments: Vec<String> = std::env::args().skip(1).collect();
    let words: Vec<&str> = arguments.iter().map(String::as_str).collect();
    match command(&words) {
        Some(Ok(true)) => ExitCode::SUCCESS,
        Some(Ok(false)) => ExitCode::from(1),
        Some(Err(error)) => {
            eprintln!("second: {error}");
            ExitCode::from(1)
        }
        None => {
            eprint!("{HELP}");
            ExitCode::from(2)
        }
    }
}

/// Obeys the command line: whether all is well, or nothing where it is not understood.
fn command(words: &[&str]) -> Option<io::Result<bool>> {
    match words {
        ["play"] => Some(play()),
        ["list"] => Some(list()),
        ["week"] => Some(week()),
        ["make", seed, folder, count] => Some(make(seed.parse().ok()?, folder, count.parse().ok()?)),
        ["compare", seed, rounds, replay, listing, week] => {
            Some(Ok(compare::compare(seed.parse().ok()?, rounds.parse().ok()?, replay, listing, week)))
        }
        ["listings", seed, listing] => Some(Ok(compare::listings(seed.parse().ok()?, listing))),
        ["weeks", seed, week] => Some(Ok(compare::weeks(seed.parse().ok()?, week))),
        ["cover", seed] => Some(Ok(cover::cover(seed.parse().ok()?))),
        ["--help"] => Some(io::stdout().write_all(HELP.as_bytes()).map(|()| true)),
        _ => None,
    }
}

fn input() -> io::Result<Vec<u8>> {
    let mut bytes = Vec::new();
    io::stdin().read_to_end(&mut bytes)?;
    Ok(bytes)
}

fn play() -> io::Result<bool> {
    let mut output = io::BufWriter::new(io::stdout());
    for played in script::play(&input()?) {
        writeln!(output, "{}", played.answer)?;
    }
    output.flush()?;
    Ok(true)
}

fn list() -> io::Result<bool> {
    io::stdout().write_all(listing::listing(&input()?).as_bytes())?;
    Ok(true)
}

fn week() -> io::Result<bool> {
    io::stdout().write_all(tariff::week_of_input(&input()?).as_bytes())?;
    Ok(true)
}

fn make(seed: u64, folder: &str, count: usize) -> io::Result<bool> {
    std::fs::create_dir_all(folder)?;
    let mut written = 0;
    let mut round: u64 = 0;
    while written < count {
        for script in lives::round(seed.wrapping_add(round)).iter().take(count - written) {
            std::fs::write(Path::new(folder).join(format!("{written:03}.script")), &script.text)?;
            written += 1;
        }
        round += 1;
    }
    Ok(true)
}
