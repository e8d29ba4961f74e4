//! An independent program for the card of document 01: it plays sessions and trials, makes inputs from
//! a seed, and compares other programs with itself.

mod addresses;
mod bad_number;
mod bad_sector_inputs;
mod block_cover;
mod block_field_inputs;
mod block_selftest;
mod block_session_inputs;
mod block_table;
mod block_trial_inputs;
mod blocks;
mod broken_inputs;
mod card;
mod changed_mark_inputs;
mod commands;
mod compare;
mod cover;
mod cover_table;
mod field_inputs;
mod host;
mod identify;
mod inputs;
mod maps;
mod mutants;
mod names;
mod points;
mod registers;
mod rng;
mod run_cover;
mod run_selftest;
mod run_session_inputs;
mod run_trial_inputs;
mod runs;
mod selftest;
mod session_inputs;
mod session_player;
mod story;
mod stray;
mod trial_inputs;
mod trial_kinds;
mod trial_player;
mod tuple_inputs;
mod tuples;
mod well_made;

use std::io::{Read, Write};
use std::process::ExitCode;

const USAGE: &str = "usage: oracle play < SESSION
       oracle trial < TRIAL
       oracle gen SEED DIR
       oracle compare CARDRUN [TRIAL]
       oracle compare - TRIAL
       oracle coverage
       oracle mutants
       oracle selftest
ORACLE_SEED chooses other inputs than seed 1 for compare, coverage and mutants;
ORACLE_LAUNCHER, one word on a line, is put before the program that compare runs;
ORACLE_MUTANT plays with the small change of this name; `oracle mutants` lists them.";

fn main() -> ExitCode {
    let args: Vec<String> = std::env::args().skip(1).collect();
    let words: Vec<&str> = args.iter().map(String::as_str).collect();
    match good(&words) {
        Ok(true) => ExitCode::SUCCESS,
        Ok(false) => ExitCode::FAILURE,
        Err(why) => {
            eprintln!("{why}");
            ExitCode::FAILURE
        }
    }
}

/// Whether a call ended well, or why it can't be made.
fn good(words: &[&str]) -> Result<bool, String> {
    Ok(match *words {
        ["play"] => played(session_player::play)?,
        ["trial"] => played(trial_player::play)?,
        ["gen", seed, dir] => write_files(seed.parse().map_err(|_| USAGE)?, dir),
        ["compare", cardrun] => compare::compare(seed()?, Some(cardrun), None),
        ["compare", "-", trial] => compare::compare(seed()?, None, Some(trial)),
        ["compare", cardrun, trial] => compare::compare(seed()?, Some(cardrun), Some(trial)),
        ["coverage"] => compare::coverage(seed()?),
        ["mutants"] => compare::mutants(seed()?),
        ["selftest"] => selftest::run(),
        _ => return Err(USAGE.into()),
    })
}

/// What the environment says under a name, if it has the name: taken, or why it can't be.
fn told<T>(name: &str, wants: &str, take: fn(&str) -> Option<T>) -> Result<Option<T>, String> {
    let Some(value) = std::env::var_os(name) else {
        return Ok(None);
    };
    let taken = value.to_str().and_then(take);
    taken.map(Some).ok_or(format!("{name} is {value:?}, and it is {wants}"))
}

fn seed() -> Result<u64, String> {
    let wants = format!("a number up to {}", u64::MAX);
    Ok(told("ORACLE_SEED", &wants, |text| text.parse().ok())?.unwrap_or(1))
}

/// Standard input through a player, with one of the small changes if the environment names one.
fn played(play: fn(&[u8]) -> String) -> Result<bool, String> {
    let wants = "the name of a change that `oracle mutants` lists";
    mutants::switch(told("ORACLE_MUTANT", wants, mutants::by_name)?);
    Ok(filter(play))
}

/// Standard input through a player to standard output.
fn filter(play: fn(&[u8]) -> String) -> bool {
    let mut input = Vec::new();
    let read = std::io::stdin().read_to_end(&mut input);
    let wrote = std::io::stdout().write_all(play(&input).as_bytes());
    read.is_ok() && wrote.is_ok()
}

fn write_files(seed: u64, dir: &str) -> bool {
    match compare::write_files(seed, dir) {
        Ok(count) => {
            println!("{count} inputs in {dir}");
            true
        }
        Err(e) => {
            eprintln!("{dir}: {e}");
            false
        }
    }
}
