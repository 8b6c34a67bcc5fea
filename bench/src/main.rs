//! The proved planner, judge and judge of finals, from the static library, beside independent ones: equal replies, the
//! ratio of their times, the stack they need.
mod differential;
mod finals_differential;
mod library;
mod library_finals;
mod lines;
mod stack;
mod timing;

use std::path::Path;
use std::process::ExitCode;

const SEED: u64 = 2026;
const COUNT: usize = 250_000;
const FINALS: usize = 50_000;
const EXAMPLES: &str = concat!(env!("CARGO_MANIFEST_DIR"), "/../examples");
const USAGE: &str =
    "bench differential [SEED [COUNT]] | finals [SEED [COUNT]] | time [SEED] | lines [SEED] | stack [EXAMPLES]";

fn number(arguments: &[String], at: usize, usual: u64) -> Result<u64, String> {
    match arguments.get(at) {
        None => Ok(usual),
        Some(text) => text.parse().map_err(|_| format!("{text} is no number")),
    }
}

fn run(arguments: &[String]) -> Result<(), String> {
    let (name, rest) = arguments.split_first().ok_or(USAGE)?;
    match name.as_str() {
        "differential" => differential::run(number(rest, 0, SEED)?, number(rest, 1, COUNT as u64)? as usize),
        "finals" => finals_differential::run(number(rest, 0, SEED)?, number(rest, 1, FINALS as u64)? as usize),
        "time" => {
            timing::run(number(rest, 0, SEED)?);
            Ok(())
        }
        "lines" => {
            lines::run(number(rest, 0, SEED)?);
            Ok(())
        }
        "stack" => stack::run(Path::new(rest.first().map_or(EXAMPLES, String::as_str))),
        _ => Err(USAGE.to_string()),
    }
}

fn main() -> ExitCode {
    let arguments: Vec<String> = std::env::args().skip(1).collect();
    match run(&arguments) {
        Ok(()) => ExitCode::SUCCESS,
        Err(error) => {
            println!("{error}");
            ExitCode::FAILURE
        }
    }
}
