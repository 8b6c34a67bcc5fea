//! The corpora of crates/test_corpus and crates/test_finals, and the enumeration beside the independent implementation on
//! more networks and finals; without the proved library.
use bench::{comparison, corpus, finals};
use std::path::Path;
use std::process::ExitCode;

const USAGE: &str = "corpus write FOLDER | compare SEED COUNT | write-finals FOLDER | compare-finals SEED COUNT";

fn run(arguments: &[&str]) -> Result<(), String> {
    let number = |text: &str| text.parse::<u64>().map_err(|_| format!("{text} is no number"));
    match arguments {
        ["write", folder] => corpus::write(Path::new(folder)),
        ["compare", seed, count] => comparison::compare(number(seed)?, number(count)? as usize),
        ["write-finals", folder] => finals::corpus::write(Path::new(folder)),
        ["compare-finals", seed, count] => finals::comparison::compare(number(seed)?, number(count)? as usize),
        _ => Err(USAGE.to_string()),
    }
}

fn main() -> ExitCode {
    let arguments: Vec<String> = std::env::args().skip(1).collect();
    match run(&arguments.iter().map(String::as_str).collect::<Vec<_>>()) {
        Ok(()) => ExitCode::SUCCESS,
        Err(error) => {
            eprintln!("{error}");
            ExitCode::FAILURE
        }
    }
}
