//! The public crate and the archive in one process. docs/FUZZING.md says how it's built and what it prints.
mod bench;
mod compare;
mod lines;
mod list;
#[cfg(read_inst)]
mod reader;

use std::process::ExitCode;

const USAGE: &str = "usage: huqmeris-beside compare [COUNT] [SEED] | bench LIST";

fn run(words: &[&str]) -> Result<String, String> {
    let number = |word: &str| word.parse::<u64>().map_err(|_| USAGE.to_string());
    match *words {
        ["compare"] => compare::run(20_000, 1),
        ["compare", count] => compare::run(number(count)?, 1),
        ["compare", count, seed] => compare::run(number(count)?, number(seed)?),
        ["bench", path] => bench::run(list::read(&std::fs::read_to_string(path).map_err(|error| format!("{path}: {error}"))?)),
        _ => Err(USAGE.into()),
    }
}

fn main() -> ExitCode {
    let words: Vec<String> = std::env::args().skip(1).collect();
    match run(&words.iter().map(String::as_str).collect::<Vec<_>>()) {
        Ok(text) => {
            println!("{text}");
            ExitCode::SUCCESS
        }
        Err(text) => {
            println!("{text}");
            ExitCode::FAILURE
        }
    }
}
