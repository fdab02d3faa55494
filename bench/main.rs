//! Compares and times the proved library and its twin.
mod comparing;
mod loops;
mod play;
mod proved;
mod random;
mod timing;
#[path = "twin/mod.rs"]
mod twin;

use std::process::ExitCode;

const USAGE: &str = "bench/run compare [CALLS RECORDS]   plays random calls and reads random records on both sides, and says where they differ first (1000000 and 100000000)
bench/run time [REPETITIONS WORD]   times both sides, one after the other, so many times (15), and prints a table; only of what has the word in its name";

fn number(words: &[String], i: usize, otherwise: u64) -> Option<u64> {
    match words.get(i) {
        Some(word) => word.parse().ok(),
        None => Some(otherwise),
    }
}

fn run(words: &[String]) -> Option<bool> {
    match words.first()?.as_str() {
        "compare" if words.len() <= 3 => Some(comparing::compare(number(words, 1, 1_000_000)?, number(words, 2, 100_000_000)?)),
        "time" if words.len() <= 3 => {
            timing::time(number(words, 1, 15)?.max(1) as usize, words.get(2).map_or("", String::as_str));
            Some(true)
        }
        _ => None,
    }
}

fn main() -> ExitCode {
    let words: Vec<String> = std::env::args().skip(1).collect();
    match run(&words) {
        Some(true) => ExitCode::SUCCESS,
        Some(false) => ExitCode::FAILURE,
        None => {
            eprintln!("{USAGE}");
            ExitCode::from(2)
        }
    }
}
