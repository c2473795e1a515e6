//! Compares the proved engine with straightforward Rust, tuned Rust and an expert's C, then times all of them.
//!
//! `bench` compares and times; `bench --compare-only` only compares; `bench record SEED PEAK N T` writes such a record to
//! standard output; `bench calls engine|straight|tuned|c|lanes|weights|longest|fill|fill-longest N T COUNT` makes that many calls on
//! one record, for a profiler.
#![forbid(unsafe_code)]
use std::io::Write;
use std::process::ExitCode;
use std::str::FromStr;

mod compare;
mod extended;
mod frames;
mod load;
mod programs;
mod straight;
mod timing;
mod tuned;

/// Cells and steps of the records that are timed: each is near the most bytes that a record may have.
const SIZES: [(usize, usize); 3] = [(64, 124), (21, 377), (6, 1_257)];

fn main() -> ExitCode {
    let words: Vec<String> = std::env::args().skip(1).collect();
    let words: Vec<&str> = words.iter().map(String::as_str).collect();
    let done = match words[..] {
        [] => compare_and_time(),
        ["--compare-only"] => compare::compare_all().map(|said| println!("{said}")),
        ["record", seed, peak, n, steps] => print_record(seed, peak, n, steps),
        ["answers"] => frames::print_answers(),
        ["turns", n, steps] => turns(n, steps),
        ["calls", program, n, steps, count] => timing::make_calls(program, n, steps, count),
        _ => Err("bench [--compare-only | record SEED PEAK N T | calls PROGRAM N T COUNT]".into()),
    };
    match done {
        Ok(()) => ExitCode::SUCCESS,
        Err(why) => {
            eprintln!("bench: {why}");
            ExitCode::FAILURE
        }
    }
}

fn compare_and_time() -> Result<(), String> {
    println!("{}", compare::compare_all()?);
    timing::time_all().map_err(|refused| refused.to_string())
}

fn turns(n: &str, steps: &str) -> Result<(), String> {
    frames::take_turns(number(n)?, number(steps)?)
}

/// A word as a number of the wanted type.
fn number<T: FromStr>(word: &str) -> Result<T, String> {
    word.parse().map_err(|_| format!("not a number: {word}"))
}

fn print_record(seed: &str, peak: &str, n: &str, steps: &str) -> Result<(), String> {
    let record = load::record(number(seed)?, number(peak)?, number(n)?, number(steps)?);
    let record = record.map_err(|refused| refused.to_string())?;
    let printed = std::io::stdout().write_all(&record);
    printed.map_err(|error| format!("standard output: {error}"))
}
