//! Compares the proved engine with the reference: all cases by hand, and as many random
//! and altered ones as asked for. Whole answers are compared.
//!
//!     trials                       the cases by hand, then 500,000 of seed 1 and as
//!                                  many of a new random seed, which is printed
//!     trials --count N             the same with N cases of each seed
//!     trials --hand                the cases by hand alone
//!     trials --seed S [--count N]  the cases of one seed alone
//!     trials --replay FILE         the cases of a file, shown whole
//!     trials --files DIR           the cases by hand and their answers as files, for
//!                                  other languages

#![forbid(unsafe_code)]

mod by_engine;
mod by_reference;
mod failure_report;
mod files;
mod frame;
mod freeway;
#[cfg(test)]
mod joined;
mod lent;
mod onward;
mod options;
mod show;
#[cfg(test)]
mod street;
mod tally;
#[cfg(test)]
mod tests;
mod trial;
mod whole;

use options::{Options, USAGE};
use std::fs;
use std::path::Path;
use std::process::ExitCode;
use tally::Tally;
use trials::cases::all_cases;
use trials::cases::case::Case;
use trials::cases::source::Source;

/// The number of failures that are printed; all are counted.
const TOLD: u64 = 5;

fn main() -> ExitCode {
    let words: Vec<String> = std::env::args().skip(1).collect();
    let Some(options) = Options::of(&words) else {
        eprint!("{USAGE}");
        return ExitCode::from(2);
    };
    match done(&options) {
        Ok(true) => ExitCode::SUCCESS,
        Ok(false) => ExitCode::FAILURE,
        Err(message) => {
            eprintln!("trials: {message}");
            ExitCode::FAILURE
        }
    }
}

/// Whether all passed.
fn done(options: &Options) -> Result<bool, String> {
    let mut tally = Tally::default();
    match options {
        Options::All { count } => {
            by_hand(&mut tally);
            of_seed(&mut tally, 1, *count);
            of_seed(&mut tally, options::new_seed(), *count);
        }
        Options::Hand => by_hand(&mut tally),
        Options::Seed { seed, count } => of_seed(&mut tally, *seed, *count),
        Options::Replay { file } => replay(&mut tally, file)?,
        Options::Files { folder } => {
            files::write(Path::new(folder))?;
            return Ok(true);
        }
    }
    print!("{}", tally.table());
    println!("{}", tally.verdict());
    Ok(tally.failed() == 0)
}

fn by_hand(tally: &mut Tally) {
    let cases = all_cases();
    println!("{} cases by hand and of fixed seeds", cases.len());
    for (number, case) in cases.iter().enumerate() {
        try_one(tally, &format!("by hand, case {number}"), case);
    }
}

fn of_seed(tally: &mut Tally, seed: u64, count: u64) {
    println!("{count} cases of seed {seed}");
    let source = Source::new(seed);
    for number in 0..count {
        let name = format!("seed {seed}, case {number}");
        try_one(tally, &name, &source.case(number));
    }
}

/// The first failures are printed at once.
fn try_one(tally: &mut Tally, name: &str, case: &Case) {
    if let Err(failure) = tally.add(case) {
        if tally.failed() <= TOLD {
            failure_report::print(name, case, &failure);
        }
    }
}

fn replay(tally: &mut Tally, file: &str) -> Result<(), String> {
    let bytes = fs::read(file).map_err(|e| format!("{file}: {e}"))?;
    let cases = frame::decode(&bytes).map_err(|e| format!("{file}: {e}"))?;
    for case in &cases {
        print!("{}\n{}", show::kind(case), show::case(case));
        match tally.add(case) {
            Ok(()) => println!("both answer the same"),
            Err(failure) => print!("FAILED\n{failure}"),
        }
    }
    Ok(())
}
