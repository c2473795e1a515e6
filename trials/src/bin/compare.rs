//! Compares a program's output with the reference's, on the named records and on the trials' own.
//!
//!     compare PROGRAM RECORD...              of the full program
//!     compare --exercise PROGRAM RECORD...   of the exercise program
//!     compare --write DIR                    those records of the trials, with what the reference prints
//!
//! Exit status: 0; 1 if they differ or a file can't be read; 2 for a wrong call.

#![forbid(unsafe_code)]

use reference::model::Road;
use reference::print;
use reference::record::Caller;
use std::fs::{self, File};
use std::io::Read;
use std::path::Path;
use std::process::ExitCode;
use trials::compare::{compare, records, Named};

const USAGE: &str = "usage:
  compare [--exercise] PROGRAM RECORD...
  compare --write DIR
";

fn main() -> ExitCode {
    let args: Vec<String> = std::env::args().skip(1).collect();
    let words: Vec<&str> = args.iter().map(String::as_str).collect();
    let done = match words[..] {
        ["--write", dir] => write(Path::new(dir)),
        ["--exercise", program, ref files @ ..] => beside(program, Caller::EXERCISE, files),
        [program, ref files @ ..] if !program.starts_with('-') => {
            beside(program, Caller::FULL, files)
        }
        _ => {
            eprint!("{USAGE}");
            return ExitCode::from(2);
        }
    };
    match done {
        Ok(()) => ExitCode::SUCCESS,
        Err(message) => {
            eprintln!("compare: {message}");
            ExitCode::FAILURE
        }
    }
}

/// Compares a caller's program on the named files and on the trials' records.
fn beside(program: &str, caller: Caller, files: &[&str]) -> Result<(), String> {
    let mut all = Vec::new();
    for name in files {
        let record = read(name).map_err(|e| format!("{name}: {e}"))?;
        let name = name.to_string();
        all.push(Named { name, record });
    }
    all.extend(records());
    print!("{}", compare(program, caller, &all)?);
    Ok(())
}

/// A record, or enough of it to show that it is too long.
fn read(name: &str) -> std::io::Result<Vec<u8>> {
    let mut bytes = Vec::new();
    let most = Road::MAX_BYTES as u64 + 1;
    File::open(name)?.take(most).read_to_end(&mut bytes)?;
    Ok(bytes)
}

/// NAME.rec and NAME.out for each of the trials' records.
fn write(dir: &Path) -> Result<(), String> {
    let put = |name: String, bytes: &[u8]| {
        let path = dir.join(name);
        fs::write(&path, bytes).map_err(|e| format!("{}: {e}", path.display()))
    };
    fs::create_dir_all(dir).map_err(|e| format!("{}: {e}", dir.display()))?;
    for Named { name, record } in records() {
        put(format!("{name}.rec"), &record)?;
        put(
            format!("{name}.out"),
            print::printed_run(&record).as_bytes(),
        )?;
    }
    Ok(())
}
