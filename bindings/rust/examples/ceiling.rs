//! A record with the releases of a town's ceiling at one ramp, on standard output:
//! `cargo run --example ceiling -- RECORD CELL CEILING RATE`, the ceiling in parts, the rate in parts a step.
use std::error::Error;
use std::io::Write;
use std::process::ExitCode;

fn main() -> ExitCode {
    let words: Vec<String> = std::env::args().skip(1).collect();
    match made(&words) {
        Ok(()) => ExitCode::SUCCESS,
        Err(why) => {
            eprintln!("ceiling: {why}");
            ExitCode::FAILURE
        }
    }
}

fn made(words: &[String]) -> Result<(), Box<dyn Error>> {
    let [file, cell, ceiling, rate] = words else {
        return Err("usage: ceiling RECORD CELL CEILING RATE".into());
    };
    let mut record = std::fs::read(file)?;
    let table = nobyaluk::put_wanted(&mut record, cell.parse()?, ceiling.parse()?, rate.parse()?)?;
    if table.is_none() {
        return Err("no table keeps the queue at or under the ceiling".into());
    }
    std::io::stdout().write_all(&record)?;
    Ok(())
}
