//! The report of a failure: what differs, the case in words, and a file to run it again.

use crate::frame;
use crate::show;
use crate::trial::Failure;
use std::fs;
use std::io;
use std::path::{Path, PathBuf};
use trials::cases::case::Case;

/// Where the files go.
const FOLDER: &str = "target/trials";
/// Lines of a case that are printed; its file has all.
const LINES: usize = 40;

/// `name` says where the case is from, and names the file.
pub fn print(name: &str, case: &Case, failure: &Failure) {
    print!("FAILED {}, {name}\n{failure}", show::kind(case));
    match keep(name, case) {
        Ok(file) => println!("  to run it again: trials --replay {}", file.display()),
        Err(error) => println!("  there is no file of it: {FOLDER}: {error}"),
    }
    let text = show::case(case);
    for line in text.lines().take(LINES) {
        println!("    {line}");
    }
    let more = text.lines().count().saturating_sub(LINES);
    if more > 0 {
        println!("    and {more} more lines, which --replay shows");
    }
}

/// Writes the file of a case.
fn keep(name: &str, case: &Case) -> io::Result<PathBuf> {
    let mut bytes = Vec::new();
    frame::encode(case, &mut bytes);
    fs::create_dir_all(FOLDER)?;
    let name = name.replace(", ", "-").replace(' ', "-");
    let file = Path::new(FOLDER).join(format!("{name}.case"));
    fs::write(&file, bytes)?;
    Ok(file)
}
