//! The reference program. A file that isn't named is standard input or output.
//! An output file is written only if there is no error, and never over the
//! input. Exit status: 0; 1 after a refusal or a fault in a file; 2 for a wrong
//! call.
//!
//!     reference record [TEXT [RECORD]]      a text into a record
//!     reference text [RECORD [TEXT]]        a record into a text
//!     reference run [RECORD [LANES]]        a run printed whole, with lanes closed
//!     reference exercise [RECORD]           a run printed whole, of at most 8 cells
//!                                           and 4,096 bytes
//!     reference judge RECORD SCHEDULE       a schedule's numbers judged
//!     reference schedule < RECORD           a run's own rows as a schedule
//!     reference fill RECORD LAWS [LANES]    the record filled by meter laws

use reference::answer::Answer;
use reference::model::Road;
use reference::record::Caller;
use reference::{as_text, fill, judge, lanes_text, laws, print, record, refusals, text};
use std::fs::{self, File};
use std::io::{self, Read, Write};
use std::os::unix::fs::MetadataExt;
use std::path::Path;
use std::process::ExitCode;

const USAGE: &str = "usage:
  reference record [TEXT [RECORD]]
  reference text [RECORD [TEXT]]
  reference run [RECORD [LANES]]
  reference exercise [RECORD]
  reference judge RECORD SCHEDULE
  reference schedule < RECORD
  reference fill RECORD LAWS [LANES]
";

/// The bytes that are read of a record: one more than it may have. A record with
/// this byte is refused with 1, whatever its other bytes.
const RECORD_BYTES: u64 = Road::MAX_BYTES as u64 + 1;
/// The most that a text may have.
const TEXT_BYTES: u64 = 1 << 20;

/// Bytes to write, or what went wrong.
type Made = Result<Vec<u8>, String>;

fn main() -> ExitCode {
    let args: Vec<String> = std::env::args().skip(1).collect();
    let words: Vec<&str> = args.iter().map(String::as_str).collect();
    let done = match words[..] {
        ["record", ref files @ ..] if files.len() <= 2 => convert(files, read_text, make_record),
        ["text", ref files @ ..] if files.len() <= 2 => convert(files, read_record, make_text),
        ["run"] => run_record(None, &[]),
        ["run", record] => run_record(Some(record), &[]),
        ["run", record, lanes] => {
            read_lanes(lanes).and_then(|table| run_record(Some(record), &table))
        }
        ["exercise"] => exercise(None),
        ["exercise", record] => exercise(Some(record)),
        ["judge", record, schedule] => judge_files(record, schedule),
        ["schedule"] => convert(&[], read_record, print_schedule),
        ["fill", record, laws] => fill_files(record, laws, None).and_then(print_out),
        ["fill", record, laws, lanes] => fill_files(record, laws, Some(lanes)).and_then(print_out),
        _ => {
            eprint!("{USAGE}");
            return ExitCode::from(2);
        }
    };
    match done {
        Ok(()) => ExitCode::SUCCESS,
        Err(message) => {
            eprintln!("reference: {message}");
            ExitCode::FAILURE
        }
    }
}

/// Makes the second file, or standard output, from the first, or from standard
/// input.
fn convert(
    files: &[&str],
    read: impl FnOnce(Option<&str>) -> Made,
    make: impl FnOnce(&[u8]) -> Made,
) -> Result<(), String> {
    let input = files.first().copied();
    if let [from, to] = files {
        if is_same_file(from, to) {
            return Err(format!("{to} is the input, which would be lost"));
        }
    }
    let made = make(&read(input)?).map_err(|fault| match input {
        Some(name) => format!("{name}: {fault}"),
        None => fault,
    })?;
    match files.get(1) {
        Some(name) => write_file(Path::new(name), &made),
        None => print_out(made),
    }
}

/// Both names lead to one file.
fn is_same_file(one: &str, other: &str) -> bool {
    let identity = |name| fs::metadata(name).map(|data| (data.dev(), data.ino()));
    match (identity(one), identity(other)) {
        (Ok(one), Ok(other)) => one == other,
        _ => false,
    }
}

/// A record from the bytes of a text.
fn make_record(bytes: &[u8]) -> Made {
    let record = text::decoded(bytes).and_then(text::record_of);
    record.map_err(|e| e.to_string())
}

/// A text from the bytes of a record.
fn make_text(record: &[u8]) -> Made {
    as_text::text_of(record).map(String::into_bytes)
}

/// Prints the line that judging a schedule gives; a refusal is an error, too.
fn judge_files(record: &str, schedule: &str) -> Result<(), String> {
    let bytes = read_text(Some(schedule))?;
    let at_line = |fault: text::TextError| format!("{schedule}: {fault}");
    let decoded = text::decoded(&bytes).map_err(at_line)?;
    let numbers = text::schedule_of(decoded).map_err(at_line)?;
    let record = read_record(Some(record))?;
    let answer = judge::judge(&record, &[], &numbers);
    print_out(print::judgement_line(&answer).into_bytes())?;
    let reading = record::read(&record);
    match text::schedule_fault(decoded, reading.road.n, reading.steps) {
        Some(fault) if answer.number == refusals::SCHEDULE_LENGTH => Err(at_line(fault)),
        _ => passed(&answer, "judge"),
    }
}

/// An error with the words of a refusal, if the operation gives one.
fn passed(answer: &Answer, operation: &str) -> Result<(), String> {
    match answer.number {
        0 => Ok(()),
        _ => Err(in_words(answer, operation)),
    }
}

/// A refusal's line and what it means.
fn in_words(answer: &Answer, operation: &str) -> String {
    let line = print::refusal_line(answer);
    let words = refusals::words(answer.number, operation);
    format!("{}: {words}", line.trim_end())
}

/// A refused run has no schedule; the refusal is an error here.
fn print_schedule(record: &[u8]) -> Made {
    match print::printed_schedule(record) {
        Ok(text) => Ok(text.into_bytes()),
        Err(answer) => Err(in_words(&answer, "run")),
    }
}

/// Prints a run whole, with the lanes that a table closes; a refusal is an
/// error, too.
fn run_record(name: Option<&str>, table: &[u8]) -> Result<(), String> {
    let (printed, answer) = print::printed_with_answer(&read_record(name)?, table);
    print_out(printed.into_bytes())?;
    passed(&answer, "run")
}

/// As `run_record`, within the limits of the exercise program.
fn exercise(name: Option<&str>) -> Result<(), String> {
    let record = read_record(name)?;
    let (printed, answer) = print::printed_within_with_answer(&record, Caller::EXERCISE);
    print_out(printed.into_bytes())?;
    passed(&answer, "read_within")
}

/// The table of lanes of a file.
fn read_lanes(name: &str) -> Made {
    let bytes = read_text(Some(name))?;
    let table = text::decoded(&bytes).and_then(lanes_text::table_of);
    table.map_err(|e| format!("{name}: {e}"))
}

/// The record with its releases filled; a refusal is an error here. A law that
/// isn't used gives a warning.
fn fill_files(name: &str, laws_name: &str, lanes: Option<&str>) -> Made {
    let bytes = read_text(Some(laws_name))?;
    let at_line = |fault: text::TextError| format!("{laws_name}: {fault}");
    let decoded = text::decoded(&bytes).map_err(at_line)?;
    let laws = laws::laws_of(decoded).map_err(at_line)?;
    let table = lanes.map_or(Ok(vec![]), read_lanes)?;
    let mut filled = read_record(Some(name))?;
    let reading = record::read(&filled);
    let mut list = vec![0; reading.steps * (reading.road.n + 1)];
    passed(&fill::fill(&mut filled, &laws, &table, &mut list), "fill")?;
    for unused in laws::unused(decoded, &reading.road) {
        eprintln!("reference: warning: {}", at_line(unused));
    }
    Ok(filled)
}

/// A record, or enough of it to show that it is too long.
fn read_record(name: Option<&str>) -> Made {
    read_some(name, RECORD_BYTES)
}

/// A text whole, if it isn't too long.
fn read_text(name: Option<&str>) -> Made {
    let bytes = read_some(name, TEXT_BYTES + 1)?;
    if bytes.len() as u64 > TEXT_BYTES {
        let name = name.unwrap_or("standard input");
        return Err(format!("{name}: more than {TEXT_BYTES} bytes"));
    }
    Ok(bytes)
}

/// The bytes of a file or of standard input, up to the number asked for.
fn read_some(name: Option<&str>, most: u64) -> Made {
    let mut bytes = Vec::new();
    let read = match name {
        Some(name) => File::open(name).and_then(|file| file.take(most).read_to_end(&mut bytes)),
        None => io::stdin().lock().take(most).read_to_end(&mut bytes),
    };
    read.map_err(|e| format!("{}: {e}", name.unwrap_or("standard input")))?;
    Ok(bytes)
}

/// Writes a file whole.
fn write_file(path: &Path, bytes: &[u8]) -> Result<(), String> {
    fs::write(path, bytes).map_err(|e| format!("{}: {e}", path.display()))
}

/// Writes all bytes to standard output.
fn print_out(bytes: Vec<u8>) -> Result<(), String> {
    let mut out = io::stdout().lock();
    let written = out.write_all(&bytes).and_then(|()| out.flush());
    written.map_err(|e| format!("standard output: {e}"))
}
