//! Compares a program's output with the reference's, record by record.

use crate::cases::{self, case::Case};
use reference::model::Road;
use reference::record::Caller;
use reference::{fill, print};
use std::collections::BTreeSet;
use std::io::{ErrorKind, Write};
use std::process::{Command, Output, Stdio};
use std::thread;

/// A record and what messages call it.
#[derive(Clone, Debug, PartialEq, Eq)]
pub struct Named {
    pub name: String,
    pub record: Vec<u8>,
}

/// The records of all trials, each once, and two beyond their longest: every
/// refusal at its bound and one past it, the longest runs, random roads.
pub fn records() -> Vec<Named> {
    let mut seen = BTreeSet::new();
    let mut list = Vec::new();
    let records = cases::all_cases().into_iter().flat_map(records_of);
    for record in records.chain(too_long()) {
        if seen.insert(record.clone()) {
            let name = format!("trial-{:04}", list.len());
            list.push(Named { name, record });
        }
    }
    list
}

/// The record that a case takes, if it takes one, and what filling, putting or joining
/// makes of it.
fn records_of(case: Case) -> Vec<Vec<u8>> {
    match case {
        Case::Read { record } | Case::Run { record, .. } | Case::Judge { record, .. } => {
            vec![record]
        }
        Case::Fill(input) => {
            let mut filled = input.record.clone();
            fill::fill(
                &mut filled,
                &input.laws(),
                &input.lanes,
                &mut vec![0; input.length],
            );
            vec![input.record, filled]
        }
        Case::Weigh(input) => vec![input.record],
        Case::Within(input) => vec![input.record],
        Case::Put(input) => vec![input.record_after()],
        Case::Join(input) => input.joined().into_iter().collect(),
        Case::Step(_)
        | Case::Write(_)
        | Case::Row { .. }
        | Case::Rows { .. }
        | Case::Leaf(_)
        | Case::Load(_)
        | Case::Wanted(_)
        | Case::Grant(_)
        | Case::Capacity { .. }
        | Case::Present(_)
        | Case::On(_)
        | Case::Many(_) => vec![],
    }
}

/// Records of twice and three times the greatest size, with a true first field.
fn too_long() -> [Vec<u8>; 2] {
    [2, 3].map(|times| {
        let size = times * Road::MAX_BYTES;
        let mut record = vec![0; size];
        record[..4].copy_from_slice(&(size as u32 - 4).to_be_bytes());
        record
    })
}

/// Runs a caller's program on each record. The first difference is the error.
pub fn compare(program: &str, caller: Caller, records: &[Named]) -> Result<String, String> {
    for Named { name, record } in records {
        let said = |message: String| format!("{name} ({} bytes): {message}", record.len());
        let output = output_of(program, record).map_err(|e| said(format!("{program}: {e}")))?;
        if !output.status.success() {
            return Err(said(format!("{program} ended with {}", output.status)));
        }
        let wanted = print::printed_within(record, caller).into_bytes();
        if let Some(difference) = difference(&output.stdout, &wanted) {
            return Err(said(format!("{program} prints another text, {difference}")));
        }
    }
    let count = records.len();
    Ok(format!(
        "{program} prints what the reference prints, {count} records\n"
    ))
}

/// What the program does with a record on its standard input, which it may
/// leave unread from some byte on.
fn output_of(program: &str, record: &[u8]) -> std::io::Result<Output> {
    let mut child = Command::new(program)
        .stdin(Stdio::piped())
        .stdout(Stdio::piped())
        .spawn()?;
    let mut input = child.stdin.take().expect("its input is piped");
    thread::scope(|scope| {
        let writer = scope.spawn(move || match input.write_all(record) {
            Err(error) if error.kind() != ErrorKind::BrokenPipe => Err(error),
            _ => Ok(()),
        });
        let output = child.wait_with_output();
        writer.join().expect("the writer ends")?;
        output
    })
}

/// The first line in which two texts differ, in words.
pub fn difference(found: &[u8], wanted: &[u8]) -> Option<String> {
    if found == wanted {
        return None;
    }
    let mut pair = (
        found.split_inclusive(is_end),
        wanted.split_inclusive(is_end),
    );
    for line in 1.. {
        let (a, b) = (pair.0.next(), pair.1.next());
        if a != b {
            return Some(format!("line {line}: {}, not {}", shown(a), shown(b)));
        }
    }
    None
}

/// Whether a byte ends a line.
fn is_end(byte: &u8) -> bool {
    *byte == b'\n'
}

/// The start of a line in quotes, its end as `\n`.
fn shown(line: Option<&[u8]>) -> String {
    line.map_or("no line".to_string(), |bytes| {
        format!("'{}'", bytes[..bytes.len().min(80)].escape_ascii())
    })
}
