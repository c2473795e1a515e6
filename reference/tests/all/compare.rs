//! The records on which a program is compared, and the messages.

use reference::print::{printed_run, printed_within};
use reference::record::{read, Caller};
use std::collections::BTreeSet;
use trials::compare::{compare, difference, records, Named};

#[test]
fn records_have_every_refusal_line_the_longest_runs_and_all_sizes() {
    let records = records();
    let mut refusals = BTreeSet::new();
    let mut runs = BTreeSet::new();
    for Named { record, .. } in &records {
        match printed_run(record).strip_prefix("refused ") {
            Some(rest) => refusals.insert(rest.split(' ').next().unwrap().to_string()),
            None => runs.insert((read(record).road.n, read(record).steps)),
        };
    }
    let wanted = ["1", "10", "19", "2", "3", "4", "5", "6", "9"];
    assert!(refusals.iter().eq(wanted.iter()), "{refusals:?}");
    assert!(runs.contains(&(6, 1_257)) && runs.contains(&(64, 124)));
    for size in [0, 15, 16, 65_536, 65_537, 131_072] {
        assert!(records.iter().any(|named| named.record.len() == size));
    }
    assert!(records.len() > 500);
}

/// Of the exercise program: its refusals, and runs at both bounds with the next beyond.
#[test]
fn records_have_every_line_of_an_exercise() {
    let mut refusals = BTreeSet::new();
    let (mut runs, mut beyond) = (BTreeSet::new(), BTreeSet::new());
    for Named { record, .. } in &records() {
        let printed = printed_within(record, Caller::EXERCISE);
        let size = (usize::from(*record.get(5).unwrap_or(&0)), record.len());
        match printed.strip_prefix("refused ") {
            Some("26 0 0\n") => beyond.insert(size),
            Some(rest) => refusals.insert(rest.split(' ').next().unwrap().to_string()),
            None => runs.insert(size),
        };
    }
    let wanted = ["1", "10", "19", "2", "3", "4", "5", "6", "9"];
    assert!(refusals.iter().eq(wanted.iter()), "{refusals:?}");
    for size in [(8, 276), (8, 4_084), (8, 4_086), (1, 4_096), (5, 4_096)] {
        assert!(runs.contains(&size), "{size:?}");
    }
    for size in [(9, 308), (9, 310), (8, 4_152), (1, 4_098), (64, 65_536)] {
        assert!(beyond.contains(&size), "{size:?}");
    }
}

#[test]
fn names_and_records_are_all_different() {
    let records = records();
    let names: BTreeSet<_> = records.iter().map(|named| &named.name).collect();
    let bytes: BTreeSet<_> = records.iter().map(|named| &named.record).collect();
    assert_eq!((names.len(), bytes.len()), (records.len(), records.len()));
}

#[test]
fn the_first_line_that_differs_is_said() {
    let said = |found: &str, wanted: &str| difference(found.as_bytes(), wanted.as_bytes());
    assert_eq!(said("a\nb\n", "a\nb\n"), None);
    assert_eq!(
        said("a\nb\n", "a\nc\n").unwrap(),
        r"line 2: 'b\n', not 'c\n'"
    );
    assert_eq!(
        said("a\n", "a\nc\n").unwrap(),
        r"line 2: no line, not 'c\n'"
    );
    assert_eq!(
        said("a\nc\n\n", "a\nc\n").unwrap(),
        r"line 3: '\n', not no line"
    );
    assert_eq!(said("a\nc", "a\nc\n").unwrap(), r"line 2: 'c', not 'c\n'");
}

#[test]
fn another_program_is_refused_with_the_record_s_name() {
    let named = |record: &[u8]| {
        let (name, record) = ("some".to_string(), record.to_vec());
        [Named { name, record }]
    };
    let echoed = compare("cat", Caller::FULL, &named(b"refused 1 0 1\n")).unwrap_err();
    let wanted = r"some (14 bytes): cat prints another text, line 1: 'refused 1 0 1\n', not 'refused 1 0 0\n'";
    assert_eq!(echoed, wanted);
    // It reads nothing, and a pipe holds less than this.
    let ended = compare("false", Caller::FULL, &named(&[0; 200_000])).unwrap_err();
    assert!(ended.starts_with("some (200000 bytes): false ended with "));
    // Here cat happens to print what is right.
    assert!(compare("cat", Caller::FULL, &named(b"refused 1 0 0\n")).is_ok());
    assert!(compare("./no-such-program", Caller::FULL, &named(b"")).is_err());
}
