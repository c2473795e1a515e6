//! Version 2: a step's seconds, their place, and refusal 19.

use crate::support::*;
use reference::draft::Draft;
use reference::fill::fill as fill_under;
use reference::meter::Law;
use reference::print::printed_run;
use reference::record::{read, row_numbers, size};
use reference::step::step as step_under;
use reference::write::write;
use trials::cases::all_cases;
use trials::cases::case::Case;

fn timed(seconds: u16) -> Draft {
    example_draft().timed(seconds)
}

/// The example as version 2 with one change: reading's number and place.
fn with(change: impl FnOnce(&mut Draft)) -> (u32, usize) {
    let mut draft = timed(20);
    change(&mut draft);
    let reading = read(&draft.encode());
    (reading.number, reading.place)
}

#[test]
fn the_example_in_steps_of_20_seconds() {
    let text = format!("version 2\nseconds 20{EXAMPLE}");
    let record = record_of(&text);
    assert_eq!(record, timed(20).encode());
    assert_eq!((record.len(), size(2, 2, 3)), (126, 126));
    assert_eq!(record[..12], [0, 0, 0, 122, 2, 2, 0, 3, 0, 20, 0, 0]);
    let (found, plain) = (read(&record), read(&record_of(EXAMPLE)));
    assert_eq!((found.road.version, found.road.seconds), (2, 20));
    assert_eq!((plain.road.version, plain.road.seconds), (1, 0));
    let mut road = found.road;
    (road.version, road.seconds) = (1, 0);
    assert_eq!((road, found.state), (plain.road, plain.state));
}

#[test]
fn one_more_line_for_version_2() {
    // 33098 x 20 / 1000 = 661.96, x 900 29788.2, x 1 33.098.
    let plain = printed_run(&record_of(EXAMPLE));
    assert!(!plain.contains("seconds"));
    for (seconds, said) in [(20, 661), (900, 29_788), (1, 33)] {
        let wanted = format!("{plain}seconds {said}\n");
        assert_eq!(printed_run(&timed(seconds).encode()), wanted);
    }
    assert_eq!(printed_run(&timed(901).encode()), "refused 19 0 0\n");
}

#[test]
fn seconds_are_1_to_900() {
    for (seconds, number) in [(0, 19), (1, 0), (256, 0), (900, 0), (901, 19), (65_535, 19)] {
        assert_eq!(with(|d| d.seconds = Some(seconds)), (number, 0));
    }
}

#[test]
fn the_least_size_is_18_in_version_2() {
    // Cut to a head alone, with a true first field: 4 comes next.
    for (version, count, number) in [
        (1, 15, 1),
        (1, 16, 4),
        (2, 16, 1),
        (2, 17, 1),
        (2, 18, 4),
        (3, 16, 2),
        (3, 15, 1),
    ] {
        let found = with(|d| (d.version, d.cut) = (version, 126 - count));
        assert_eq!(found, (number, 0), "{version} {count}");
    }
}

#[test]
fn reading_refuses_in_order() {
    let mut draft = timed(0);
    (draft.length, draft.version) = (Some(1), 3);
    (draft.n, draft.extra, draft.gate_queue) = (0, 2, u32::MAX);
    draft.rows[1][4] = 1_000_001;
    let mut said = |mend: fn(&mut Draft)| {
        let number = read(&draft.encode()).number;
        mend(&mut draft);
        number
    };
    assert_eq!(said(|d| d.length = None), 1);
    assert_eq!(said(|d| d.version = 2), 2);
    assert_eq!(said(|d| d.n = 2), 3);
    assert_eq!(said(|d| d.seconds = Some(900)), 19);
    assert_eq!(said(|d| d.extra = 0), 4);
    assert_eq!(said(|d| d.gate_queue = 3_000), 5);
    assert_eq!(said(|d| d.rows[1][4] = 300), 6);
    assert_eq!(said(|_| ()), 0);
}

#[test]
fn no_version_2_has_65_536_bytes() {
    // 64 cells and 124 steps have 65,538 bytes, 123 steps 65,022.
    assert_eq!((size(2, 64, 124), size(2, 64, 123)), (65_538, 65_022));
    let long = |steps| {
        with(|d| {
            d.cells = vec![d.cells[0]; 64];
            d.cells[63].b = 0;
            d.rows = vec![vec![0; 129]; steps];
            (d.n, d.steps) = (64, steps as u16);
        })
    };
    assert_eq!((long(123), long(124)), ((0, 0), (1, 0)));
}

#[test]
fn places_of_5_and_6_in_version_2() {
    assert_eq!(with(|d| d.gate_capacity = 1_000_001), (5, 0));
    assert_eq!(with(|d| d.cells[1].held = 8_001), (5, 2));
    assert_eq!(with(|d| d.rows[2][4] = 1_000_001), (6, 2));
    assert_eq!(with(|d| d.rows[1][1] = 1), (6, 1));
}

/// Writing's number, with version, seconds, n, steps and the target's length.
fn writing(version: u8, seconds: u16, n: usize, steps: usize, length: usize) -> u32 {
    let reading = read(&record_of(EXAMPLE));
    let mut road = reading.road;
    (road.version, road.seconds, road.n) = (version, seconds, n);
    let rows = [1000, 0, 0, 500, 300].repeat(3);
    let mut target = vec![0xA5; length];
    let written = write(&road, steps, &reading.state.start(), &rows, &mut target);
    if written.number != 0 {
        assert_eq!((written.count, target), (0, vec![0xA5; length]));
    }
    written.number
}

#[test]
fn writing_refuses_in_order() {
    for version in [0, 3, 255] {
        assert_eq!(writing(version, 0, 65, 0, 0), 2);
    }
    assert_eq!(writing(2, 0, 65, 3, 0), 3);
    for seconds in [0, 901, 65_535] {
        assert_eq!(writing(2, seconds, 64, 1_440, 0), 19);
    }
    assert_eq!(writing(2, 900, 64, 1_440, 0), 1);
    // 65,538 bytes with two more than version 1 has.
    assert_eq!(
        (writing(2, 1, 64, 124, 0), writing(1, 1, 64, 124, 0)),
        (1, 4)
    );
    assert_eq!(writing(2, 900, 2, 2, 0), 4);
    assert_eq!(
        (writing(2, 900, 2, 3, 125), writing(2, 900, 2, 3, 126)),
        (15, 0)
    );
}

#[test]
fn writing_keeps_the_version() {
    for (version, seconds, kept) in [(1, 0, 0), (1, 65_535, 0), (2, 513, 513)] {
        let reading = read(&record_of(EXAMPLE));
        let mut road = reading.road;
        (road.version, road.seconds) = (version, seconds);
        let rows = [1000, 0, 0, 500, 300].repeat(3);
        let mut target = vec![0; 126];
        let written = write(&road, 3, &reading.state.start(), &rows, &mut target);
        let again = read(&target[..written.count]);
        assert_eq!(
            (again.number, again.steps, again.state),
            (0, 3, reading.state)
        );
        road.seconds = kept;
        assert_eq!(again.road, road);
    }
    let mut target = vec![0; 126];
    let reading = read(&timed(300).encode());
    let rows = [1000, 0, 0, 500, 300].repeat(3);
    write(&reading.road, 3, &reading.state.start(), &rows, &mut target);
    assert_eq!(target, timed(300).encode());
}

#[test]
fn stepping_does_not_look_at_version_or_seconds() {
    let reading = read(&record_of(EXAMPLE));
    let row = [1000, 0, 0, 500, 300];
    let wanted = step(reading.road, reading.state, &row);
    for (version, seconds) in [(0, 0), (2, 0), (2, 901), (9, 5)] {
        let mut road = reading.road;
        (road.version, road.seconds) = (version, seconds);
        let found = step_under(road, reading.state, &row, &ONE_LANE, &ONE_LANE);
        assert_eq!(found, wanted);
    }
}

#[test]
fn rows_stand_two_bytes_later_where_byte_4_is_2() {
    let record = timed(20).encode();
    assert_eq!(row_numbers(&record, 2, 1)[..5], [1000, 0, 0, 500, 300]);
    // A row of no cells starts after the head.
    let bytes = [
        0, 0, 0, 0, 2, 0, 0, 0, 0, 0, 0, 0, 0, 0, 0, 0, 1, 2, 3, 4, 5, 6,
    ];
    assert_eq!(row_numbers(&bytes, 0, 0)[0], 0x0304_0506);
    assert_eq!(row_numbers(&bytes[..21], 0, 0)[0], 0);
    let mut other = bytes;
    other[4] = 3;
    assert_eq!(row_numbers(&other, 0, 0)[0], 0x0102_0304);
    assert_eq!(row_numbers(&[2; 4], 0, 0), [0; 129]);
}

#[test]
fn filling_puts_releases_where_version_2_has_them() {
    let laws = [Law::Fixed { rate: 77.5 }; 64];
    let mut record = timed(20).encode();
    let mut list = [0; 9];
    assert_eq!(fill_under(&mut record, &laws, &[], &mut list).number, 0);
    let mut draft = timed(20);
    draft.rows.iter_mut().for_each(|row| row[4] = 77);
    assert_eq!(record, draft.encode());
}

/// The same record as version 1.
fn untimed(record: &[u8]) -> Vec<u8> {
    let mut bytes = [&record[..8], &record[10..]].concat();
    let length = bytes.len() as u32 - 4;
    bytes[..4].copy_from_slice(&length.to_be_bytes());
    bytes[4] = 1;
    bytes
}

#[test]
fn a_run_does_not_depend_on_version_or_seconds() {
    let mut whole = 0;
    for case in all_cases() {
        let Case::Run { record, lanes, .. } = &case else {
            continue;
        };
        let reading = read(record);
        if reading.road.version != 2 {
            continue;
        }
        let length = reading.steps * (reading.road.n + 1);
        let (mut new, mut old) = (vec![LENT; length], vec![LENT; length]);
        let mut found = reference::run::run(record, lanes, &mut new);
        let wanted = reference::run::run(&untimed(record), lanes, &mut old);
        (found.road.version, found.road.seconds) = (1, 0);
        assert_eq!((found, new), (wanted, old));
        whole += 1;
    }
    assert!(whole >= 100);
}
