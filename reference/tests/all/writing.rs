//! Writing a record, reading it back, and the numbers of rows.

use crate::support::*;
use reference::model::{Road, Start};
use reference::record::{read, row, row_numbers, size};
use reference::write::{write, Written};
use trials::compare;

/// A byte that no small record ends with.
const SPARE: u8 = 0xA5;

/// What writing takes but the target.
#[derive(Clone)]
struct Input {
    road: Road,
    steps: usize,
    start: Start,
    rows: Vec<u32>,
    /// The target's length.
    length: usize,
}

/// What reading a record gives, and a target of its size.
fn input_of(record: &[u8]) -> Input {
    let reading = read(record);
    assert_eq!(reading.number, 0);
    let (road, steps) = (reading.road, reading.steps);
    let rows: Vec<_> = (0..steps).map(|t| row(record, road.n, t)).collect();
    Input {
        road,
        steps,
        start: reading.state.start(),
        rows: rows.concat(),
        length: record.len(),
    }
}

/// Writes into spare bytes.
fn written(input: &Input) -> (Written, Vec<u8>) {
    let mut target = vec![SPARE; input.length];
    let Input {
        road, steps, start, ..
    } = input;
    let written = write(road, *steps, start, &input.rows, &mut target);
    (written, target)
}

/// The example with one change: number and place. A refusal leaves the target.
fn with(change: impl Fn(&mut Input)) -> (u32, usize) {
    let mut input = input_of(&record_of(EXAMPLE));
    change(&mut input);
    let (written, target) = written(&input);
    if written.number != 0 {
        assert_eq!(written.count, 0);
        assert_eq!(target, vec![SPARE; input.length]);
    } else {
        assert_eq!(
            written.count,
            size(input.road.version, input.road.n, input.steps)
        );
    }
    (written.number, written.place)
}

#[test]
fn what_was_read_is_written_with_the_same_bytes() {
    let mut again = 0;
    for compare::Named { name, record } in compare::records() {
        if read(&record).number != 0 {
            continue;
        }
        let mut input = input_of(&record);
        input.length += 2;
        let (written, target) = written(&input);
        assert_eq!((written.number, written.count), (0, record.len()), "{name}");
        assert!(target[..record.len()] == record, "{name}");
        assert_eq!(target[record.len()..], [SPARE; 2], "{name}");
        again += 1;
    }
    assert!(again > 400);
}

#[test]
fn what_was_written_is_read_back_with_0_past_the_last_cell() {
    let mut input = input_of(&record_of(EXAMPLE));
    for i in 2..64 {
        (input.road.v[i], input.road.ramp[i]) = (u16::MAX, 7);
        (input.start.held[i], input.start.queue[i]) = (u32::MAX, 9);
    }
    let (written, target) = written(&input);
    assert_eq!((written.number, written.count), (0, 124));
    let (found, wanted) = (read(&target), read(&record_of(EXAMPLE)));
    assert_eq!(found, wanted);
    for t in 0..3 {
        assert_eq!(row(&target, 2, t), input.rows[5 * t..5 * t + 5]);
    }
}

#[test]
fn refusal_3_of_writing() {
    for n in [0, 65, 258, usize::MAX] {
        assert_eq!(with(|x| x.road.n = n), (3, 0));
    }
    for steps in [0, 1_441, 65_539, usize::MAX] {
        assert_eq!(with(|x| x.steps = steps), (3, 0));
    }
}

#[test]
fn refusal_1_of_writing_is_for_records_that_are_too_long() {
    let wide = |steps: usize| {
        with(|x| {
            (x.road.n, x.steps, x.length) = (64, steps, 70_000);
            x.road.b[1..].fill(0);
            x.rows = vec![0; steps * 129];
        })
    };
    assert_eq!(
        (wide(124), wide(125), wide(1_440)),
        ((0, 0), (1, 0), (1, 0))
    );
    // Before 4: the rows aren't read.
    assert_eq!(with(|x| (x.road.n, x.steps) = (64, 125)), (1, 0));
    assert_eq!(with(|x| (x.road.n, x.steps) = (64, 124)), (4, 0));
}

#[test]
fn refusal_4_of_writing_counts_the_rows_numbers() {
    for count in [0, 5, 14, 16, 20] {
        assert_eq!(with(|x| x.rows.resize(count, 0)), (4, 0));
    }
    assert_eq!(with(|x| x.steps = 2), (4, 0));
    assert_eq!(with(|x| x.road.n = 1), (4, 0));
}

#[test]
fn refusals_5_and_6_of_writing_are_those_of_reading() {
    assert_eq!(with(|x| x.road.gate_capacity = 1_000_000), (0, 0));
    assert_eq!(with(|x| x.road.gate_capacity = 1_000_001), (5, 0));
    assert_eq!(with(|x| x.start.gate_queue = 1_000_000_001), (5, 0));
    assert_eq!(with(|x| x.road.v[0] = 1_001), (5, 1));
    assert_eq!(with(|x| x.road.b[1] = 1), (5, 2));
    assert_eq!(with(|x| x.road.ramp[1] = 0), (5, 2));
    assert_eq!(with(|x| x.start.held[1] = 8_000), (0, 0));
    assert_eq!(with(|x| x.start.held[1] = 8_001), (5, 2));
    assert_eq!(with(|x| x.start.queue[0] = 1), (5, 1));
    assert_eq!(with(|x| x.start.queue[1] = 1_000_000_000), (0, 0));
    assert_eq!(with(|x| x.start.queue[1] = 1_000_000_001), (5, 2));
    assert_eq!(with(|x| x.rows[14] = 1_000_000), (0, 0));
    assert_eq!(with(|x| x.rows[14] = 1_000_001), (6, 2));
    assert_eq!(with(|x| x.rows[6] = 1), (6, 1));
    assert_eq!(with(|x| (x.rows[10], x.rows[2]) = (u32::MAX, 1)), (6, 0));
}

#[test]
fn refusal_15_comes_last() {
    for length in [0, 1, 123] {
        assert_eq!(with(|x| x.length = length), (15, 0));
        assert_eq!(
            with(|x| (x.length, x.rows[14]) = (length, 1_000_001)),
            (6, 2)
        );
    }
    for length in [124, 125, 70_000] {
        assert_eq!(with(|x| x.length = length), (0, 0));
    }
}

#[test]
fn all_faults_at_once_mended_one_after_another() {
    let mut input = input_of(&record_of(EXAMPLE));
    let sound = input.clone();
    (input.road.n, input.steps, input.length) = (65, 1_440, 0);
    (input.start.held[1], input.rows[0]) = (8_001, u32::MAX);
    let says = |input: &Input| written(input).0.number;
    assert_eq!(says(&input), 3);
    input.road.n = 64;
    assert_eq!(says(&input), 1);
    input.steps = 124;
    assert_eq!(says(&input), 4);
    (input.road.n, input.steps) = (2, 3);
    assert_eq!(says(&input), 5);
    input.start = sound.start;
    assert_eq!(says(&input), 6);
    input.rows = sound.rows;
    assert_eq!(says(&input), 15);
    input.length = 124;
    assert_eq!(written(&input).1, record_of(EXAMPLE));
}

#[test]
fn rows_numbers_of_any_bytes() {
    let record = record_of(EXAMPLE);
    let mut wanted = [0; 129];
    wanted[..5].copy_from_slice(&[1000, 0, 0, 500, 300]);
    for t in 0..3 {
        assert_eq!(row_numbers(&record, 2, t), wanted);
    }
    for t in [3, 1_439, 1_440, usize::MAX] {
        assert_eq!(row_numbers(&record, 2, t), [0; 129]);
    }
    for n in [65, usize::MAX] {
        assert_eq!(row_numbers(&record, n, 0), [0; 129]);
    }
    // The last number lacks a byte.
    wanted[4] = 0;
    assert_eq!(row_numbers(&record[..123], 2, 2), wanted);
    assert_eq!(row_numbers(&[], 64, 0), [0; 129]);
    // Without cells the row of step 0 is the number at byte 16.
    wanted = [0; 129];
    wanted[0] = (500 << 16) + 250;
    assert_eq!(row_numbers(&record, 0, 0), wanted);
    // No further row, whatever the bytes have.
    assert_eq!(row_numbers(&[1; 65_536], 1, 1_440), [0; 129]);
    assert_ne!(row_numbers(&[1; 65_536], 1, 1_439), [0; 129]);
}
