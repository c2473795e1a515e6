//! Group 10: all rows of a record in one list, of any bytes, n and T, into
//! lists too short, just long enough and longer.

use super::case::MAX_ROWS;
use super::dice::Dice;
use super::list::Cases;
use super::samples;
use super::trial::Trial;
use super::versions;
use reference::draft::Draft;

/// Roads with longer records are not tried here.
const MAX_BYTES: usize = 900;
/// The number of roads of group 4 that are used.
const ROADS: usize = 10;

/// `trials` are the roads of group 4.
pub fn add(cases: &mut Cases, trials: &[Trial]) {
    printed(cases);
    steps(cases);
    cells(cases);
    cut(cases);
    unread(cases);
    long(cases);
    again(cases, trials, &mut Dice::new(12));
}

/// A draft whose rows' numbers all differ.
fn numbered(mut draft: Draft) -> Draft {
    for (k, number) in draft.rows.iter_mut().flatten().enumerate() {
        *number = 1_000 * k as u32 + 65_537;
    }
    draft
}

/// The document's input, which has 15 numbers, in both versions.
fn printed(cases: &mut Cases) {
    for draft in [samples::printed(), samples::printed().timed(20)] {
        for length in [0, 14, 15, 16, 40] {
            cases.rows(2, 3, length, &draft.encode());
        }
    }
}

/// Other T than the record has, at the limit and past it.
fn steps(cases: &mut Cases) {
    let record = numbered(samples::three_cells()).encode();
    for (steps, length) in [
        (0, 0),
        (0, 9),
        (1, 6),
        (1, 7),
        (2, 21),
        (4, 27),
        (4, 30),
        (1_440, 10_079),
        (1_440, 10_080),
        (1_441, 10_087),
        (1_441, MAX_ROWS),
        (100_000, MAX_ROWS),
        (u32::MAX, 40),
    ] {
        cases.rows(3, steps, length, &record);
    }
}

/// Other n than the record has, at the limit and past it. From 2 to the 31st on
/// 1 + 2n may wrap to a small number.
fn cells(cases: &mut Cases) {
    let record = numbered(samples::three_cells()).encode();
    for (n, steps, length) in [
        (0, 0, 5),
        (0, 1, 1),
        (0, 3, 2),
        (0, 3, 3),
        (0, 1_440, 1_440),
        (0, 1_441, 1_441),
        (1, 3, 10),
        (1, 1_440, 4_320),
        (2, 3, 15),
        (4, 3, 27),
        (63, 1, 127),
        (64, 0, 5),
        (64, 1, 128),
        (64, 1, 129),
        (64, 3, 400),
        (64, 128, MAX_ROWS),
        (64, 129, MAX_ROWS),
        (64, 1_440, MAX_ROWS),
        (65, 0, 5),
        (65, 1, 131),
        (65, 3, 400),
        (65, 1_441, 0),
        (259, 3, 1_600),
        (1_000, 1, 2_001),
        (1_000, 3, MAX_ROWS),
        (1_000, 100_000, 40),
        (1 << 31, 3, 40),
        (u32::MAX, 3, 40),
    ] {
        cases.rows(n, steps, length, &record);
    }
}

/// Records of three cells that end in the head, in a cell and in a row.
fn cut(cases: &mut Cases) {
    let plain = numbered(samples::three_cells()).encode();
    for count in [0, 4, 5, 16, 88, 91, 92, 118, 144, 171] {
        cases.rows(3, 3, 25, &plain[..count]);
    }
    let timed = numbered(samples::three_cells().timed(20)).encode();
    for count in [5, 18, 92, 93, 94, 120, 173, 174] {
        cases.rows(3, 3, 25, &timed[..count]);
    }
}

type Change = fn(&mut Draft);

/// One of each of reading's refusals, and byte 4 with other versions.
const UNREAD: [Change; 14] = [
    |d| d.length = Some(1),
    |d| d.version = 0,
    |d| d.version = 1,
    |d| d.version = 3,
    |d| d.version = 255,
    |d| d.n = 65,
    |d| d.n = 2,
    |d| d.steps = 0,
    |d| d.seconds = Some(0),
    |d| d.extra = 9,
    |d| d.cells[2].b = 1,
    |d| d.gate_capacity = u32::MAX,
    |d| d.rows[1][6] = u32::MAX,
    |d| d.rows[0][3] = 1 << 31,
];

/// Rows are taken from bytes that reading refuses all the same.
fn unread(cases: &mut Cases) {
    for change in UNREAD {
        let mut draft = numbered(samples::three_cells().timed(20));
        change(&mut draft);
        cases.rows(3, 3, 23, &draft.encode());
    }
    for bytes in [&[2; 61][..], &[1; 61], &[255; 200]] {
        cases.rows(1, 3, 12, bytes);
    }
}

/// The most steps, and the most cells.
fn long(cases: &mut Cases) {
    let steps = numbered(samples::even(1, 1_440)).encode();
    cases.rows(1, 1_440, 4_325, &steps);
    let wide = numbered(samples::even(64, 2).timed(900)).encode();
    for length in [257, 258, 300] {
        cases.rows(64, 2, length, &wide);
    }
}

/// Some short roads of group 4, every third of them as version 2.
fn again(cases: &mut Cases, trials: &[Trial], dice: &mut Dice) {
    let short = trials
        .iter()
        .filter(|trial| trial.record.len() <= MAX_BYTES);
    for (k, trial) in short.step_by(3).take(ROADS).enumerate() {
        let record = match k % 3 {
            2 => versions::timed(&trial.record, dice.between(1, 900) as u16),
            _ => trial.record.clone(),
        };
        let count = trial.steps * (1 + 2 * trial.n);
        let longer = count + dice.between(1, 30) as usize;
        for length in [count - 1, count, longer] {
            cases.rows(trial.n as u32, trial.steps as u32, length, &record);
        }
    }
}
