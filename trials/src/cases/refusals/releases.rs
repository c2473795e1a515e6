//! Refusals 9, 10 and 11: releases and the lent list, for running and judging.

use crate::cases::list::{table_length, Cases};
use crate::cases::samples::{self, PRINTED_ROWS};

pub fn add(cases: &mut Cases) {
    queues(cases);
    supplies(cases);
    empty_ramp(cases);
    full_cell(cases);
    lists(cases);
}

/// After t steps the queue is 100 + 200 t, and 500 arrive in each step. The
/// supply is 1000: what may be released reaches it in step 2.
fn queues(cases: &mut Cases) {
    for step in 0..3 {
        let queue = 100 + 200 * step as u32;
        let most = queue + 500;
        for release in [queue, queue + 1, most - 1, most, most + 1, 1_001] {
            let mut draft = samples::printed();
            draft.cells[1].queue = 100;
            draft.rows[step][4] = release;
            cases.draft(&draft);
        }
    }
}

/// The supply of cell 2 is 1000 in every state of the printed run; the queue
/// and the arrivals are 2000, 2200 and 2400. Above both it is 9.
fn supplies(cases: &mut Cases) {
    for step in 0..3 {
        let most = 2_000 + 200 * step as u32;
        for release in [1_000, 1_001, most, most + 1, 1_000_000] {
            let mut draft = samples::printed();
            draft.rows[step][4] = release;
            cases.draft(&draft);
        }
    }
}

/// An empty ramp releases what arrives in the same step and nothing else: not
/// what arrives at the gate (900) or at the ramp before it (700).
fn empty_ramp(cases: &mut Cases) {
    for (arrivals, release) in [(0, 0), (0, 1), (1, 1), (500, 500), (500, 501), (500, 700)] {
        for step in 0..2 {
            let mut draft = samples::printed();
            (draft.cells[0].ramp, draft.cells[0].queue) = (1, 600);
            draft.cells[1].queue = 0;
            draft.rows = vec![vec![900, 700, 0, 0, 0], vec![900, 700, 0, 0, 0]];
            draft.rows[step][3..].copy_from_slice(&[arrivals, release]);
            draft.steps = 2;
            cases.draft(&draft);
        }
    }
}

/// Supply 0 takes nothing: a full cell, wave 0 and capacity 0.
fn full_cell(cases: &mut Cases) {
    for release in [0, 1] {
        for kind in 0..3 {
            let mut draft = samples::printed();
            let cell = &mut draft.cells[1];
            match kind {
                0 => cell.held = cell.jam,
                1 => cell.w = 0,
                _ => cell.capacity = 0,
            }
            draft.rows = vec![vec![0, 0, 0, 0, release]];
            draft.steps = 1;
            cases.draft(&draft);
        }
    }
}

/// Lists one too short, just long enough and longer.
fn lists(cases: &mut Cases) {
    let drafts = [
        samples::three_cells(),
        samples::even(1, 1),
        samples::even(64, 2),
    ];
    for draft in drafts {
        let length = table_length(&draft);
        let record = draft.encode();
        for lent in [0, length - 1, length, length + 1, 9_000] {
            cases.run(lent, &record);
        }
    }
    // With a refusal at a later step, the rows of earlier steps are written.
    let mut draft = samples::printed();
    draft.rows[2][4] = 1_001;
    for lent in [8, 9, 10, 30] {
        cases.run(lent, &draft.encode());
    }
    cases.judge(&PRINTED_ROWS, &draft.encode());
}
