//! Group 1: the document's printed run and its edges.

use super::case::StepInput;
use super::list::Cases;
use super::samples::{self, PRINTED_ROWS};
use reference::draft::Draft;

pub fn add(cases: &mut Cases) {
    printed_run(cases);
    printed_run_judged(cases);
    printed_steps(cases);
    demand_and_supply(cases);
    shares(cases);
    counts(cases);
    held_and_jam(cases);
    release_and_queue(cases);
    release_and_supply(cases);
}

/// Run with lists that fit, are one short, empty, and longer.
fn printed_run(cases: &mut Cases) {
    let record = samples::printed().encode();
    cases.read(&record);
    for length in [9, 8, 0, 12] {
        cases.run(length, &record);
    }
}

fn printed_run_judged(cases: &mut Cases) {
    let record = samples::printed().encode();
    cases.judge(&PRINTED_ROWS, &record);
    // 934 at step 1, place 1.
    let mut schedule = PRINTED_ROWS;
    schedule[4] = 934;
    cases.judge(&schedule, &record);
    cases.judge(&[0; 9], &record);
    // One number too few, one too many.
    cases.judge(&PRINTED_ROWS[..8], &record);
    let mut longer = PRINTED_ROWS.to_vec();
    longer.push(0);
    cases.judge(&longer, &record);
}

/// Steps 0, 1 and 2 of the printed run, one by one. In step 1 cell 1 has
/// b 750 and F 934; a release of 299 and 301 moves its room from 700 by one.
fn printed_steps(cases: &mut Cases) {
    let mut input = samples::first_step(&samples::printed());
    for _ in 0..3 {
        for release in [300, 299, 301] {
            input.row[4] = release;
            cases.step(&input);
        }
        input.row[4] = 300;
        input.state = samples::stepped(&input);
    }
}

/// v 500, C 2000 with held 2566 and 2567; v 1000 with held 2001; w 250,
/// J 8000, C 2000 with held 2566 and 8000, and one next to each.
fn demand_and_supply(cases: &mut Cases) {
    let mut input = samples::first_step(&samples::even(1, 1));
    input.road.gate_capacity = 1_000_000;
    input.state.gate_queue = 1_000_000;
    for v in [500, 1_000] {
        input.road.v[0] = v;
        for held in [
            0, 1, 2, 2_000, 2_001, 2_565, 2_566, 2_567, 2_568, 7_999, 8_000,
        ] {
            input.state.held[0] = held;
            cases.step(&input);
        }
    }
}

/// Cell 2 is full, so nothing may enter it: with b 750 cell 1 may send 1, if
/// its demand is at least 1; with b 0 all of its demand.
fn shares(cases: &mut Cases) {
    let mut input = samples::first_step(&samples::even(2, 1));
    input.state.held[1] = 8_000;
    for b in [750, 0, 1_000, 1, 999] {
        input.road.b[0] = b;
        for held in [0, 1, 2, 4, 4_000] {
            input.state.held[0] = held;
            cases.step(&input);
        }
    }
}

/// n 64 and T 1,440 at their check; 65, 0, 1,441 and T 0 past it. All sizes
/// are right.
fn counts(cases: &mut Cases) {
    for (n, steps) in [(64, 1), (1, 1_440), (65, 1), (1, 1_441), (0, 3), (2, 0)] {
        cases.draft(&samples::even(n, steps));
    }
    // 64 and 1,440 at once pass the check, but no record is so long.
    let mut draft = samples::even(2, 3);
    (draft.n, draft.steps) = (64, 1_440);
    cases.draft(&draft);
}

fn held_and_jam(cases: &mut Cases) {
    for cell in 0..2 {
        for held in [7_999, 8_000, 8_001] {
            let mut draft = samples::printed();
            draft.cells[cell].held = held;
            draft.rows = vec![vec![0; 5]; 2];
            draft.steps = 2;
            cases.draft(&draft);
        }
    }
}

/// Arrivals 500 and supply 1000: with queue 0 a release of 500 passes, 501 is
/// 9; with queue 300, 800 and 801.
fn release_and_queue(cases: &mut Cases) {
    for (queue, release) in [(0, 499), (0, 500), (0, 501), (300, 800), (300, 801)] {
        let mut draft = samples::printed();
        draft.cells[1].queue = queue;
        draft.rows[0][4] = release;
        everywhere(cases, &draft);
    }
}

/// Queue 1500, arrivals 500 and supply 1000: a release of 1000 passes, 1001 is 10.
fn release_and_supply(cases: &mut Cases) {
    for release in [999, 1_000, 1_001] {
        let mut draft = samples::printed();
        draft.rows[0][4] = release;
        everywhere(cases, &draft);
    }
}

/// A draft in all ways, and its first step.
fn everywhere(cases: &mut Cases, draft: &Draft) {
    cases.draft(draft);
    let input: StepInput = samples::first_step(draft);
    cases.step(&input);
}
