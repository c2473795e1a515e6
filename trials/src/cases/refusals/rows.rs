//! Refusal 6: the numbers of the rows.

use crate::cases::list::Cases;
use crate::cases::samples;

pub fn add(cases: &mut Cases) {
    // Gate, ramp 1 (arrivals, release), cell 2 without a ramp, ramp 3.
    for step in 0..3 {
        for slot in [0, 1, 2, 5, 6] {
            for number in [1_000_000, 1_000_001, u32::MAX] {
                with_number(cases, step, slot, number);
            }
        }
        for slot in [3, 4] {
            for number in [1, 1_000_000, 1_000_001] {
                with_number(cases, step, slot, number);
            }
        }
    }
    last_of_64(cases);
}

/// Wide cells take a release of 1,000,000 once.
fn with_number(cases: &mut Cases, step: usize, slot: usize, number: u32) {
    let mut draft = samples::wide();
    draft.rows[step][slot] = number;
    cases.draft(&draft);
}

/// The last number of a row of 129, without a ramp and with one.
fn last_of_64(cases: &mut Cases) {
    for (ramp, number) in [(0, 0), (0, 1), (1, 1), (1, 1_000_000), (1, 1_000_001)] {
        for slot in [127, 128] {
            let mut draft = samples::even(64, 2);
            draft.cells[63].ramp = ramp;
            draft.cells[63].queue = u32::from(ramp) * 5_000;
            draft.rows[1][slot] = number;
            cases.draft(&draft);
        }
    }
}
