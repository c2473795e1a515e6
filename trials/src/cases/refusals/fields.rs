//! Refusal 5: the gate's and the cells' fields.

use crate::cases::list::Cases;
use crate::cases::samples;
use reference::draft::{CellDraft, Draft};

pub fn add(cases: &mut Cases) {
    gate(cases);
    for cell in 0..3 {
        thousandths(cases, cell);
        marks(cases, cell);
        jam_and_held(cases, cell);
        capacities(cases, cell);
        queues(cases, cell);
    }
    last_shares(cases);
    last_of_64(cases);
}

fn with(cases: &mut Cases, change: impl FnOnce(&mut Draft)) {
    let mut draft = samples::three_cells();
    change(&mut draft);
    cases.draft(&draft);
}

fn gate(cases: &mut Cases) {
    for capacity in [0, 1_000_000, 1_000_001, u32::MAX] {
        with(cases, |d| d.gate_capacity = capacity);
    }
    for queue in [0, 1_000_000_000, 1_000_000_001, u32::MAX] {
        with(cases, |d| d.gate_queue = queue);
    }
}

/// Speed, wave and share. Any share but 0 is refused at the last cell.
fn thousandths(cases: &mut Cases, cell: usize) {
    let fields: [fn(&mut CellDraft, u16); 3] = [|c, x| c.v = x, |c, x| c.w = x, |c, x| c.b = x];
    for set in fields {
        for number in [0, 1, 1_000, 1_001, 1_256, 65_535] {
            with(cases, |d| set(&mut d.cells[cell], number));
        }
    }
}

/// Marks, with the queue of the sample and without any, and with rows that
/// don't use the ramp.
fn marks(cases: &mut Cases, cell: usize) {
    for mark in [0, 1, 2, 256, 257, 65_535] {
        with(cases, |d| d.cells[cell].ramp = mark);
        with(cases, |d| {
            d.cells[cell].ramp = mark;
            d.cells[cell].queue = 0;
        });
        with(cases, |d| {
            d.cells[cell].ramp = mark;
            d.cells[cell].queue = 0;
            without_ramp_numbers(d, cell);
        });
    }
}

/// Every row has 0 for this cell.
fn without_ramp_numbers(draft: &mut Draft, cell: usize) {
    for row in &mut draft.rows {
        row[1 + 2 * cell] = 0;
        row[2 + 2 * cell] = 0;
    }
}

fn jam_and_held(cases: &mut Cases, cell: usize) {
    let held = samples::three_cells().cells[cell].held;
    for jam in [0, held - 1, held, 1_000_000, 1_000_001, u32::MAX] {
        with(cases, |d| d.cells[cell].jam = jam);
    }
    for held in [0, 7_600, 8_000, 8_001, u32::MAX] {
        with(cases, |d| d.cells[cell].held = held);
    }
    for held in [1_000_000, 1_000_001] {
        with(cases, |d| {
            d.cells[cell].held = held;
            d.cells[cell].jam = held;
        });
    }
    with(cases, |d| (d.cells[cell].held, d.cells[cell].jam) = (0, 0));
}

fn capacities(cases: &mut Cases, cell: usize) {
    for capacity in [0, 110, 1_000_000, 1_000_001, u32::MAX] {
        with(cases, |d| d.cells[cell].capacity = capacity);
    }
}

/// The middle cell has no ramp, so any queue there is refused.
fn queues(cases: &mut Cases, cell: usize) {
    for queue in [0, 1, 1_000_000_000, 1_000_000_001, u32::MAX] {
        with(cases, |d| d.cells[cell].queue = queue);
    }
}

/// One cell alone is the last one.
fn last_shares(cases: &mut Cases) {
    for b in [0, 1, 1_000] {
        let mut draft = samples::even(1, 2);
        draft.cells[0].b = b;
        cases.draft(&draft);
    }
}

/// The last entry of the arrays.
fn last_of_64(cases: &mut Cases) {
    let changes: [fn(&mut CellDraft); 6] = [
        |c| c.v = 1_001,
        |c| c.b = 1,
        |c| c.ramp = 2,
        |c| c.held = 8_001,
        |c| c.capacity = 1_000_001,
        |c| c.queue = 1,
    ];
    for change in changes {
        let mut draft = samples::even(64, 1);
        change(&mut draft.cells[63]);
        cases.read(&draft.encode());
    }
}
