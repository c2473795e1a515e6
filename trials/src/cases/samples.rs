//! Records that the groups vary.

use reference::draft::{CellDraft, Draft};
use reference::model::{Road, State};
use reference::record;
use reference::step;

use super::case::StepInput;

/// The outflows of the document's printed run.
pub const PRINTED_ROWS: [u32; 9] = [1500, 934, 1000, 1358, 933, 1000, 1252, 934, 1000];

const PLAIN: CellDraft = CellDraft {
    v: 500,
    w: 250,
    b: 750,
    ramp: 0,
    jam: 8_000,
    capacity: 2_000,
    held: 2_000,
    queue: 0,
};

/// The document's input.
pub fn printed() -> Draft {
    let last = CellDraft {
        b: 0,
        ramp: 1,
        capacity: 1_000,
        held: 4_000,
        queue: 1_500,
        ..PLAIN
    };
    let row = vec![1_000, 0, 0, 500, 300];
    Draft::new((2_000, 3_000), vec![PLAIN, last], vec![row; 3])
}

/// Three cells of moderate flow; the first and the last have ramps. In every
/// step supply holds the gate and cell 1.
pub fn three_cells() -> Draft {
    let with_ramp = CellDraft {
        ramp: 1,
        queue: 700,
        ..PLAIN
    };
    let middle = CellDraft {
        capacity: 600,
        held: 3_000,
        ..PLAIN
    };
    let last = CellDraft {
        b: 0,
        capacity: 800,
        held: 6_000,
        ..with_ramp
    };
    let row = vec![1_200, 80, 100, 0, 0, 90, 110];
    let cells = vec![with_ramp, middle, last];
    Draft::new((1_900, 4_000), cells, vec![row; 3])
}

/// Three empty cells of the greatest size, the first and the last with
/// queues at their bound. Nothing is released.
pub fn wide() -> Draft {
    let with_ramp = CellDraft {
        v: 1_000,
        w: 1_000,
        b: 1_000,
        ramp: 1,
        jam: 1_000_000,
        capacity: 1_000_000,
        held: 0,
        queue: 1_000_000_000,
    };
    let middle = CellDraft {
        ramp: 0,
        queue: 0,
        ..with_ramp
    };
    let last = CellDraft { b: 0, ..with_ramp };
    let cells = vec![with_ramp, middle, last];
    Draft::new((0, 0), cells, vec![vec![0; 7]; 3])
}

/// A road of n like cells without ramps and T like rows.
pub fn even(n: usize, steps: usize) -> Draft {
    let mut cells = vec![PLAIN; n];
    if let Some(last) = cells.last_mut() {
        last.b = 0;
    }
    let mut row = vec![0; 1 + 2 * n];
    row[0] = 700;
    Draft::new((1_500, 2_000), cells, vec![row; steps])
}

/// The first step of a sound draft, with one lane a cell, open.
pub fn first_step(draft: &Draft) -> StepInput {
    let reading = record::read(&draft.encode());
    assert_eq!(reading.number, 0);
    StepInput {
        road: reading.road,
        state: reading.state,
        row: draft.rows[0].clone(),
        built: [1; Road::MAX_CELLS],
        open: [1; Road::MAX_CELLS],
    }
}

/// The state after a step.
pub fn stepped(input: &StepInput) -> State {
    let StepInput {
        road,
        state,
        row,
        built,
        open,
    } = input;
    step::step(*road, *state, row, built, open).state
}
