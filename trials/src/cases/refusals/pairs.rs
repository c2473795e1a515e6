//! Two faults at once: which of them is named.

use crate::cases::list::{own_rows, table_length, Cases};
use crate::cases::samples;
use crate::cases::walk::Walk;
use reference::draft::Draft;

pub fn add(cases: &mut Cases) {
    for change in FRAMES.iter().chain(&FIELDS).chain(&RELEASES) {
        let mut draft = samples::three_cells();
        change(&mut draft);
        cases.draft(&draft);
    }
    lengths(cases);
    outflows(cases);
    releases_and_outflows(cases);
}

type Change = fn(&mut Draft);

/// Refusals 1 to 4, each with a later one.
const FRAMES: [Change; 12] = [
    |d| (d.length, d.version) = (Some(1), 2),
    |d| (d.length, d.n) = (Some(1), 65),
    |d| (d.length, d.extra) = (Some(1), 1),
    |d| (d.length, d.gate_queue) = (Some(1), u32::MAX),
    |d| (d.version, d.n) = (2, 0),
    |d| (d.version, d.steps) = (0, 1_441),
    |d| (d.version, d.cut) = (255, 1),
    |d| (d.n, d.steps) = (65, 0),
    // 3 and 4.
    |d| (d.n, d.extra) = (65, 24),
    |d| (d.steps, d.cut) = (0, 1),
    // 4 and 5, 4 and 6.
    |d| (d.extra, d.gate_capacity) = (1, 1_000_001),
    |d| (d.cut, d.rows[0][0]) = (4, 1_000_001),
];

/// Refusals 5 and 6, each twice, together, and with later ones.
const FIELDS: [Change; 14] = [
    // 5 at two places, in either order.
    |d| (d.gate_capacity, d.cells[0].v) = (1_000_001, 1_001),
    |d| (d.gate_queue, d.cells[2].b) = (1_000_000_001, 1),
    |d| (d.cells[0].held, d.cells[2].ramp) = (8_001, 2),
    |d| (d.cells[0].ramp, d.cells[2].held) = (2, 8_001),
    |d| (d.cells[1].queue, d.cells[2].w) = (1, 1_001),
    |d| (d.cells[1].w, d.cells[2].queue) = (1_001, 1_000_000_001),
    |d| (d.cells[1].w, d.cells[1].held) = (1_001, 8_001),
    // 5 and 6: 5 at the last cell, 6 at the first step.
    |d| (d.cells[2].capacity, d.rows[0][0]) = (1_000_001, 1_000_001),
    |d| (d.cells[0].queue, d.rows[2][6]) = (1_000_000_001, 1_000_001),
    // A ramp that isn't one: 5, though its rows use it.
    |d| d.cells[0].ramp = 0,
    // 6 at two steps, in either order, and twice in one step.
    |d| (d.rows[1][0], d.rows[2][3]) = (1_000_001, 1),
    |d| (d.rows[1][4], d.rows[2][0]) = (1, 1_000_001),
    |d| (d.rows[1][4], d.rows[1][0]) = (1, 1_000_001),
    // 9 at step 0, 6 at step 2.
    |d| (d.rows[0][2], d.rows[2][3]) = (781, 1),
];

/// Cells 1 and 3 have queues of 700, and 80 and 90 arrive there. The supply of
/// cell 1 is 1500, that of cell 3 is 500, before step 0.
const RELEASES: [Change; 12] = [
    // 9 and 10 at one cell: 9.
    |d| d.rows[0][2] = 1_501,
    |d| d.rows[0][6] = 791,
    // 9 at cell 1, 10 at cell 3.
    |d| (d.rows[0][2], d.rows[0][6]) = (781, 501),
    // 10 at cell 1, 9 at cell 3.
    |d| (d.cells[0].queue, d.rows[0][2], d.rows[0][6]) = (5_000, 1_501, 791),
    // 9 and 9, 10 and 10.
    |d| (d.rows[0][2], d.rows[0][6]) = (781, 791),
    |d| {
        (d.cells[0].queue, d.rows[0][2]) = (5_000, 1_501);
        d.rows[0][6] = 501;
    },
    // At two steps, in either order of number and cell.
    |d| (d.rows[0][6], d.rows[1][2]) = (791, 900_000),
    |d| (d.rows[0][2], d.rows[1][6]) = (781, 900_000),
    |d| (d.rows[1][6], d.rows[2][2]) = (900_000, 900_000),
    |d| (d.cells[2].queue, d.rows[1][6], d.rows[2][2]) = (5_000, 3_000, 900_000),
    |d| (d.cells[0].queue, d.rows[1][2], d.rows[2][6]) = (5_000, 3_000, 900_000),
    // Two refusals that only the second cell has.
    |d| (d.rows[0][2], d.rows[0][6], d.cells[2].held) = (780, 791, 8_000),
];

/// 11 and 12 together with 1, 5, 6, 9, 10, 13 and 14.
fn lengths(cases: &mut Cases) {
    let changes: [Change; 6] = [
        |_| (),
        |d| d.length = Some(0),
        |d| d.cells[2].v = 1_001,
        |d| d.rows[2][3] = 1,
        |d| d.rows[0][2] = 781,
        |d| (d.cells[0].queue, d.rows[0][2]) = (5_000, 1_501),
    ];
    for change in changes {
        let mut draft = samples::three_cells();
        change(&mut draft);
        let record = draft.encode();
        for length in [0, 11] {
            cases.run(length, &record);
        }
        for length in [0, 11, 13] {
            cases.judge(&vec![1_000_000; length], &record);
            cases.judge(&vec![0; length], &record);
        }
    }
}

/// The outflows of a table that may be spoilt.
struct Table {
    record: Vec<u8>,
    rows: Vec<u32>,
    walk: Walk,
}

impl Table {
    fn new(draft: &Draft) -> Table {
        let record = draft.encode();
        let rows = own_rows(table_length(draft), &[], &record);
        let walk = Walk::new(&record, &[], &rows);
        Table { record, rows, walk }
    }

    /// One above the demand: 13.
    fn above_demand(&mut self, t: usize, place: usize) {
        self.rows[self.walk.at(t, place)] = self.walk.demand(t, place) as u32 + 1;
    }

    /// One above the greatest outflow, where supply holds it: 14.
    fn too_much(&mut self, t: usize, place: usize) {
        let number = self.walk.greatest(t)[place] + 1;
        assert!(u64::from(number) <= self.walk.demand(t, place));
        self.rows[self.walk.at(t, place)] = number;
    }
}

/// Spoils a table at a step.
type Spoil = fn(&mut Table, usize);

/// 13 and 14 at one place, at two places and at two steps.
const SPOILS: [Spoil; 10] = [
    // At one place: one above the demand also lets too much in.
    |x, t| x.above_demand(t, 0),
    |x, t| x.above_demand(t, 1),
    // At two places, in either order.
    |x, t| {
        x.above_demand(t, 0);
        x.too_much(t, 1);
    },
    |x, t| {
        x.too_much(t, 0);
        x.above_demand(t, 1);
    },
    |x, t| {
        x.too_much(t, 1);
        x.above_demand(t, 3);
    },
    |x, t| {
        x.too_much(t, 1);
        x.above_demand(t, 2);
    },
    |x, t| {
        x.above_demand(t, 0);
        x.above_demand(t, 3);
    },
    |x, t| {
        x.too_much(t, 0);
        x.too_much(t, 1);
    },
    // At two steps, in either order of number and place.
    |x, t| {
        x.above_demand(t, 3);
        x.too_much((t + 1) % 3, 0);
    },
    |x, t| {
        x.too_much(t, 1);
        x.above_demand((t + 1) % 3, 0);
    },
];

fn outflows(cases: &mut Cases) {
    for spoil in SPOILS {
        for t in 0..3 {
            let mut table = Table::new(&samples::three_cells());
            spoil(&mut table, t);
            cases.judge(&table.rows, &table.record);
        }
    }
}

/// 9 or 10 together with 13 or 14: in one step releases come first, otherwise the
/// earlier step.
fn releases_and_outflows(cases: &mut Cases) {
    // The last cell's release above its queue, and above its supply.
    let changes: [Change; 2] = [
        |d| d.rows[1][6] = 1_000_000,
        |d| (d.cells[2].queue, d.rows[1][6]) = (900_000, 800_000),
    ];
    for change in changes {
        let mut draft = samples::three_cells();
        change(&mut draft);
        let record = draft.encode();
        for t in 0..3 {
            let mut table = Table::new(&samples::three_cells());
            table.above_demand(t, 0);
            cases.judge(&table.rows, &record);
            let mut table = Table::new(&samples::three_cells());
            table.too_much(t, 0);
            cases.judge(&table.rows, &record);
        }
    }
}
