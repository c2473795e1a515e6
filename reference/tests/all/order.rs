//! All faults at once, mended one after another: the next one shows.

use crate::support::*;
use reference::draft::Draft;

/// The example with every fault that a record can have.
fn spoilt() -> Draft {
    let mut draft = example_draft();
    draft.length = Some(7);
    draft.version = 3;
    draft.n = 65;
    draft.steps = 0;
    draft.extra = 1;
    draft.gate_queue = 1_000_000_001;
    draft.cells[0].held = 8_001;
    draft.cells[1].b = 1;
    draft.rows[0][4] = 2_001;
    draft.rows[1][0] = 1_000_001;
    draft.rows[1][4] = 1_001;
    draft.rows[2][1] = 1;
    draft
}

type Mend = fn(&mut Draft);

/// Each mend and the number and place that show before it.
const MENDS: [(u32, usize, Mend); 10] = [
    (1, 0, |d| d.length = None),
    (2, 0, |d| d.version = 1),
    (3, 0, |d| d.n = 2),
    (3, 0, |d| d.steps = 3),
    (4, 0, |d| d.extra = 0),
    (5, 0, |d| d.gate_queue = 3_000),
    (5, 1, |d| d.cells[0].held = 2_000),
    (5, 2, |d| d.cells[1].b = 0),
    (6, 1, |d| d.rows[1][0] = 1_000),
    (6, 2, |d| d.rows[2][1] = 0),
];

#[test]
fn running_refuses_in_order() {
    let mut draft = spoilt();
    for (number, place, mend) in MENDS {
        let answer = run(&draft.encode(), &mut []);
        assert_eq!(verdict(&answer), (number, 0, place));
        mend(&mut draft);
    }
    assert_eq!(verdict(&run(&draft.encode(), &mut [0; 8])), (11, 0, 0));
    assert_eq!(verdict(&run(&draft.encode(), &mut [0; 9])), (9, 0, 2));
    draft.rows[0][4] = 300;
    assert_eq!(verdict(&run(&draft.encode(), &mut [0; 9])), (10, 1, 2));
    draft.rows[1][4] = 300;
    assert_eq!(verdict(&run(&draft.encode(), &mut [0; 9])), (0, 0, 0));
}

#[test]
fn judging_refuses_in_order() {
    let mut draft = spoilt();
    for (number, place, mend) in MENDS {
        let answer = judge(&draft.encode(), &[]);
        assert_eq!(verdict(&answer), (number, 0, place));
        mend(&mut draft);
    }
    // Place 1 sends 935 (14) and place 2 1001 (13) in step 0.
    let mut schedule = [1500, 935, 1001, 1358, 934, 1000, 1252, 933, 1001];
    let judged = |draft: &Draft, schedule: &[u32]| verdict(&judge(&draft.encode(), schedule));
    assert_eq!(judged(&draft, &schedule[..8]), (12, 0, 0));
    assert_eq!(judged(&draft, &schedule), (9, 0, 2));
    draft.rows[0][4] = 300;
    assert_eq!(judged(&draft, &schedule), (14, 0, 1));
    schedule[1] = 934;
    assert_eq!(judged(&draft, &schedule), (13, 0, 2));
    schedule[2] = 1000;
    assert_eq!(judged(&draft, &schedule), (10, 1, 2));
    draft.rows[1][4] = 300;
    assert_eq!(judged(&draft, &schedule), (14, 1, 1));
    schedule[4] = 933;
    assert_eq!(judged(&draft, &schedule), (13, 2, 2));
    schedule[8] = 1000;
    assert_eq!(judged(&draft, &schedule), (0, 0, 0));
}
