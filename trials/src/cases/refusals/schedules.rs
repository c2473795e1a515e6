//! Refusals 12, 13 and 14: the schedule.

use crate::cases::list::{own_rows, table_length, Cases};
use crate::cases::samples;
use crate::cases::walk::Walk;
use reference::draft::Draft;

pub fn add(cases: &mut Cases) {
    for draft in [samples::printed(), samples::three_cells()] {
        lengths(cases, &draft);
        around_greatest(cases, &draft);
        around_demand(cases, &draft);
        huge(cases, &draft);
        wrong_later(cases, &draft);
    }
    lengths(cases, &samples::even(1, 1));
    lengths(cases, &samples::even(64, 2));
}

fn rows_of(draft: &Draft) -> Vec<u32> {
    own_rows(table_length(draft), &[], &draft.encode())
}

/// Off by one, by a row and by a column, empty and doubled.
fn lengths(cases: &mut Cases, draft: &Draft) {
    let (n, steps) = (draft.cells.len(), draft.rows.len());
    let whole = (n + 1) * steps;
    let mut rows = rows_of(draft);
    rows.resize(2 * whole, 0);
    for length in [
        0,
        whole - 1,
        whole,
        whole + 1,
        whole - n - 1,
        whole + n + 1,
        n * steps,
        2 * whole,
    ] {
        cases.judge(&rows[..length], &draft.encode());
    }
}

/// One below and one above the greatest outflow, at every step and place.
fn around_greatest(cases: &mut Cases, draft: &Draft) {
    let rows = rows_of(draft);
    for at in 0..rows.len() {
        for number in [rows[at] - 1, rows[at] + 1] {
            let mut schedule = rows.clone();
            schedule[at] = number;
            cases.judge(&schedule, &draft.encode());
        }
    }
}

/// The demand itself and one more, at every step and place.
fn around_demand(cases: &mut Cases, draft: &Draft) {
    let record = draft.encode();
    let rows = rows_of(draft);
    let walk = Walk::new(&record, &[], &rows);
    for t in 0..walk.steps() {
        for place in 0..=walk.road.n {
            for more in [0, 1] {
                let mut schedule = rows.clone();
                schedule[walk.at(t, place)] = walk.demand(t, place) as u32 + more;
                cases.judge(&schedule, &record);
            }
        }
    }
}

/// Numbers that overflow when they are added to anything.
fn huge(cases: &mut Cases, draft: &Draft) {
    let rows = rows_of(draft);
    for at in 0..rows.len() {
        let mut schedule = rows.clone();
        schedule[at] = u32::MAX - rows[at] / 2;
        cases.judge(&schedule, &draft.encode());
    }
    cases.judge(&vec![u32::MAX; rows.len()], &draft.encode());
}

/// After a fault the later rows may be anything.
fn wrong_later(cases: &mut Cases, draft: &Draft) {
    let width = draft.cells.len() + 1;
    let rows = rows_of(draft);
    for step in 0..draft.rows.len() {
        let mut schedule = rows.clone();
        schedule[step * width..].fill(u32::MAX);
        cases.judge(&schedule, &draft.encode());
    }
}
