//! Filling a record's releases by meter laws: reading's refusals, 16, 17, 18 and 11.

use crate::answer::Answer;
use crate::lanes;
use crate::meter::{self, Law};
use crate::model::{self, Road, State};
use crate::record::{self, Reading};
use crate::refusals;
use crate::step;

/// A law for every cell; those of cells without a ramp or past n are ignored.
pub type Laws = [Law; Road::MAX_CELLS];

/// What the laws remember of the last step, cell by cell; 0 before the first.
#[derive(Clone, Copy, Debug, PartialEq, Eq)]
pub struct Last {
    /// What was released, in parts.
    pub release: [u32; Road::MAX_CELLS],
    /// What entered from upstream.
    pub entered: [u32; Road::MAX_CELLS],
}

/// Puts the laws' releases into the record and runs it under a table of lanes,
/// in one pass.
///
/// The list takes the outflows as in running. After a refusal record and list
/// are unchanged.
pub fn fill(record: &mut [u8], laws: &Laws, table: &[u8], list: &mut [u32]) -> Answer {
    let reading = record::read(record);
    if reading.number != 0 {
        return Answer::without_state(reading.number, reading.place);
    }
    let road = reading.road;
    if let Some(cell) = first_not_finite(&road, laws) {
        return Answer::without_state(refusals::LAW_NUMBERS, cell);
    }
    if let Some((number, place)) = lanes::table_fault(table, road.n, reading.steps) {
        return Answer::without_state(number, place);
    }
    if list.len() < reading.steps * (road.n + 1) {
        return Answer::without_state(refusals::LIST_LENGTH, 0);
    }
    walk(
        record,
        &reading,
        laws,
        table,
        (reading.state, Last::none()),
        list,
    )
    .0
}

/// The steps of a record's rows, filled one after the other, from a state within its
/// limits and what the laws remember then. The list has room for all of them.
pub fn walk(
    record: &mut [u8],
    reading: &Reading,
    laws: &Laws,
    table: &[u8],
    from: (State, Last),
    list: &mut [u32],
) -> (Answer, Last) {
    let road = reading.road;
    let width = road.n + 1;
    let (mut state, mut last) = from;
    for t in 0..reading.steps {
        let mut row = record::row(record, road.n, t);
        let here = lanes::road_at(&road, table, t);
        for cell in 1..=road.n {
            row[2 * cell] = granted(&here, &state, &row, &laws[cell - 1], &last, cell);
        }
        record::put_row(record, road.n, t, &row);
        let outflows = step::greatest_outflows(&here, &state, &row);
        list[t * width..(t + 1) * width].copy_from_slice(&outflows);
        last.remember(&here, &state, &row, &outflows);
        state = step::advance(&here, &state, &row, &outflows);
    }
    (Answer::finished(road, state), last)
}

/// Refusal 16: the lowest cell with a ramp whose law has a number that isn't
/// finite.
pub fn first_not_finite(road: &Road, laws: &Laws) -> Option<usize> {
    (1..=road.n).find(|&cell| road.ramp[cell - 1] == 1 && !laws[cell - 1].is_finite())
}

/// The release that a cell's law gets in a step; 0 without a ramp.
fn granted(road: &Road, state: &State, row: &[u32], law: &Law, last: &Last, cell: usize) -> u32 {
    let i = cell - 1;
    if road.ramp[i] == 0 {
        return 0;
    }
    let wish = law.wish(last.release[i], last.entered[i], state.held[i]);
    meter::release(wish, cap(road, state, row, cell))
}

/// The most that may be released: queue and arrivals, supply, 1,000,000.
fn cap(road: &Road, state: &State, row: &[u32], cell: usize) -> u32 {
    let most = model::waiting(state, row, cell).min(model::supply(road, state, cell));
    most.min(u64::from(Road::MAX_RATE)) as u32
}

impl Last {
    /// Before the first step.
    pub const fn none() -> Last {
        Last {
            release: [0; Road::MAX_CELLS],
            entered: [0; Road::MAX_CELLS],
        }
    }

    /// A step's granted releases and what these outflows let in.
    fn remember(&mut self, road: &Road, before: &State, row: &[u32], outflows: &[u32]) {
        for cell in 1..=road.n {
            self.release[cell - 1] = row[2 * cell];
            self.entered[cell - 1] = step::entering(road, before, outflows, cell) as u32;
        }
    }
}
