//! Running a record: reading's refusals, 17, 18, 11, and 9 or 10.

use crate::answer::Answer;
use crate::lanes;
use crate::model::State;
use crate::record::{self, Reading};
use crate::refusals;
use crate::step;

/// Runs a record under a table of lanes and writes its outflows, one row per step,
/// gate first.
///
/// Only the rows of steps done are written; the rest of the list is unchanged.
pub fn run(record: &[u8], table: &[u8], list: &mut [u32]) -> Answer {
    let reading = record::read(record);
    if reading.number != 0 {
        return Answer::without_state(reading.number, reading.place);
    }
    let road = reading.road;
    if let Some((number, place)) = lanes::table_fault(table, road.n, reading.steps) {
        return Answer::without_state(number, place);
    }
    if list.len() < reading.steps * (road.n + 1) {
        return Answer::without_state(refusals::LIST_LENGTH, 0);
    }
    walk(record, &reading, table, reading.state, list)
}

/// The steps of a record's rows, one after the other, from a state within its limits.
/// The list has room for all of them.
pub fn walk(
    record: &[u8],
    reading: &Reading,
    table: &[u8],
    from: State,
    list: &mut [u32],
) -> Answer {
    let road = reading.road;
    let width = road.n + 1;
    let mut state = from;
    for t in 0..reading.steps {
        let row = record::row(record, road.n, t);
        let here = lanes::road_at(&road, table, t);
        if let Some((number, place)) = step::release_fault(&here, &state, &row) {
            return Answer {
                number,
                step: t,
                place,
                road,
                state,
            };
        }
        let outflows = step::greatest_outflows(&here, &state, &row);
        list[t * width..(t + 1) * width].copy_from_slice(&outflows);
        state = step::advance(&here, &state, &row, &outflows);
    }
    Answer::finished(road, state)
}
