//! Judging a schedule: reading's refusals, 17, 18, 12, then 9 or 10, 13 and 14.

use crate::answer::Answer;
use crate::lanes;
use crate::model::{self, Road, State};
use crate::record::{self, Reading};
use crate::refusals;
use crate::step;

/// Judges a schedule, one row of outflows per step, gate first, under a table of
/// lanes.
pub fn judge(record: &[u8], table: &[u8], schedule: &[u32]) -> Answer {
    let reading = record::read(record);
    if reading.number != 0 {
        return Answer::without_state(reading.number, reading.place);
    }
    let road = reading.road;
    if let Some((number, place)) = lanes::table_fault(table, road.n, reading.steps) {
        return Answer::without_state(number, place);
    }
    if schedule.len() != reading.steps * (road.n + 1) {
        return Answer::without_state(refusals::SCHEDULE_LENGTH, 0);
    }
    walk(record, &reading, table, reading.state, schedule)
}

/// A schedule's steps, one after the other, from a state within its limits.
pub fn walk(
    record: &[u8],
    reading: &Reading,
    table: &[u8],
    from: State,
    schedule: &[u32],
) -> Answer {
    let road = reading.road;
    let width = road.n + 1;
    let mut state = from;
    for (t, outflows) in schedule.chunks(width).enumerate() {
        let row = record::row(record, road.n, t);
        let here = lanes::road_at(&road, table, t);
        let fault = step::release_fault(&here, &state, &row)
            .or_else(|| outflow_fault(&here, &state, &row, outflows));
        if let Some((number, place)) = fault {
            return Answer {
                number,
                step: t,
                place,
                road,
                state,
            };
        }
        state = step::advance(&here, &state, &row, outflows);
    }
    Answer::finished(road, state)
}

/// Refusals 13 and 14: at the lowest place with either, 13 before 14.
/// The place of 14 is the one that sends too much. The releases fit.
fn outflow_fault(
    road: &Road,
    state: &State,
    row: &[u32],
    outflows: &[u32],
) -> Option<(u32, usize)> {
    for (place, &outflow) in outflows.iter().enumerate() {
        let outflow = u64::from(outflow);
        if outflow > model::demand(road, state, place) {
            return Some((refusals::OUTFLOW_ABOVE_DEMAND, place));
        }
        if place == road.n {
            continue;
        }
        let entering = model::entering(road.share(place), state.cumulative(place), outflow);
        if entering > step::room(road, state, row, place + 1) {
            return Some((refusals::ENTERING_ABOVE_ROOM, place));
        }
    }
    None
}
