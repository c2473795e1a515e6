//! Stepping, and the parts of a step that running and judging share.

use crate::lanes;
use crate::limits;
use crate::model::{self, Road, State};
use crate::refusals;

/// Bound of the total for each step done.
const MAX_TOTAL_A_STEP: u64 = 200_000_000_000;

/// What stepping returns. After a refusal the state is the one given.
#[derive(Clone, Copy, Debug, PartialEq, Eq)]
pub struct Stepped {
    /// The refusal's number, 0 without one.
    pub number: u32,
    /// The cell for 9, 10 and 18, else 0.
    pub place: usize,
    /// After the step; after a refusal the state given.
    pub state: State,
}

/// Lanes of every cell, a bit each. Entries past cell n aren't read.
pub type Lanes = [u8; Road::MAX_CELLS];

/// One step, for any road, state, row and lanes.
pub fn step(road: Road, state: State, row: &[u32], built: &Lanes, open: &Lanes) -> Stepped {
    let refused = |number, place| Stepped {
        number,
        place,
        state,
    };
    if !all_within_limits(&road, &state, row) {
        return refused(refusals::STEP_INPUT, 0);
    }
    if let Some(cell) = lanes::step_fault(built, open, road.n) {
        return refused(refusals::LANES, cell);
    }
    if state.steps == Road::MAX_STEPS {
        return refused(refusals::STEPS_DONE, 0);
    }
    let road = lanes::narrowed(&road, built, open);
    if let Some((number, cell)) = release_fault(&road, &state, row) {
        return refused(number, cell);
    }
    let outflows = greatest_outflows(&road, &state, row);
    Stepped {
        number: 0,
        place: 0,
        state: advance(&road, &state, row, &outflows),
    }
}

/// None of the conditions of refusal 7 holds. Sizes are tested first, so the later
/// conditions concern only cells that exist.
fn all_within_limits(road: &Road, state: &State, row: &[u32]) -> bool {
    (1..=Road::MAX_CELLS).contains(&road.n)
        && row.len() == 1 + 2 * road.n
        && road_fits(road)
        && limits::row_fits(road, row)
        && state_fits(road, state)
}

fn road_fits(road: &Road) -> bool {
    limits::gate_fits(road) && (1..=road.n).all(|cell| limits::cell_fits(road, cell))
}

/// At most 1,440 steps are done, and the state is within its bounds after s steps.
pub fn state_fits(road: &Road, state: &State) -> bool {
    if state.steps > Road::MAX_STEPS {
        return false;
    }
    let s = state.steps as u64;
    let f_bound = u64::from(Road::MAX_RATE) * s;
    limits::gate_queue_fits(state)
        && (1..=road.n).all(|cell| limits::cell_counts_fit(road, state, cell))
        && (0..=road.n).all(|place| state.cumulative(place) <= f_bound)
        && state.total() <= u128::from(MAX_TOTAL_A_STEP * s)
}

/// Refusals 9 and 10: at the lowest cell with either, 9 before 10. What arrives
/// in a step may be released in it.
pub fn release_fault(road: &Road, state: &State, row: &[u32]) -> Option<(u32, usize)> {
    for cell in 1..=road.n {
        let release = model::release(row, cell);
        if release > model::waiting(state, row, cell) {
            return Some((refusals::RELEASE_ABOVE_QUEUE, cell));
        }
        if release > model::supply(road, state, cell) {
            return Some((refusals::RELEASE_ABOVE_SUPPLY, cell));
        }
    }
    None
}

/// What may enter a cell from upstream: supply less release. The release fits.
pub fn room(road: &Road, state: &State, row: &[u32], cell: usize) -> u64 {
    model::room(model::supply(road, state, cell), model::release(row, cell))
}

/// The greatest outflow of every place, gate first. The releases fit.
pub fn greatest_outflows(road: &Road, state: &State, row: &[u32]) -> Vec<u32> {
    (0..=road.n)
        .map(|place| {
            let demand = model::demand(road, state, place);
            if place == road.n {
                return narrow(demand);
            }
            let room = room(road, state, row, place + 1);
            let f = state.cumulative(place);
            narrow(model::greatest_outflow(road.share(place), f, demand, room))
        })
        .collect()
}

/// What enters a cell from upstream in a step with these outflows.
pub fn entering(road: &Road, before: &State, outflows: &[u32], cell: usize) -> u64 {
    let upstream = cell - 1;
    let outflow = u64::from(outflows[upstream]);
    model::entering(road.share(upstream), before.cumulative(upstream), outflow)
}

/// The state after a step with these outflows, which obey the rules.
/// Everything is taken from the state before; entries past cell n are kept.
pub fn advance(road: &Road, state: &State, row: &[u32], outflows: &[u32]) -> State {
    let mut next = *state;
    next.gate_queue =
        narrow(u64::from(state.gate_queue) + model::arrivals(row, 0) - u64::from(outflows[0]));
    next.gate_f += outflows[0];
    for cell in 1..=road.n {
        let i = cell - 1;
        let entering = entering(road, state, outflows, cell);
        let release = model::release(row, cell);
        let held = u64::from(state.held[i]);
        next.held[i] = narrow(held + entering + release - u64::from(outflows[cell]));
        next.queue[i] = narrow(u64::from(state.queue[i]) + model::arrivals(row, cell) - release);
        next.f[i] += outflows[cell];
    }
    next.steps += 1;
    next.gate_time += u64::from(next.gate_queue);
    next.road_time += model::all_held(road, &next);
    next.ramp_time += model::all_queues(road, &next);
    next
}

/// A count within the limits of refusal 7 fits 32 bits.
fn narrow(count: u64) -> u32 {
    u32::try_from(count).expect("a count within its limits")
}
