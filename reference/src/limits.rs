//! The limits that refusals 5 and 6 (reading) and 7 (stepping) share.

use crate::model::{Road, State};

/// The gate's capacity is within its limit.
pub fn gate_fits(road: &Road) -> bool {
    road.gate_capacity <= Road::MAX_RATE
}

/// A cell's fixed numbers are within their limits; the last share is 0.
pub fn cell_fits(road: &Road, cell: usize) -> bool {
    let i = cell - 1;
    road.v[i] <= Road::WHOLE
        && road.w[i] <= Road::WHOLE
        && road.b[i] <= Road::WHOLE
        && road.ramp[i] <= 1
        && road.jam[i] <= Road::MAX_RATE
        && road.capacity[i] <= Road::MAX_RATE
        && (cell != road.n || road.b[i] == 0)
}

/// Bound of a queue after this many steps (at most 1,440).
/// After none it is the bound of a starting queue.
pub fn queue_bound(steps: usize) -> u64 {
    u64::from(Road::MAX_START_QUEUE) + u64::from(Road::MAX_RATE) * steps as u64
}

/// The gate's queue is within its bound.
pub fn gate_queue_fits(state: &State) -> bool {
    u64::from(state.gate_queue) <= queue_bound(state.steps)
}

/// Held is at most J, the ramp queue within its bound, and 0 without a ramp.
pub fn cell_counts_fit(road: &Road, state: &State, cell: usize) -> bool {
    let i = cell - 1;
    state.held[i] <= road.jam[i]
        && u64::from(state.queue[i]) <= queue_bound(state.steps)
        && (road.ramp[i] != 0 || state.queue[i] == 0)
}

/// The numbers of a row of 1 + 2n: at most 1,000,000, and 0 without a ramp.
pub fn row_fits(road: &Road, row: &[u32]) -> bool {
    row.iter().all(|&number| number <= Road::MAX_RATE)
        && (1..=road.n)
            .all(|cell| road.ramp[cell - 1] != 0 || (row[2 * cell - 1] == 0 && row[2 * cell] == 0))
}
