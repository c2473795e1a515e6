//! Waiting upstream may weigh more: weighted present, and a run weighted.
//!
//! A weight is a whole number from 0 to 255. Running is the same as without weights;
//! its steps are made once more from the rows that it writes.

use crate::answer::Answer;
use crate::model::{Road, State};
use crate::record;
use crate::run;
use crate::step;

/// The weights of all places. Entries past cell n aren't read.
#[derive(Clone, Copy, Debug, PartialEq, Eq)]
pub struct Weights {
    /// Of the gate queue and of the held counts: the gate, then cell 1.
    pub places: [u8; Road::MAX_CELLS + 1],
    /// Of the ramp queues: cell 1 first.
    pub ramps: [u8; Road::MAX_CELLS],
}

/// Gate queue, held counts and ramp queues, each times its weight, together. For
/// any road and state; n above 64 counts as 64.
pub fn present(road: &Road, state: &State, weights: &Weights) -> u64 {
    let times = |weight: u8, count: u32| u64::from(weight) * u64::from(count);
    let mut sum = times(weights.places[0], state.gate_queue);
    for cell in 1..=road.n.min(Road::MAX_CELLS) {
        sum += times(weights.places[cell], state.held[cell - 1]);
        sum += times(weights.ramps[cell - 1], state.queue[cell - 1]);
    }
    sum
}

/// The weighted present after each of a schedule's first steps, which it
/// reaches.
pub fn after_steps(record: &[u8], schedule: &[u32], steps: usize, weights: &Weights) -> Vec<u64> {
    after_steps_from(record, record::read(record).state, schedule, steps, weights)
}

/// The same of a schedule that goes on from a state.
pub fn after_steps_from(
    record: &[u8],
    from: State,
    schedule: &[u32],
    steps: usize,
    weights: &Weights,
) -> Vec<u64> {
    let road = record::read(record).road;
    let mut state = from;
    let mut sums = Vec::new();
    for (t, outflows) in schedule.chunks(road.n + 1).take(steps).enumerate() {
        let row = record::row(record, road.n, t);
        state = step::advance(&road, &state, &row, outflows);
        sums.push(present(&road, &state, weights));
    }
    sums
}

/// Runs a record under a table of lanes. In addition to running's answer it gives the
/// weighted present summed over the steps done: 0 if there was none.
pub fn run(record: &[u8], table: &[u8], weights: &Weights, list: &mut [u32]) -> (Answer, u64) {
    let answer = run::run(record, table, list);
    let sums = after_steps(record, list, answer.state.steps, weights);
    (answer, sums.iter().sum())
}
