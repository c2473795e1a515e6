//! The longest queues of a run: of the gate and of each on-ramp, the greatest of
//! its counts after the steps done. The start is no such count.
//!
//! Running and filling are the same as without them; their steps are made once
//! more from the rows that they write.

use crate::answer::Answer;
use crate::fill::{self, Laws};
use crate::model::{Road, State};
use crate::record;
use crate::run;
use crate::step;

/// The longest queues of a run after any step done, in parts.
#[derive(Clone, Copy, Debug, PartialEq, Eq)]
pub struct Queues {
    /// Of the gate.
    pub gate: u32,
    /// The gate's without the arrivals of the step.
    pub waiting: u32,
    /// Cell 1 first; 0 past cell n.
    pub ramps: [u32; Road::MAX_CELLS],
}

/// The longest queues over a schedule's first steps, which it reaches.
pub fn over_steps(record: &[u8], schedule: &[u32], steps: usize) -> Queues {
    over_steps_from(record, record::read(record).state, schedule, steps)
}

/// The same of a schedule that goes on from a state.
pub fn over_steps_from(record: &[u8], from: State, schedule: &[u32], steps: usize) -> Queues {
    let road = record::read(record).road;
    let mut state = from;
    let mut longest = Queues {
        gate: 0,
        waiting: 0,
        ramps: [0; Road::MAX_CELLS],
    };
    for (t, outflows) in schedule.chunks(road.n + 1).take(steps).enumerate() {
        let row = record::row(record, road.n, t);
        state = step::advance(&road, &state, &row, outflows);
        longest.gate = longest.gate.max(state.gate_queue);
        longest.waiting = longest.waiting.max(state.gate_queue - row[0]);
        for cell in 1..=road.n {
            let ramp = &mut longest.ramps[cell - 1];
            *ramp = (*ramp).max(state.queue[cell - 1]);
        }
    }
    longest
}

/// Runs a record under a table of lanes, with its longest queues: 0 if no step
/// was done.
pub fn run(record: &[u8], table: &[u8], list: &mut [u32]) -> (Answer, Queues) {
    let answer = run::run(record, table, list);
    let queues = over_steps(record, list, answer.state.steps);
    (answer, queues)
}

/// The same with filling.
pub fn fill(record: &mut [u8], laws: &Laws, table: &[u8], list: &mut [u32]) -> (Answer, Queues) {
    let answer = fill::fill(record, laws, table, list);
    let queues = over_steps(record, list, answer.state.steps);
    (answer, queues)
}
