//! What running and judging return.

use crate::model::{Road, State};

/// Number 0 without a refusal. A step or place that no rule names is 0.
#[derive(Clone, Copy, Debug, PartialEq, Eq)]
pub struct Answer {
    /// The refusal's number, 0 without one.
    pub number: u32,
    /// The refused step, counted from 0.
    pub step: usize,
    /// The refused place: the gate (0) or a cell.
    pub place: usize,
    /// The road.
    pub road: Road,
    /// After the last step, or before the refused one.
    pub state: State,
}

impl Answer {
    /// A refusal that names no state: road and state are all zero.
    pub fn without_state(number: u32, place: usize) -> Answer {
        Answer {
            number,
            step: 0,
            place,
            road: Road::empty(),
            state: State::empty(),
        }
    }

    /// No refusal: the road and the final state.
    pub fn finished(road: Road, state: State) -> Answer {
        Answer {
            number: 0,
            step: 0,
            place: 0,
            road,
            state,
        }
    }
}
