//! Studies that go on from a state, and many studies by one record: what both
//! implementations have, in the reference's own types.

#[cfg(test)]
mod tests;

use crate::freeway::{Ended, HistoryArguments, Laws};
use reference::fill::Last;
use reference::longest::Queues;
use reference::model::State;
use reference::onward::Progress;
use reference::weigh::Weights;

/// The answer of running on. Queues and weighted total are those of the steps done here.
pub struct RanOn {
    pub ended: Ended,
    pub queues: Queues,
    pub weighted: u64,
}

/// The answer of filling on, with the last step's releases and entries.
pub struct FilledOn {
    pub ended: Ended,
    pub queues: Queues,
    pub last: Last,
}

/// What many studies share in addition to their record.
pub struct Studies<'a> {
    pub lanes: &'a [u8],
    /// One table per study, one after the other.
    pub arrivals: &'a [u32],
    pub list: &'a mut [u32],
    pub answers: &'a mut [u64],
}

pub trait Onward {
    fn run_on(
        &self,
        record: &[u8],
        lanes: &[u8],
        weights: &Weights,
        from: State,
        list: &mut [u32],
    ) -> RanOn;
    fn fill_on(
        &self,
        record: &mut [u8],
        laws: &Laws,
        lanes: &[u8],
        from: Progress,
        list: &mut [u32],
    ) -> FilledOn;
    fn judge_on(&self, record: &[u8], lanes: &[u8], from: State, schedule: &[u32]) -> Ended;
    fn history_on(&self, record: &[u8], from: State, arguments: HistoryArguments) -> Ended;
    /// The number and place of the refusal of the whole call.
    fn run_many(&self, record: &mut [u8], studies: Studies) -> (u32, usize);
    fn fill_many(&self, record: &mut [u8], laws: &Laws, studies: Studies) -> (u32, usize);
}
