//! The proved engine goes on, and runs many studies.

use super::{ended, flat, longest, refusal, state_for, weights_for, Engine};
use crate::freeway::{Ended, HistoryArguments, Laws};
use crate::onward::{FilledOn, Onward, RanOn, Studies};
use nobyaluk::{lent, Many};
use reference::fill::Last;
use reference::model::State;
use reference::onward::Progress;
use reference::weigh::Weights;

fn many(many: Many) -> (u32, usize) {
    (refusal(many.number), many.place as usize)
}

impl Onward for Engine {
    fn run_on(
        &self,
        record: &[u8],
        lanes: &[u8],
        weights: &Weights,
        from: State,
        list: &mut [u32],
    ) -> RanOn {
        let (weights, from) = (weights_for(weights), state_for(from));
        let tallied = lent::run_on(record, lanes, weights, from, list).value;
        let (ended, queues) = longest(tallied.longest);
        RanOn {
            ended,
            queues,
            weighted: tallied.weighted,
        }
    }

    fn fill_on(
        &self,
        record: &mut [u8],
        laws: &Laws,
        lanes: &[u8],
        from: Progress,
        list: &mut [u32],
    ) -> FilledOn {
        let (kinds, numbers): (Vec<u8>, Vec<[f64; 3]>) = laws.iter().map(flat).unzip();
        let from = nobyaluk::Progress {
            state: state_for(from.state),
            releases: from.last.release,
            entries: from.last.entered,
        };
        let numbers = numbers.as_flattened();
        let filled = lent::fill_kinds_on(record, &kinds, numbers, lanes, from, list).value;
        let (ended, queues) = longest(filled.longest);
        FilledOn {
            ended,
            queues,
            last: Last {
                release: filled.releases,
                entered: filled.entries,
            },
        }
    }

    fn judge_on(&self, record: &[u8], lanes: &[u8], from: State, schedule: &[u32]) -> Ended {
        ended(lent::judge_on(record, lanes, state_for(from), schedule).value)
    }

    fn history_on(&self, record: &[u8], from: State, arguments: HistoryArguments) -> Ended {
        let HistoryArguments {
            lanes,
            schedule,
            held,
            queue,
        } = arguments;
        ended(lent::history_on(record, lanes, state_for(from), schedule, held, queue).value)
    }

    fn run_many(&self, record: &mut [u8], studies: Studies) -> (u32, usize) {
        let Studies {
            lanes,
            arrivals,
            list,
            answers,
        } = studies;
        many(lent::run_many_numbers(record, lanes, arrivals, list, answers).value)
    }

    fn fill_many(&self, record: &mut [u8], laws: &Laws, studies: Studies) -> (u32, usize) {
        let Studies {
            lanes,
            arrivals,
            list,
            answers,
        } = studies;
        let (kinds, numbers): (Vec<u8>, Vec<[f64; 3]>) = laws.iter().map(flat).unzip();
        let numbers = numbers.as_flattened();
        many(lent::fill_kinds_many(record, &kinds, numbers, lanes, arrivals, list, answers).value)
    }
}
