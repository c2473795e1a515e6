//! The second implementation goes on, and runs many studies.

use super::{ended, Reference};
use crate::freeway::{Ended, HistoryArguments, Laws};
use crate::onward::{FilledOn, Onward, RanOn, Studies};
use reference::many;
use reference::model::State;
use reference::onward::{self, Lists, Progress};
use reference::weigh::Weights;

impl Onward for Reference {
    fn run_on(
        &self,
        record: &[u8],
        lanes: &[u8],
        weights: &Weights,
        from: State,
        list: &mut [u32],
    ) -> RanOn {
        let onward::RanOn {
            answer,
            queues,
            weighted,
        } = onward::run_on(record, lanes, weights, from, list);
        RanOn {
            ended: ended(answer),
            queues,
            weighted,
        }
    }

    fn fill_on(
        &self,
        record: &mut [u8],
        laws: &Laws,
        lanes: &[u8],
        from: Progress,
        list: &mut [u32],
    ) -> FilledOn {
        let laws = laws.map(|law| law.law());
        let onward::FilledOn {
            answer,
            queues,
            last,
        } = onward::fill_on(record, &laws, lanes, from, list);
        FilledOn {
            ended: ended(answer),
            queues,
            last,
        }
    }

    fn judge_on(&self, record: &[u8], lanes: &[u8], from: State, schedule: &[u32]) -> Ended {
        ended(onward::judge_on(record, lanes, from, schedule))
    }

    fn history_on(&self, record: &[u8], from: State, arguments: HistoryArguments) -> Ended {
        let HistoryArguments {
            lanes,
            schedule,
            held,
            queue,
        } = arguments;
        let lists = Lists { held, queue };
        ended(onward::history_on(record, lanes, from, schedule, lists))
    }

    fn run_many(&self, record: &mut [u8], studies: Studies) -> (u32, usize) {
        let Studies {
            lanes,
            arrivals,
            list,
            answers,
        } = studies;
        many::run_many(record, lanes, arrivals, list, answers)
    }

    fn fill_many(&self, record: &mut [u8], laws: &Laws, studies: Studies) -> (u32, usize) {
        let Studies {
            lanes,
            arrivals,
            list,
            answers,
        } = studies;
        let laws = laws.map(|law| law.law());
        many::fill_many(record, &laws, lanes, arrivals, list, answers)
    }
}
