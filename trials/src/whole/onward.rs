//! The whole answers of studies that go on and of many studies.

use super::Whole;
use crate::freeway::HistoryArguments;
use crate::lent;
use crate::onward::{FilledOn, Onward, RanOn, Studies};
use reference::longest::Queues;
use reference::onward::Progress;
use trials::cases::batches::Batch;
use trials::cases::stretches::{Operation, Stretch};

pub fn stretch(freeway: &impl Onward, stretch: &Stretch, whole: &mut Whole) {
    let Stretch {
        from,
        operation,
        lanes,
        record,
    } = stretch;
    match operation {
        Operation::Run { weights, length } => {
            let mut list = lent::numbers(*length);
            let RanOn {
                ended,
                queues,
                weighted,
            } = freeway.run_on(record, lanes, weights, *from, list.list());
            whole.put_ended(&ended);
            put_queues(whole, &queues);
            whole.put("weighted", [weighted]);
            whole.put_lent("outflows", list);
        }
        Operation::Fill { laws, last, length } => {
            let (mut bytes, mut list) = (lent::given(record), lent::numbers(*length));
            let progress = Progress {
                state: *from,
                last: **last,
            };
            let FilledOn {
                ended,
                queues,
                last,
            } = freeway.fill_on(bytes.list(), laws, lanes, progress, list.list());
            whole.put_ended(&ended);
            put_queues(whole, &queues);
            whole.put("last releases", last.release);
            whole.put("last entries", last.entered);
            whole.put_lent("outflows", list);
            whole.put_lent("record", bytes);
        }
        Operation::Judge { schedule } => {
            whole.put_ended(&freeway.judge_on(record, lanes, *from, schedule));
            history(freeway, stretch, schedule, whole);
        }
    }
}

fn put_queues(whole: &mut Whole, queues: &Queues) {
    whole.put("longest gate queue", [queues.gate]);
    whole.put("longest without arrivals", [queues.waiting]);
    whole.put("longest ramp queues", queues.ramps);
}

/// The states of a judged schedule, in lists that by turns are one too short.
fn history(freeway: &impl Onward, stretch: &Stretch, schedule: &[u32], whole: &mut Whole) {
    let (longer, shorter) = (schedule.len() + 2, schedule.len().saturating_sub(1));
    let (held, queue) = match (schedule.len() + stretch.from.steps) % 5 {
        0 => (shorter, longer),
        1 => (longer, shorter),
        _ => (longer, schedule.len()),
    };
    let (mut held, mut queue) = (lent::numbers(held), lent::numbers(queue));
    let arguments = HistoryArguments {
        lanes: &stretch.lanes,
        schedule,
        held: held.list(),
        queue: queue.list(),
    };
    whole.put_ended(&freeway.history_on(&stretch.record, stretch.from, arguments));
    whole.put_lent("held after each step", held);
    whole.put_lent("queues after each step", queue);
}

pub fn batch(freeway: &impl Onward, batch: &Batch, whole: &mut Whole) {
    let (mut record, mut list) = (lent::given(&batch.record), lent::numbers(batch.length));
    let mut answers = lent::answers(batch.room);
    let studies = Studies {
        lanes: &batch.lanes,
        arrivals: &batch.arrivals,
        list: list.list(),
        answers: answers.list(),
    };
    let (number, place) = match &batch.laws {
        None => freeway.run_many(record.list(), studies),
        Some(laws) => freeway.fill_many(record.list(), laws, studies),
    };
    whole.put("number", [number]);
    whole.put_size("place", place);
    whole.put_lent("answers", answers);
    whole.put_lent("outflows", list);
    whole.put_lent("record", record);
}
