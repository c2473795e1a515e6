//! Many studies by one record: its arrivals are replaced by one table after another, and
//! each study is run or filled.
//!
//! A table has T rows of n + 1 numbers: the gate's arrivals, then each cell's. Every
//! study has an entry of `ENTRY` numbers. A refusal of running (filling) a study is in its
//! entry, and the next study follows.

use crate::answer::Answer;
use crate::fill::Laws;
use crate::longest::{self, Queues};
use crate::model::{self, Road};
use crate::record;

/// Numbers of a study's entry: the refusal's number, step and place, gate, road and ramp
/// time, the total, exits, present, the longest gate queue, the longest without the step's
/// arrivals, and the longest queue of each cell's ramp.
pub const ENTRY: usize = BEFORE_RAMPS + Road::MAX_CELLS;

const BEFORE_RAMPS: usize = 11;

/// Refusal 27, with the place of its list.
const COUNTS: u32 = 27;
const OF_ARRIVALS: usize = 1;
const OF_ANSWERS: usize = 2;

/// Runs a record with each table of arrivals in turn.
///
/// It gives the number and place of a refusal of the whole call, which then changes
/// nothing: reading's refusals of the record as given, then 27 with place 1 if the
/// arrivals are no whole number of tables, then 27 with place 2 if the answers have no
/// room for all entries. Afterwards the record has the last study's arrivals.
pub fn run_many(
    record: &mut [u8],
    lanes: &[u8],
    arrivals: &[u32],
    list: &mut [u32],
    answers: &mut [u64],
) -> (u32, usize) {
    each_study(record, arrivals, answers, |record| {
        longest::run(record, lanes, list)
    })
}

/// The same with filling. Afterwards the record has the last study's arrivals and the releases of the
/// last study that was filled.
pub fn fill_many(
    record: &mut [u8],
    laws: &Laws,
    lanes: &[u8],
    arrivals: &[u32],
    list: &mut [u32],
    answers: &mut [u64],
) -> (u32, usize) {
    each_study(record, arrivals, answers, |record| {
        longest::fill(record, laws, lanes, list)
    })
}

fn each_study(
    record: &mut [u8],
    arrivals: &[u32],
    answers: &mut [u64],
    mut study: impl FnMut(&mut [u8]) -> (Answer, Queues),
) -> (u32, usize) {
    let reading = record::read(record);
    if reading.number != 0 {
        return (reading.number, reading.place);
    }
    let n = reading.road.n;
    let size = reading.steps * (n + 1);
    if arrivals.len() % size != 0 {
        return (COUNTS, OF_ARRIVALS);
    }
    if answers.len() < arrivals.len() / size * ENTRY {
        return (COUNTS, OF_ANSWERS);
    }
    for (table, entry) in arrivals.chunks(size).zip(answers.chunks_mut(ENTRY)) {
        put_arrivals(record, n, table);
        let (answer, queues) = study(record);
        entry.copy_from_slice(&entry_of(&answer, &queues));
    }
    (0, 0)
}

/// Replaces a record's arrivals; its releases stay.
fn put_arrivals(record: &mut [u8], n: usize, table: &[u32]) {
    for (t, arriving) in table.chunks(n + 1).enumerate() {
        let mut row = record::row(record, n, t);
        row[0] = arriving[0];
        for cell in 1..=n {
            row[2 * cell - 1] = arriving[cell];
        }
        record::put_row(record, n, t, &row);
    }
}

fn entry_of(answer: &Answer, queues: &Queues) -> [u64; ENTRY] {
    let Answer { road, state, .. } = answer;
    let mut entry = [0; ENTRY];
    entry[..BEFORE_RAMPS].copy_from_slice(&[
        u64::from(answer.number),
        answer.step as u64,
        answer.place as u64,
        state.gate_time,
        state.road_time,
        state.ramp_time,
        u64::try_from(state.total()).expect("a run's total has at most 49 bits"),
        model::exits(road, state),
        model::present(road, state),
        u64::from(queues.gate),
        u64::from(queues.waiting),
    ]);
    for (number, &longest) in entry[BEFORE_RAMPS..].iter_mut().zip(&queues.ramps) {
        *number = u64::from(longest);
    }
    entry
}
