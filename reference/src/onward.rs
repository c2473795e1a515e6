//! Going on from a state: running, filling, judging and history over the rows of a
//! further record, as if its study began with that state.
//!
//! The state is taken whole: steps done, times, queues, held counts and every F. The
//! record's own start is read, so that reading may refuse it, and then not used.
//! Refusals come in this order: those of reading, 16 (filling), 17, 18, 7 if the
//! state breaks a limit that stepping names for a state or (filling) an entry is above
//! what its cell holds, 8 if the record has more rows than steps are left of 1,440, 11
//! or 12, then 9 and 10, 13 and 14. Their step is counted in this record's rows, from 0.
//! A refusal before the first step names no state.

use crate::answer::Answer;
use crate::fill::{self, Last, Laws};
use crate::judge;
use crate::lanes;
use crate::longest::{self, Queues};
use crate::model::{Road, State};
use crate::record::{self, Reading};
use crate::refusals;
use crate::run;
use crate::step;
use crate::weigh::{self, Weights};

/// The answer of running on. Queues and weighted total are those of the steps done here,
/// 0 if there was none.
#[derive(Clone, Copy, Debug, PartialEq, Eq)]
pub struct RanOn {
    /// Running's answer, from the given state on.
    pub answer: Answer,
    /// The longest queues, in parts.
    pub queues: Queues,
    /// The weighted present, summed over the steps done here.
    pub weighted: u64,
}

/// The progress from which filling goes on.
///
/// What entered a cell in the last step is held in it, so an entry above what its
/// cell holds is refused with 7, with a ramp or without. A release may be any number of 32
/// bits: a law's wish is defined for all of them. Past cell n neither is read.
#[derive(Clone, Copy, Debug, PartialEq, Eq)]
pub struct Progress {
    /// Before the next step.
    pub state: State,
    /// Of the step before it.
    pub last: Last,
}

/// The answer of filling on. A further filling goes on from the answer's state and
/// `last`: entries past cell n are as given, and a cell without a ramp releases 0. After
/// a refusal, which names no state, all of `last` is 0.
#[derive(Clone, Copy, Debug, PartialEq, Eq)]
pub struct FilledOn {
    /// Filling's answer, from the given state on.
    pub answer: Answer,
    /// The longest queues, in parts.
    pub queues: Queues,
    /// Of the last step done.
    pub last: Last,
}

/// The lists that history writes.
pub struct Lists<'a> {
    /// The gate queue and each cell's held count after each step.
    pub held: &'a mut [u32],
    /// 0 at the gate and each ramp queue after each step.
    pub queue: &'a mut [u32],
}

/// Runs a record from a state. The list is written as in running.
pub fn run_on(
    record: &[u8],
    table: &[u8],
    weights: &Weights,
    from: State,
    list: &mut [u32],
) -> RanOn {
    let answer = ran(record, table, from, list);
    let steps = steps_here(&answer, &from);
    let sums = weigh::after_steps_from(record, from, list, steps, weights);
    RanOn {
        answer,
        queues: longest::over_steps_from(record, from, list, steps),
        weighted: sums.iter().sum(),
    }
}

fn ran(record: &[u8], table: &[u8], from: State, list: &mut [u32]) -> Answer {
    let reading = record::read(record);
    if let Some((number, place)) = fault(&reading, None, table, &from) {
        return Answer::without_state(number, place);
    }
    if list.len() < size(&reading) {
        return Answer::without_state(refusals::LIST_LENGTH, 0);
    }
    run::walk(record, &reading, table, from, list)
}

/// Puts the laws' releases into a record from a state and the last step's releases and
/// entries. Filling from a start with 0 of both is filling.
///
/// After a refusal record and list are unchanged.
pub fn fill_on(
    record: &mut [u8],
    laws: &Laws,
    table: &[u8],
    from: Progress,
    list: &mut [u32],
) -> FilledOn {
    let (answer, last) = filled(record, laws, table, from, list);
    let steps = steps_here(&answer, &from.state);
    FilledOn {
        answer,
        queues: longest::over_steps_from(record, from.state, list, steps),
        last,
    }
}

fn filled(
    record: &mut [u8],
    laws: &Laws,
    table: &[u8],
    from: Progress,
    list: &mut [u32],
) -> (Answer, Last) {
    let reading = record::read(record);
    let metered = Some((laws, &from.last));
    if let Some((number, place)) = fault(&reading, metered, table, &from.state) {
        return (Answer::without_state(number, place), Last::none());
    }
    if list.len() < size(&reading) {
        return (
            Answer::without_state(refusals::LIST_LENGTH, 0),
            Last::none(),
        );
    }
    let start = (from.state, from.last);
    fill::walk(record, &reading, laws, table, start, list)
}

/// Judges a schedule from a state.
pub fn judge_on(record: &[u8], table: &[u8], from: State, schedule: &[u32]) -> Answer {
    let reading = record::read(record);
    if let Some((number, place)) = fault(&reading, None, table, &from) {
        return Answer::without_state(number, place);
    }
    if schedule.len() != size(&reading) {
        return Answer::without_state(refusals::SCHEDULE_LENGTH, 0);
    }
    judge::walk(record, &reading, table, from, schedule)
}

/// Judges a schedule from a state and puts the counts after each step done into two
/// lists, one row of n + 1 numbers per step. Refusal 11, either list shorter than the
/// schedule, comes after 12.
pub fn history_on(
    record: &[u8],
    table: &[u8],
    from: State,
    schedule: &[u32],
    lists: Lists,
) -> Answer {
    let answer = judge_on(record, table, from, schedule);
    if names_no_state(&answer) {
        return answer;
    }
    if lists.held.len().min(lists.queue.len()) < schedule.len() {
        return Answer::without_state(refusals::LIST_LENGTH, 0);
    }
    let n = answer.road.n;
    let mut state = from;
    for t in 0..steps_here(&answer, &from) {
        let places = t * (n + 1)..(t + 1) * (n + 1);
        let row = record::row(record, n, t);
        state = step::advance(&answer.road, &state, &row, &schedule[places.clone()]);
        let held = &mut lists.held[places.clone()];
        held[0] = state.gate_queue;
        held[1..].copy_from_slice(&state.held[..n]);
        let queue = &mut lists.queue[places];
        queue[0] = 0;
        queue[1..].copy_from_slice(&state.queue[..n]);
    }
    answer
}

/// The refusals before 11 and 12, with their place. Filling has laws and the step before.
fn fault(
    reading: &Reading,
    metered: Option<(&Laws, &Last)>,
    table: &[u8],
    from: &State,
) -> Option<(u32, usize)> {
    let Reading { road, steps, .. } = reading;
    if reading.number != 0 {
        return Some((reading.number, reading.place));
    }
    if let Some(cell) = metered.and_then(|(laws, _)| fill::first_not_finite(road, laws)) {
        return Some((refusals::LAW_NUMBERS, cell));
    }
    if let Some(fault) = lanes::table_fault(table, road.n, *steps) {
        return Some(fault);
    }
    let entries_fit = metered.is_none_or(|(_, last)| held_in(road, from, last));
    if !step::state_fits(road, from) || !entries_fit {
        return Some((refusals::STEP_INPUT, 0));
    }
    if from.steps + steps > Road::MAX_STEPS {
        return Some((refusals::STEPS_DONE, 0));
    }
    None
}

/// Whether no entry of the step before is above what its cell holds.
fn held_in(road: &Road, state: &State, last: &Last) -> bool {
    (0..road.n).all(|i| last.entered[i] <= state.held[i])
}

/// Numbers of the table of a record that was read.
fn size(reading: &Reading) -> usize {
    reading.steps * (reading.road.n + 1)
}

/// A refusal before the first step: the road is all zero.
fn names_no_state(answer: &Answer) -> bool {
    answer.road.n == 0
}

/// Steps done since the state that was given.
fn steps_here(answer: &Answer, from: &State) -> usize {
    match names_no_state(answer) {
        true => 0,
        false => answer.state.steps - from.steps,
    }
}
