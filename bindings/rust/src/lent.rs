//! The engine's operations on lent lists, as the boundary has them. Each gives the engine's own [`Answer`], refused or not.
//!
//! The lists are the caller's, so nothing is allocated. [`Answer::into_result`] turns an answer into a [`Result`]. After a broken rule of a step
//! ([`Refusal::ReleaseAboveQueue`](crate::Refusal::ReleaseAboveQueue) and its like) the answer's `value` has the state before that step.
//!
//! Counts are in parts, thousandths of a vehicle; rates in parts a step; times in part-steps; shares in thousandths. A table of lanes has one
//! byte per cell, each set bit a lane: a row of the lanes built, then one row per step of the lanes open. An empty table means all open.
use crate::raw::call;
use crate::refusal::Operation;
use crate::refused::Answer;
use crate::types::{
    Ended, Filled, Granted, Lanes, Law, Loaded, Longest, Many, Progress, Reading, Released, Road,
    Row, Start, State, Stepped, Study, Tallied, Wanted, Weighed, Weights, Written,
};

/// Reads a record: its road, its count of steps and the state before step 0.
pub fn read(record: &[u8]) -> Answer<Reading> {
    Answer::new(Operation::Read, call!(nobyaluk_read([record])))
}

/// Reads a record for a caller that takes at most `cells` cells and `most` bytes. A larger one is refused with
/// [`Refusal::CallerLimits`](crate::Refusal::CallerLimits).
pub fn read_within(record: &[u8], cells: usize, most: usize) -> Answer<Reading> {
    let value = call!(nobyaluk_read_within([record], cells, most));
    Answer::new(Operation::ReadWithin, value)
}

/// Runs a record. Writes one row of n + 1 outflows per step, gate first, to the front of `list`, which needs room for T × (n + 1).
pub fn run(record: &[u8], lanes: &[u8], list: &mut [u32]) -> Answer<Ended> {
    let value = call!(nobyaluk_run([record], [lanes], [mut list]));
    Answer::new(Operation::Run, value)
}

/// [`run`] with weights of waiting; also gives the weighted total, in part-steps.
///
/// ```
/// use nobyaluk::{lent, Weights};
/// let record = std::fs::read("../../examples/printed-run.rec")?;
/// let weighed = lent::run_weighted(&record, &[], Weights::EVEN, &mut [0; 9]).into_result()?;
/// assert_eq!((weighed.weighted, weighed.ended.total), (33_098, 33_098));
/// let refused = lent::run_weighted(&record, &[], Weights::EVEN, &mut [0; 8]).into_result().unwrap_err();
/// assert_eq!(refused.to_string(), "refused 11: the list for the outflows is shorter than T × (n + 1)");
/// # Ok::<(), Box<dyn std::error::Error>>(())
/// ```
pub fn run_weighted(
    record: &[u8],
    lanes: &[u8],
    weights: Weights,
    list: &mut [u32],
) -> Answer<Weighed> {
    let value = call!(nobyaluk_run_weighted([record], [lanes], weights, [mut list]));
    Answer::new(Operation::Run, value)
}

/// [`run`] with the longest queues of the gate and of the on-ramps.
pub fn run_longest(record: &[u8], lanes: &[u8], list: &mut [u32]) -> Answer<Longest> {
    let value = call!(nobyaluk_run_longest([record], [lanes], [mut list]));
    Answer::new(Operation::Run, value)
}

/// Judges a schedule: T rows of n + 1 outflows, gate first.
pub fn judge(record: &[u8], lanes: &[u8], schedule: &[u32]) -> Answer<Ended> {
    let value = call!(nobyaluk_judge([record], [lanes], [schedule]));
    Answer::new(Operation::Judge, value)
}

/// Judges a schedule, and writes what each place holds and what waits at each ramp after every step, rows of n + 1 counts, gate first.
pub fn history(
    record: &[u8],
    lanes: &[u8],
    schedule: &[u32],
    held: &mut [u32],
    queue: &mut [u32],
) -> Answer<Ended> {
    let value = call!(nobyaluk_history([record], [lanes], [schedule], [mut held], [mut queue]));
    Answer::new(Operation::History, value)
}

/// The kinds of laws and their numbers, in threes.
fn flat(laws: &[Law]) -> (Vec<u8>, Vec<[f64; 3]>) {
    laws.iter().map(|law| law.flat()).unzip()
}

/// Fills the record's releases by a law for each cell, and runs it; `list` takes the outflows as in [`run`].
pub fn fill(record: &mut [u8], laws: &[Law], lanes: &[u8], list: &mut [u32]) -> Answer<Ended> {
    let (kinds, numbers) = flat(laws);
    fill_kinds(record, &kinds, numbers.as_flattened(), lanes, list)
}

/// [`fill`] by the kinds of the laws and their numbers in threes. Kind 1 is ALINEA, kind 2 demand-capacity, and every other one a fixed rate.
/// Numbers that a law does not use are not read. A cell past the end of both lists has a fixed rate of 0.
pub fn fill_kinds(
    record: &mut [u8],
    kinds: &[u8],
    numbers: &[f64],
    lanes: &[u8],
    list: &mut [u32],
) -> Answer<Ended> {
    let value = call!(nobyaluk_fill([mut record], [kinds], [numbers], [lanes], [mut list]));
    Answer::new(Operation::Fill, value)
}

/// [`fill`] with the longest queues of the gate and of the on-ramps.
pub fn fill_longest(
    record: &mut [u8],
    laws: &[Law],
    lanes: &[u8],
    list: &mut [u32],
) -> Answer<Longest> {
    let (kinds, numbers) = flat(laws);
    fill_kinds_longest(record, &kinds, numbers.as_flattened(), lanes, list)
}

/// [`fill_longest`] by kinds and numbers, as [`fill_kinds`] takes them.
pub fn fill_kinds_longest(
    record: &mut [u8],
    kinds: &[u8],
    numbers: &[f64],
    lanes: &[u8],
    list: &mut [u32],
) -> Answer<Longest> {
    let value = call!(nobyaluk_fill_longest([mut record], [kinds], [numbers], [lanes], [mut list]));
    Answer::new(Operation::Fill, value)
}

/// Runs the rows of a further record from a state; the record's own start is checked and then ignored. If the state is the one after
/// the rows before, the two runs are one. `list` takes the outflows as in [`run`], and a refused step is counted in this record.
///
/// ```
/// use nobyaluk::{lent, Refusal, Weights};
/// let record = std::fs::read("../../examples/printed-run.rec")?;
/// let first = lent::run(&record, &[], &mut [0; 9]).into_result()?;
/// let on = lent::run_on(&record, &[], Weights::EVEN, first.state, &mut [0; 9]).into_result()?;
/// assert_eq!((on.longest.ended.state.done, on.longest.ended.total), (6, first.total + on.weighted));
///
/// // a state that breaks a limit is refused
/// let mut state = first.state;
/// state.held[0] = 8_001; // the cell's jam count is 8,000
/// let refused = lent::run_on(&record, &[], Weights::EVEN, state, &mut [0; 9]).into_result().unwrap_err();
/// assert_eq!(refused.refusal, Refusal::StepInput);
/// # Ok::<(), Box<dyn std::error::Error>>(())
/// ```
pub fn run_on(
    record: &[u8],
    lanes: &[u8],
    weights: Weights,
    from: State,
    list: &mut [u32],
) -> Answer<Tallied> {
    let value = call!(nobyaluk_run_on([record], [lanes], weights, from, [mut list]));
    Answer::new(Operation::RunOn, value)
}

/// Judges a schedule of a further record from a state.
pub fn judge_on(record: &[u8], lanes: &[u8], from: State, schedule: &[u32]) -> Answer<Ended> {
    let value = call!(nobyaluk_judge_on([record], [lanes], from, [schedule]));
    Answer::new(Operation::JudgeOn, value)
}

/// [`judge_on`], which also writes the states as [`history`] does.
pub fn history_on(
    record: &[u8],
    lanes: &[u8],
    from: State,
    schedule: &[u32],
    held: &mut [u32],
    queue: &mut [u32],
) -> Answer<Ended> {
    let value =
        call!(nobyaluk_history_on([record], [lanes], from, [schedule], [mut held], [mut queue]));
    Answer::new(Operation::HistoryOn, value)
}

/// Fills the rows of a further record by a law for each cell, from a state and the step before it. Writes what [`fill`] writes.
pub fn fill_on(
    record: &mut [u8],
    laws: &[Law],
    lanes: &[u8],
    from: Progress,
    list: &mut [u32],
) -> Answer<Filled> {
    let (kinds, numbers) = flat(laws);
    fill_kinds_on(record, &kinds, numbers.as_flattened(), lanes, from, list)
}

/// [`fill_on`] by kinds and numbers, as [`fill_kinds`] takes them.
pub fn fill_kinds_on(
    record: &mut [u8],
    kinds: &[u8],
    numbers: &[f64],
    lanes: &[u8],
    from: Progress,
    list: &mut [u32],
) -> Answer<Filled> {
    let value =
        call!(nobyaluk_fill_on([mut record], [kinds], [numbers], [lanes], from, [mut list]));
    Answer::new(Operation::FillOn, value)
}

/// Runs the record with each of many tables of arrivals, of T rows of n + 1 numbers in parts a step, gate first. Study k is what [`run_longest`]
/// gives with table k; a refused study has its refusal, and the others go on. The record and the list are left with the last study's arrivals
/// and rows.
///
/// ```
/// use nobyaluk::{lent, Study};
/// let mut record = std::fs::read("../../examples/printed-run.rec")?;
/// let mut studies = [Study::EMPTY; 2];
/// let arrivals = [[1_000, 0, 500].repeat(3), [0; 9].to_vec()].concat();
/// lent::run_many(&mut record, &[], &arrivals, &mut [0; 9], &mut studies).into_result()?;
/// assert_eq!(studies.map(|a| a.gate_time), [6_532, 1_642]);
/// assert_eq!((studies[0].total, studies[0].exits, studies[0].present), (33_098, 3_701, 11_299));
/// # Ok::<(), Box<dyn std::error::Error>>(())
/// ```
pub fn run_many(
    record: &mut [u8],
    lanes: &[u8],
    arrivals: &[u32],
    list: &mut [u32],
    studies: &mut [Study],
) -> Answer<Many> {
    run_many_numbers(record, lanes, arrivals, list, Study::numbers_of(studies))
}

/// [`run_many`] with the numbers of the studies in one list, [`Study::NUMBERS`] each; those past the last study are not written.
pub fn run_many_numbers(
    record: &mut [u8],
    lanes: &[u8],
    arrivals: &[u32],
    list: &mut [u32],
    answers: &mut [u64],
) -> Answer<Many> {
    let value =
        call!(nobyaluk_run_many([mut record], [lanes], [arrivals], [mut list], [mut answers]));
    Answer::new(Operation::RunMany, value)
}

/// [`run_many`] with releases filled by a law for each cell; study k is what [`fill_longest`] gives with table k.
pub fn fill_many(
    record: &mut [u8],
    laws: &[Law],
    lanes: &[u8],
    arrivals: &[u32],
    list: &mut [u32],
    studies: &mut [Study],
) -> Answer<Many> {
    let (kinds, numbers) = flat(laws);
    let (numbers, answers) = (numbers.as_flattened(), Study::numbers_of(studies));
    fill_kinds_many(record, &kinds, numbers, lanes, arrivals, list, answers)
}

/// [`fill_many`] by kinds and numbers, as [`fill_kinds`] takes them, with the studies as in [`run_many_numbers`].
pub fn fill_kinds_many(
    record: &mut [u8],
    kinds: &[u8],
    numbers: &[f64],
    lanes: &[u8],
    arrivals: &[u32],
    list: &mut [u32],
    answers: &mut [u64],
) -> Answer<Many> {
    let value = call!(
        nobyaluk_fill_many(
            [mut record],
            [kinds],
            [numbers],
            [lanes],
            [arrivals],
            [mut list],
            [mut answers],
        )
    );
    Answer::new(Operation::FillMany, value)
}

/// Writes the record of a road, `steps` steps, a start and its rows to the front of `target`, in bytes. A row has 1 + 2n numbers, in parts a
/// step: gate arrivals, then each cell's ramp arrivals and release.
pub fn write(
    road: Road,
    steps: usize,
    start: Start,
    rows: &[u32],
    target: &mut [u8],
) -> Answer<Written> {
    let value = call!(nobyaluk_write(road, steps, start, [rows], [mut target]));
    Answer::new(Operation::Write, value)
}

/// Writes the rows of a record's first `steps` steps, for a road of n cells, and gives how many numbers they have. Never refused: 0, with nothing
/// written, if the list is too short, n is above 64 or `steps` is above 1,440.
pub fn rows(record: &[u8], n: usize, steps: usize, list: &mut [u32]) -> usize {
    call!(nobyaluk_rows([record], n, steps, [mut list]))
}

/// The numbers of one row, from any bytes laid out as a record of n cells. Never refused: 0 for each number that they do not hold, and all 0 if n
/// is above 64 or the step is not below 1,440. [`row`](crate::row) gives only those of the n cells.
pub fn row(record: &[u8], n: usize, step: usize) -> Row {
    call!(nobyaluk_row([record], n, step))
}

/// Fills a list with the arrivals of a seed and a peak, in parts.
pub fn load(seed: u32, peak: u32, list: &mut [u32]) -> Answer<Loaded> {
    let value = call!(nobyaluk_load(seed, peak, [mut list]));
    Answer::new(Operation::Load, value)
}

/// Fills a table with the releases that keep a ramp's queue at or below a ceiling, if any do, with the least running sum after every step. Start and
/// ceiling in parts, rate and arrivals in parts a step.
pub fn wanted(
    start: u32,
    ceiling: u32,
    rate: u32,
    arrivals: &[u32],
    table: &mut [u32],
) -> Answer<Wanted> {
    let value = call!(nobyaluk_wanted(start, ceiling, rate, [arrivals], [mut table]));
    Answer::new(Operation::Wanted, value)
}

/// Grants the releases of a step to the ramps of a street, in parts a step.
///
/// ```
/// use nobyaluk::{lent, Refusal};
/// let mut grants = [0; 2];
/// lent::grant(10, &[2, 3], &[7, 9], &mut grants).into_result()?;
/// assert_eq!(grants, [7, 3]);
/// let refused = lent::grant(4, &[2, 3], &[7, 9], &mut grants).into_result().unwrap_err();
/// assert_eq!((refused.refusal, grants), (Refusal::StreetInput, [7, 3]));
/// # Ok::<(), nobyaluk::Refused>(())
/// ```
pub fn grant(
    limit: u32,
    guarantees: &[u32],
    wishes: &[u32],
    grants: &mut [u32],
) -> Answer<Granted> {
    let value = call!(nobyaluk_grant(limit, [guarantees], [wishes], [mut grants]));
    Answer::new(Operation::Grant, value)
}

/// Puts a release, in parts, into a record at a step, counted from 0, and a cell, counted from 1.
pub fn put(record: &mut [u8], step: usize, cell: usize, release: u32) -> Answer<Released> {
    let value = call!(nobyaluk_put([mut record], step, cell, release));
    Answer::new(Operation::Put, value)
}

/// Joins two neighbouring roads' records, with an onward share for the joint, and writes the record to the front of `target`. A refusal of
/// reading is about the upstream record if that record has a fault.
pub fn join(upstream: &[u8], downstream: &[u8], share: u16, target: &mut [u8]) -> Answer<Written> {
    let value = call!(nobyaluk_join([upstream], [downstream], share, [mut target]));
    Answer::new(Operation::Join, value)
}

/// One step of any road and state by a row of 1 + 2n numbers. A refusal names its cell and no step: the state only has the number of steps done.
pub fn step(road: Road, state: State, row: &[u32], lanes: Lanes) -> Answer<Stepped> {
    let value = call!(nobyaluk_step(road, state, [row], lanes));
    Answer::new(Operation::Step, value)
}
