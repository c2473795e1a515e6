//! The operations that allocate their own lists; each returns its result, or the refusal.
use crate::lent;
use crate::refused::Refused;
use crate::types::{
    Ended, Filled, Lanes, Law, Longest, Progress, Reading, Road, Start, State, Stepped, Study,
    Tallied, Weights, BYTES, CELLS, STEPS,
};

/// A run without refusal, with its tables: one row per step, n + 1 numbers per row, gate first, all in parts.
#[derive(Clone, Debug, PartialEq, Eq)]
pub struct Run {
    /// Totals, and the state after the last step.
    pub ended: Ended,
    /// What left each place in the step.
    pub outflow: Vec<u32>,
    /// What each place holds after the step; at the gate its queue.
    pub held: Vec<u32>,
    /// What waits at each ramp after the step; at the gate 0.
    pub queue: Vec<u32>,
}

/// A list as long as a record's table of outflows; empty if the record is refused.
fn table(record: &[u8]) -> Vec<u32> {
    let reading = lent::read(record).value;
    vec![0; reading.steps as usize * (reading.road.n + 1)]
}

/// A run's end and outflows, with its states.
fn with_states(
    record: &[u8],
    lanes: &[u8],
    ended: Ended,
    outflow: Vec<u32>,
) -> Result<Run, Refused> {
    let run = history(record, lanes, &outflow)?;
    Ok(Run { ended, ..run })
}

/// Reads a record: its road, its count of steps and the state before step 0.
pub fn read(record: &[u8]) -> Result<Reading, Refused> {
    lent::read(record).into_result()
}

/// Reads a record for a caller that takes at most `cells` cells and `most` bytes. A larger one is refused with
/// [`Refusal::CallerLimits`](crate::Refusal::CallerLimits), directly after [`Refusal::Size`](crate::Refusal::Size).
///
/// ```
/// use nobyaluk::Refusal;
/// let record = include_bytes!("../../../examples/exercise-9-cells.rec");
/// assert_eq!(nobyaluk::read_within(record, 8, 4_096).unwrap_err().refusal, Refusal::CallerLimits);
/// assert!(nobyaluk::read_within(record, 9, 4_096).is_ok());
/// ```
pub fn read_within(record: &[u8], cells: usize, most: usize) -> Result<Reading, Refused> {
    lent::read_within(record, cells, most).into_result()
}

/// Runs a record whole, under a table of lanes (empty: all open).
pub fn run(record: &[u8], lanes: &[u8]) -> Result<Run, Refused> {
    let mut outflow = table(record);
    let ended = lent::run(record, lanes, &mut outflow).into_result()?;
    with_states(record, lanes, ended, outflow)
}

/// [`run`] with weights of waiting; also gives the weighted total, in part-steps.
pub fn run_weighted(record: &[u8], lanes: &[u8], weights: Weights) -> Result<(Run, u64), Refused> {
    let mut outflow = table(record);
    let weighed = lent::run_weighted(record, lanes, weights, &mut outflow).into_result()?;
    let run = with_states(record, lanes, weighed.ended, outflow)?;
    Ok((run, weighed.weighted))
}

/// The totals of a run with the longest queues of the gate and of the on-ramps, in parts, without the tables.
pub fn run_longest(record: &[u8], lanes: &[u8]) -> Result<Longest, Refused> {
    lent::run_longest(record, lanes, &mut table(record)).into_result()
}

/// Judges a schedule: T rows of n + 1 outflows, gate first, in parts. The answer has the schedule's own totals. [`lent::judge`] gives the state
/// before a broken rule too.
pub fn judge(record: &[u8], lanes: &[u8], schedule: &[u32]) -> Result<Ended, Refused> {
    lent::judge(record, lanes, schedule).into_result()
}

/// Judges a schedule, and gives what each place holds and what waits at each ramp after every step.
pub fn history(record: &[u8], lanes: &[u8], schedule: &[u32]) -> Result<Run, Refused> {
    let (mut held, mut queue) = (table(record), table(record));
    let ended = lent::history(record, lanes, schedule, &mut held, &mut queue).into_result()?;
    Ok(Run {
        ended,
        outflow: schedule.to_vec(),
        held,
        queue,
    })
}

/// Fills a record's releases by a law for each cell, and runs it; after a refusal the record is unchanged.
///
/// ```
/// use nobyaluk::{fill, Law};
/// let mut record = std::fs::read("../../examples/printed-run.rec")?;
/// let open = Law::Fixed { rate: 1e6 };
/// let run = fill(&mut record, &[open; 2], &[])?;
/// assert_eq!(run.ended, nobyaluk::run(&record, &[])?.ended);
/// let refused = fill(&mut record, &[Law::Fixed { rate: f64::NAN }; 2], &[]).unwrap_err();
/// assert_eq!(refused.to_string(), "refused 16: cell 2: a ramp's meter law has a number that isn't finite");
/// # Ok::<(), Box<dyn std::error::Error>>(())
/// ```
pub fn fill(record: &mut [u8], laws: &[Law], lanes: &[u8]) -> Result<Run, Refused> {
    let mut outflow = table(record);
    let ended = lent::fill(record, laws, lanes, &mut outflow).into_result()?;
    with_states(record, lanes, ended, outflow)
}

/// [`fill`] with the longest queues of the gate and of the on-ramps, in parts, without the tables.
pub fn fill_longest(record: &mut [u8], laws: &[Law], lanes: &[u8]) -> Result<Longest, Refused> {
    let mut outflow = table(record);
    lent::fill_longest(record, laws, lanes, &mut outflow).into_result()
}

/// Runs the rows of a further record from a state; the record's own start is checked and then ignored. If the state is the one after
/// the rows before, the two runs are one. Also gives the weighted total, in part-steps, and the longest queues, in parts, of this record's steps.
///
/// ```
/// use nobyaluk::{run, run_on, Weights};
/// let record = std::fs::read("../../examples/printed-run.rec")?;
/// let first = run(&record, &[])?;
/// let (on, tallied) = run_on(&record, &[], Weights::EVEN, first.ended.state)?;
/// assert_eq!((on.ended.state.done, on.outflow.len()), (6, 9));
/// assert_eq!(on.ended.total, first.ended.total + tallied.weighted);
/// # Ok::<(), Box<dyn std::error::Error>>(())
/// ```
pub fn run_on(
    record: &[u8],
    lanes: &[u8],
    weights: Weights,
    from: State,
) -> Result<(Run, Tallied), Refused> {
    let mut outflow = table(record);
    let tallied = lent::run_on(record, lanes, weights, from, &mut outflow).into_result()?;
    let run = history_on(record, lanes, from, &outflow)?;
    Ok((run, tallied))
}

/// Judges a schedule of a further record from a state, as [`judge`] does from the record's start.
pub fn judge_on(
    record: &[u8],
    lanes: &[u8],
    from: State,
    schedule: &[u32],
) -> Result<Ended, Refused> {
    lent::judge_on(record, lanes, from, schedule).into_result()
}

/// Judges a schedule of a further record from a state, and gives the states as [`history`] does.
pub fn history_on(
    record: &[u8],
    lanes: &[u8],
    from: State,
    schedule: &[u32],
) -> Result<Run, Refused> {
    let (mut held, mut queue) = (table(record), table(record));
    let ended =
        lent::history_on(record, lanes, from, schedule, &mut held, &mut queue).into_result()?;
    Ok(Run {
        ended,
        outflow: schedule.to_vec(),
        held,
        queue,
    })
}

/// Fills a further record's releases by a law for each cell, from a state and the step before it, and runs it; after a refusal the record is unchanged.
/// Also gives the longest queues of this record's steps, and the progress from which the next record goes on.
///
/// ```
/// use nobyaluk::{fill, fill_on, read, Law, Progress};
/// let mut record = std::fs::read("../../examples/printed-run.rec")?;
/// let laws = [Law::Fixed { rate: 0.0 }, Law::Alinea { gain: 0.1, target: 5_000.0 }];
/// let start = Progress::start(read(&record)?.state);
/// let (first, filled) = fill_on(&mut record, &laws, &[], start)?;
/// assert_eq!(first, fill(&mut record, &laws, &[])?);
/// let (on, _) = fill_on(&mut record, &laws, &[], filled.progress())?;
/// assert_eq!(on.ended.state.done, 6);
/// # Ok::<(), Box<dyn std::error::Error>>(())
/// ```
pub fn fill_on(
    record: &mut [u8],
    laws: &[Law],
    lanes: &[u8],
    from: Progress,
) -> Result<(Run, Filled), Refused> {
    let mut outflow = table(record);
    let filled = lent::fill_on(record, laws, lanes, from, &mut outflow).into_result()?;
    let run = history_on(record, lanes, from.state, &outflow)?;
    Ok((run, filled))
}

/// One study for each table of arrivals; none if the record is refused.
fn studies(record: &[u8], arrivals: &[u32]) -> Vec<Study> {
    vec![Study::EMPTY; arrivals.len() / table(record).len().max(1)]
}

/// Runs a record with each of many tables of arrivals, of T rows of n + 1 numbers in parts a step, gate first: what [`run_longest`] gives for each. A
/// refused study has its refusal, and the others go on.
///
/// ```
/// let record = std::fs::read("../../examples/printed-run.rec")?;
/// let loads: Vec<u32> = (1..=3).flat_map(|load| [300 * load, 0, 100 * load].repeat(3)).collect();
/// let studies = nobyaluk::run_many(&record, &[], &loads)?;
/// assert!(studies.iter().all(|study| study.number == 0) && studies[0].total < studies[2].total);
/// # Ok::<(), Box<dyn std::error::Error>>(())
/// ```
pub fn run_many(record: &[u8], lanes: &[u8], arrivals: &[u32]) -> Result<Vec<Study>, Refused> {
    let (mut record, mut list, mut studies) =
        (record.to_vec(), table(record), studies(record, arrivals));
    lent::run_many(&mut record, lanes, arrivals, &mut list, &mut studies).into_result()?;
    Ok(studies)
}

/// [`run_many`] with releases filled by a law for each cell: what [`fill_longest`] gives for each study.
pub fn fill_many(
    record: &[u8],
    laws: &[Law],
    lanes: &[u8],
    arrivals: &[u32],
) -> Result<Vec<Study>, Refused> {
    let (mut record, mut list, mut studies) =
        (record.to_vec(), table(record), studies(record, arrivals));
    lent::fill_many(&mut record, laws, lanes, arrivals, &mut list, &mut studies).into_result()?;
    Ok(studies)
}

/// The bytes of the record of a road, T steps, a start and T rows of 1 + 2n numbers, in parts a step: gate arrivals, then each cell's ramp
/// arrivals and release.
pub fn write(road: Road, steps: usize, start: Start, rows: &[u32]) -> Result<Vec<u8>, Refused> {
    let mut target = vec![0; BYTES];
    let written = lent::write(road, steps, start, rows, &mut target).into_result()?;
    target.truncate(written.count as usize);
    Ok(target)
}

/// The rows of a record, all in one list, in parts a step: 1 + 2n numbers a step, as [`write`](fn@write) takes them.
pub fn rows(record: &[u8]) -> Result<Vec<u32>, Refused> {
    let reading = read(record)?;
    let (n, steps) = (reading.road.n, reading.steps as usize);
    let mut list = vec![0; steps * (1 + 2 * n)];
    lent::rows(record, n, steps, &mut list);
    Ok(list)
}

/// One row of any bytes, taken as a record of n cells, whether it reads or not; a number past their end is 0. None if n is
/// above 64 or the step is not below 1,440.
pub fn row(record: &[u8], n: usize, step: usize) -> Option<Vec<u32>> {
    if n > CELLS || step >= STEPS {
        return None;
    }
    Some(lent::row(record, n, step).numbers[..1 + 2 * n].to_vec())
}

/// A stated load: its arrivals, and the last number, from which a longer load continues.
#[derive(Clone, Debug, PartialEq, Eq)]
pub struct Load {
    /// In parts a step.
    pub arrivals: Vec<u32>,
    /// The last number of the generator; the seed if no arrival was asked for.
    pub last: u32,
}

/// The first `count` arrivals of a seed and a peak; peak and arrivals in parts a step.
///
/// ```
/// use nobyaluk::load;
/// let first = load(0, 1_000, 2)?;
/// assert_eq!(first.arrivals, [236, 278]);
/// assert_eq!(load(first.last, 1_000, 1)?.arrivals, load(0, 1_000, 3)?.arrivals[2..]);
/// assert_eq!(load(0, 1_000_001, 3).unwrap_err().to_string(), "refused 25: a peak above 1,000,000");
/// # Ok::<(), nobyaluk::Refused>(())
/// ```
pub fn load(seed: u32, peak: u32, count: usize) -> Result<Load, Refused> {
    let mut arrivals = vec![0; count];
    let loaded = lent::load(seed, peak, &mut arrivals).into_result()?;
    Ok(Load {
        arrivals,
        last: loaded.last as u32,
    })
}

/// The releases that keep a ramp's queue at or below the ceiling, with the least running sum after every step; none if no table does. Start and
/// ceiling in parts; rate, arrivals and releases in parts a step.
///
/// ```
/// use nobyaluk::{wanted, Refusal};
/// assert_eq!(wanted(4, 3, 2, &[0, 0, 3])?, Some(vec![1, 1, 2]));
/// assert_eq!(wanted(4, 3, 2, &[0, 0, 6])?, None);
/// assert_eq!(wanted(4, 3, 2, &[]).unwrap_err().refusal, Refusal::WantedInput);
/// # Ok::<(), nobyaluk::Refused>(())
/// ```
pub fn wanted(
    start: u32,
    ceiling: u32,
    rate: u32,
    arrivals: &[u32],
) -> Result<Option<Vec<u32>>, Refused> {
    let mut table = vec![0; arrivals.len()];
    let answer = lent::wanted(start, ceiling, rate, arrivals, &mut table).into_result()?;
    Ok((answer.found == 1).then_some(table))
}

/// What the ramps of one street may release in a step: the smaller of wish and guarantee, then what remains in ramp order.
/// All in parts a step.
pub fn grant(limit: u32, guarantees: &[u32], wishes: &[u32]) -> Result<Vec<u32>, Refused> {
    let mut grants = vec![0; guarantees.len()];
    lent::grant(limit, guarantees, wishes, &mut grants).into_result()?;
    Ok(grants)
}

/// Puts a release, in parts, into a record at a step, counted from 0, and a cell, counted from 1; a refusal leaves the record unchanged.
///
/// ```
/// let mut record = std::fs::read("../../examples/printed-run.rec")?;
/// nobyaluk::put(&mut record, 1, 2, 7)?;
/// assert_eq!(nobyaluk::row(&record, 2, 1), Some(vec![1_000, 0, 0, 500, 7]));
/// let refused = nobyaluk::put(&mut record, 9, 2, 7).unwrap_err();
/// assert!(refused.to_string().starts_with("refused 6: step 9: "));
/// # Ok::<(), Box<dyn std::error::Error>>(())
/// ```
pub fn put(record: &mut [u8], step: usize, cell: usize, release: u32) -> Result<(), Refused> {
    lent::put(record, step, cell, release)
        .into_result()
        .map(|_| ())
}

/// Puts into a record the releases that keep the queue of a cell's ramp at or below the ceiling, as [`wanted`] gives them from the record's own start
/// and arrivals, and also returns them, in parts a step. If no table does, the answer is none; then, as after a refusal, the record is unchanged.
/// The cell's supply is not considered: a run refuses a release above it.
///
/// ```
/// let mut record = std::fs::read("../../examples/printed-run.rec")?;
/// let table = nobyaluk::put_wanted(&mut record, 2, 1_900, 900)?; // 1,500 wait, 500 arrive in each step
/// assert_eq!(table, Some(vec![100, 500, 500]));
/// assert_eq!(nobyaluk::run(&record, &[])?.queue[2], 1_900);
/// assert_eq!(nobyaluk::put_wanted(&mut record, 2, 1_900, 99)?, None);
/// assert_eq!(nobyaluk::put_wanted(&mut record, 1, 1_900, 900).unwrap_err().refusal, nobyaluk::Refusal::Limits);
/// # Ok::<(), Box<dyn std::error::Error>>(())
/// ```
pub fn put_wanted(
    record: &mut [u8],
    cell: usize,
    ceiling: u32,
    rate: u32,
) -> Result<Option<Vec<u32>>, Refused> {
    let mut changed = record.to_vec();
    put(&mut changed, 0, cell, 0)?; // refused if there is no such ramp
    let start = read(record)?;
    let arrivals = rows(record)?;
    let arrivals = arrivals.chunks(1 + 2 * start.road.n);
    let arrivals: Vec<u32> = arrivals.map(|row| row[2 * cell - 1]).collect();
    let table = wanted(start.state.queue[cell - 1], ceiling, rate, &arrivals)?;
    if let Some(releases) = &table {
        for (step, &release) in releases.iter().enumerate() {
            put(&mut changed, step, cell, release)?;
        }
        record.copy_from_slice(&changed);
    }
    Ok(table)
}

/// Two neighbouring roads as one record: upstream's cells, then downstream's, with an onward share for the joint, in thousandths.
/// Downstream's gate must have neither queue nor arrivals and is dropped; everything else is unchanged.
///
/// ```
/// let upstream = include_bytes!("../../../examples/rocade-sud-upstream.rec");
/// let downstream = include_bytes!("../../../examples/rocade-sud-downstream.rec");
/// let joined = nobyaluk::join(upstream, downstream, 890)?;
/// assert_eq!(joined, include_bytes!("../../../examples/rocade-sud.rec"));
/// let refused = nobyaluk::join(downstream, upstream, 890).unwrap_err();
/// assert_eq!(refused.to_string(), "refused 21: of two roads to join: the second gate has a queue or an arrival");
/// # Ok::<(), nobyaluk::Refused>(())
/// ```
pub fn join(upstream: &[u8], downstream: &[u8], share: u16) -> Result<Vec<u8>, Refused> {
    let mut target = vec![0; BYTES];
    let written = lent::join(upstream, downstream, share, &mut target).into_result()?;
    target.truncate(written.count as usize);
    Ok(target)
}

/// One step of any road and state by a row of 1 + 2n numbers, in parts: gate arrivals, then each cell's ramp arrivals and release. A refusal names
/// its cell and no step: the state only has the number of steps done.
///
/// ```
/// use nobyaluk::{read, rows, step, Lanes};
/// let record = std::fs::read("../../examples/printed-run.rec")?;
/// let start = read(&record)?;
/// let mut row = rows(&record)?[..5].to_vec();
/// assert_eq!(step(start.road, start.state, &row, Lanes::OPEN)?.state.done, 1);
/// row[4] = 2_001; // 1,500 wait and 500 arrive
/// let refused = step(start.road, start.state, &row, Lanes::OPEN).unwrap_err();
/// assert_eq!(refused.to_string(), "refused 9: cell 2: a release above its ramp's queue and this step's arrivals there together");
/// # Ok::<(), Box<dyn std::error::Error>>(())
/// ```
pub fn step(road: Road, state: State, row: &[u32], lanes: Lanes) -> Result<Stepped, Refused> {
    lent::step(road, state, row, lanes).into_result()
}
