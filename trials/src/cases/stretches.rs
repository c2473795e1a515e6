//! Studies that go on from a state: run, filled and judged. Refusals 7 and 8 with those
//! of the operations, states at their limits, cumulative outflows whose onward total has
//! a remainder, and studies cut in two.

use super::altered::{
    alter_lanes, alter_law, alter_length, alter_numbers, alter_record, alter_state, alter_weights,
    entry, named_cells, near,
};
use super::case::{LawInput, MAX_LANES, MAX_LIST, MAX_RECORD};
use super::cells::STYLES;
use super::closures;
use super::dice::Dice;
use super::list::table_length;
use super::meters;
use super::roads;
use super::samples;
use super::steps;
use super::sweep;
use super::trial::{self, Plan, Trial};
use super::versions;
use super::weights;
use reference::draft::{CellDraft, Draft};
use reference::fill::Last;
use reference::limits;
use reference::model::{Road, State};
use reference::onward;
use reference::record;
use reference::run;
use reference::weigh::Weights;
use std::ops::Range;

/// Bound of the total for each step done.
const MAX_TOTAL_A_STEP: u64 = 200_000_000_000;
/// Random stretches, and random studies cut in two.
const RANDOM: usize = 300;
const CUT: usize = 90;

pub type Laws = [LawInput; Road::MAX_CELLS];

/// A record whose study goes on from a state, and what is done with it.
#[derive(Clone, Debug, PartialEq, Eq)]
pub struct Stretch {
    pub from: State,
    pub operation: Operation,
    pub lanes: Vec<u8>,
    pub record: Vec<u8>,
}

/// Lists are lent with `length` numbers.
#[derive(Clone, Debug, PartialEq, Eq)]
pub enum Operation {
    Run {
        weights: Weights,
        length: usize,
    },
    Fill {
        laws: Box<Laws>,
        last: Box<Last>,
        length: usize,
    },
    /// Judged, and its history.
    Judge {
        schedule: Vec<u32>,
    },
}

impl Stretch {
    /// The operation by its name.
    pub fn kind(&self) -> &'static str {
        match self.operation {
            Operation::Run { .. } => "run-on",
            Operation::Fill { .. } => "fill-on",
            Operation::Judge { .. } => "judge-on",
        }
    }

    /// Changes it in one way.
    pub fn alter(&mut self, dice: &mut Dice) {
        let i = entry(named_cells(&self.record), dice);
        match dice.upto(9) {
            0..=2 => alter_state(&mut self.from, i, dice),
            3 => alter_lanes(&mut self.lanes, dice),
            4..=6 => self.operation.alter(i, dice),
            _ => alter_record(&mut self.record, dice),
        }
    }
}

impl Operation {
    /// Changes it in one way, at an entry of its arrays.
    fn alter(&mut self, i: usize, dice: &mut Dice) {
        match self {
            Operation::Run { weights, length } => match dice.one_in(2) {
                true => alter_weights(weights, i, dice),
                false => alter_length(length, MAX_LIST, dice),
            },
            Operation::Fill { laws, last, length } => match dice.upto(5) {
                0 => alter_length(length, MAX_LIST, dice),
                1 => last.release[i] = near(last.release[i], dice),
                2 => last.entered[i] = near(last.entered[i], dice),
                _ => alter_law(&mut laws[i], dice),
            },
            Operation::Judge { schedule } => alter_numbers(schedule, MAX_LIST, dice),
        }
    }
}

/// All of fixed seeds and by hand.
pub fn all() -> Vec<Stretch> {
    let mut dice = Dice::new(31);
    let mut all = Vec::new();
    printed(&mut all, &mut dice);
    limits_of_states(&mut all, &mut dice);
    limits_of_entries(&mut all, &mut dice);
    last_steps(&mut all, &mut dice);
    orders(&mut all, &mut dice);
    lists(&mut all, &mut dice);
    remainders(&mut all, &mut dice);
    releases(&mut all, &mut dice);
    for k in 0..RANDOM {
        all.push(random(k, &mut dice));
    }
    for k in 0..CUT {
        cut(&mut all, k, &mut dice);
    }
    largest(&mut all, &mut dice);
    for stretch in &all {
        assert!(stretch.record.len() <= MAX_RECORD && stretch.lanes.len() <= MAX_LANES);
    }
    all
}

fn run_over(length: usize, dice: &mut Dice) -> Operation {
    Operation::Run {
        weights: weights::some(Road::MAX_CELLS, dice),
        length,
    }
}

fn fill_over(from: &State, cells: &[CellDraft], length: usize, dice: &mut Dice) -> Operation {
    Operation::Fill {
        laws: Box::new(some_laws(cells, dice)),
        last: Box::new(some_last(from, cells.len(), dice)),
        length,
    }
}

/// Laws of all kinds for the cells' ramps, and any bits elsewhere.
pub fn some_laws(cells: &[CellDraft], dice: &mut Dice) -> Laws {
    let make = dice.pick::<meters::MakeLaw>(&[
        meters::common_law,
        meters::common_law,
        meters::common_law,
        meters::odd_law,
    ]);
    let mut laws = [(); Road::MAX_CELLS].map(|()| meters::any_law(dice));
    for (law, cell) in laws.iter_mut().zip(cells) {
        if cell.ramp == 1 {
            *law = make(cell, dice);
        }
    }
    laws
}

/// The cells of a record that reads, none of another.
pub fn cells_in(bytes: &[u8]) -> Vec<CellDraft> {
    let (n, version) = (record::read(bytes).road.n, record::version_of(bytes));
    let cells = bytes.get(record::head_bytes(version)..).unwrap_or_default();
    let cells = cells.chunks_exact(record::CELL_BYTES).take(n);
    cells.map(CellDraft::decode).collect()
}

/// None before the first step; or any releases, with entries that the cells hold and any
/// numbers past cell n. Now and then a cell's entry is one more than it holds.
fn some_last(from: &State, n: usize, dice: &mut Dice) -> Last {
    let most = match dice.upto(5) {
        0 => return Last::none(),
        1 => u64::from(u32::MAX),
        _ => u64::from(Road::MAX_RATE),
    };
    let mut last = Last {
        release: [(); Road::MAX_CELLS].map(|()| dice.any_size(most) as u32),
        entered: [(); Road::MAX_CELLS].map(|()| dice.bits() as u32),
    };
    for i in 0..n.min(Road::MAX_CELLS) {
        last.entered[i] = dice.any_size(u64::from(from.held[i])) as u32;
    }
    if dice.one_in(8) {
        let i = dice.upto(n.clamp(1, Road::MAX_CELLS) as u64 - 1) as usize;
        last.entered[i] = from.held[i].saturating_add(1);
    }
    last
}

/// The rows that running from a state writes into a list of zeros.
fn own_rows(from: State, length: usize, lanes: &[u8], record: &[u8]) -> Vec<u32> {
    let mut list = vec![0; length];
    let weights = Weights {
        places: [0; Road::MAX_CELLS + 1],
        ramps: [0; Road::MAX_CELLS],
    };
    onward::run_on(record, lanes, &weights, from, &mut list);
    list
}

/// A draft run, filled and judged with the run's own rows.
fn all_ways(all: &mut Vec<Stretch>, from: State, lanes: &[u8], draft: &Draft, dice: &mut Dice) {
    let (length, record) = (table_length(draft), draft.encode());
    let schedule = own_rows(from, length, lanes, &record);
    for operation in [
        run_over(length, dice),
        fill_over(&from, &draft.cells, length, dice),
        Operation::Judge { schedule },
    ] {
        all.push(Stretch {
            from,
            operation,
            lanes: lanes.to_vec(),
            record: record.clone(),
        });
    }
}

/// The state after a draft's first steps.
fn after(draft: &Draft, steps: usize) -> State {
    let (_, start) = trial::start(draft);
    if steps == 0 {
        return start;
    }
    let mut first = draft.clone();
    first.rows.truncate(steps);
    first.steps = steps as u16;
    let mut list = vec![0; table_length(&first)];
    run::run(&first.encode(), &[], &mut list).state
}

/// The document's run from its start and after each of its steps, in both versions.
fn printed(all: &mut Vec<Stretch>, dice: &mut Dice) {
    for sample in [samples::printed, samples::three_cells] {
        for steps in 0..=3 {
            let from = after(&sample(), steps);
            all_ways(all, from, &[], &sample(), dice);
            all_ways(all, from, &[], &sample().timed(60), dice);
            for rows in 1..3 {
                let mut shorter = sample();
                shorter.rows.truncate(rows);
                shorter.steps = rows as u16;
                all_ways(all, from, &[], &shorter, dice);
            }
        }
    }
}

/// Sets a number of a state of three cells after s steps, at its bound.
type Set = fn(&mut State, u32);

const AT_BOUNDS: [Set; 12] = [
    |x, s| x.gate_queue = 1_000_000_000 + 1_000_000 * s,
    |x, s| x.queue[0] = 1_000_000_000 + 1_000_000 * s,
    |x, s| x.queue[2] = 1_000_000_000 + 1_000_000 * s,
    |x, _| x.held[0] = 8_000,
    |x, _| x.held[1] = 8_000,
    |x, _| x.held[2] = 8_000,
    |x, s| x.gate_f = 1_000_000 * s,
    |x, s| x.f[0] = 1_000_000 * s,
    |x, s| x.f[2] = 1_000_000 * s,
    |x, s| times(x, [MAX_TOTAL_A_STEP * u64::from(s), 0, 0]),
    |x, s| times(x, [0, MAX_TOTAL_A_STEP * u64::from(s), 0]),
    |x, s| {
        let half = MAX_TOTAL_A_STEP / 2 * u64::from(s);
        times(x, [half, 0, half]);
    },
];

/// One past it, or otherwise out of the limits.
const PAST_BOUNDS: [Set; 19] = [
    |x, s| x.gate_queue = 1_000_000_001 + 1_000_000 * s,
    |x, s| x.queue[0] = 1_000_000_001 + 1_000_000 * s,
    |x, s| x.queue[2] = 1_000_000_001 + 1_000_000 * s,
    |x, _| x.queue[1] = 1,
    |x, _| x.held[0] = 8_001,
    |x, _| x.held[1] = 8_001,
    |x, _| x.held[2] = u32::MAX,
    |x, s| x.gate_f = 1_000_000 * s + 1,
    |x, s| x.f[0] = 1_000_000 * s + 1,
    |x, s| x.f[1] = 1_000_000 * s + 1,
    |x, _| x.f[2] = u32::MAX,
    |x, s| times(x, [MAX_TOTAL_A_STEP * u64::from(s), 1, 0]),
    |x, s| times(x, [0, MAX_TOTAL_A_STEP * u64::from(s) + 1, 0]),
    |x, s| times(x, [1, 0, MAX_TOTAL_A_STEP * u64::from(s)]),
    // Sums that 64 bits don't hold.
    |x, _| times(x, [u64::MAX, 1, 0]),
    |x, _| times(x, [1 << 63, 1 << 63, 0]),
    |x, _| times(x, [u64::MAX; 3]),
    |x, _| x.steps = 1_441,
    |x, _| x.steps = u32::MAX as usize,
];

fn times(state: &mut State, times: [u64; 3]) {
    [state.gate_time, state.road_time, state.ramp_time] = times;
}

/// Anything in the entries past cell n.
fn fill_past(state: &mut State, n: usize, dice: &mut Dice) {
    for i in n..Road::MAX_CELLS {
        state.held[i] = dice.bits() as u32;
        state.queue[i] = dice.bits() as u32;
        state.f[i] = dice.bits() as u32;
    }
}

/// Three cells after s steps, with anything past them.
fn three_after(steps: usize, dice: &mut Dice) -> State {
    let mut state = after(&samples::three_cells(), 0);
    state.steps = steps;
    fill_past(&mut state, 3, dice);
    state
}

/// Each number of a state at its limit and past it. Three rows are left to 1,440 and
/// then fewer, so that 7 and 8 both apply.
fn limits_of_states(all: &mut Vec<Stretch>, dice: &mut Dice) {
    let draft = samples::three_cells();
    for steps in [0, 1, 934, 1_437, 1_438, 1_440] {
        for set in AT_BOUNDS.iter().chain(&PAST_BOUNDS) {
            let mut from = three_after(steps, dice);
            set(&mut from, steps as u32);
            all_ways(all, from, &[], &draft, dice);
        }
    }
    // All numbers at their limits at once.
    for steps in [0, 700, 1_437] {
        let mut from = three_after(steps, dice);
        for set in AT_BOUNDS {
            set(&mut from, steps as u32);
        }
        all_ways(all, from, &[], &draft, dice);
    }
}

/// Each cell's entry at what it holds and past it, also together with 8; and past cell n.
fn limits_of_entries(all: &mut Vec<Stretch>, dice: &mut Dice) {
    let draft = samples::three_cells();
    for steps in [0, 934, 1_438] {
        for (i, more) in (0..5).flat_map(|i| [0, 1, u32::MAX].map(|more| (i, more))) {
            let from = three_after(steps, dice);
            let mut last = Box::new(Last::none());
            last.entered[i] = from.held[i].saturating_add(more);
            all.push(Stretch {
                from,
                operation: Operation::Fill {
                    laws: Box::new(some_laws(&draft.cells, dice)),
                    last,
                    length: table_length(&draft),
                },
                lanes: vec![],
                record: draft.encode(),
            });
        }
    }
}

/// s + T about 1,440, with one row and many.
fn last_steps(all: &mut Vec<Stretch>, dice: &mut Dice) {
    for rows in [1, 2, 40] {
        let draft = samples::even(2, rows);
        for done in [
            1_439 - rows,
            1_440 - rows,
            1_441 - rows,
            1_439,
            1_440,
            1_441,
        ] {
            let mut from = after(&draft, 0);
            from.steps = done;
            all_ways(all, from, &[], &draft, dice);
        }
    }
    let draft = samples::even(1, 1_440);
    for done in [0, 1] {
        let mut from = after(&draft, 0);
        from.steps = done;
        all_ways(all, from, &[], &draft, dice);
    }
}

type Change = fn(&mut Draft);

/// Each refusal together with those that come after it.
fn orders(all: &mut Vec<Stretch>, dice: &mut Dice) {
    let changes: [Change; 14] = [
        |_| (),
        |d| d.length = Some(0),
        |d| d.cut = 172 - 15,
        |d| d.version = 3,
        |d| d.n = 65,
        |d| d.steps = 0,
        |d| d.cut = 4,
        |d| (d.version, d.seconds) = (2, Some(901)),
        |d| d.cells[2].v = 1_001,
        // The record's own start is read, though not used.
        |d| d.cells[1].held = 8_001,
        |d| d.gate_queue = 1_000_000_001,
        |d| d.rows[2][6] = 1_000_001,
        |d| d.rows[1][2] = 900_000,
        |d| d.rows[0][6] = 900_000,
    ];
    let mut spoilt = [1; 12];
    spoilt[10] = 2;
    let tables = [&spoilt[..11], &spoilt[..], &[1; 12][..], &[]];
    for change in changes {
        let mut draft = samples::three_cells();
        change(&mut draft);
        for lanes in tables {
            for (steps, gate_f) in [(1, 1_000_001), (1_438, 0), (1_441, 0), (5, 0)] {
                let mut from = three_after(steps, dice);
                from.gate_f = gate_f;
                let (short, whole) = (dice.one_in(2), table_length(&samples::three_cells()));
                let length = whole - usize::from(short);
                let mut operations = vec![
                    run_over(length, dice),
                    fill_over(&from, &draft.cells, length, dice),
                    Operation::Judge {
                        schedule: vec![0; length],
                    },
                ];
                if let Operation::Fill { laws, .. } = &mut operations[1] {
                    if dice.one_in(3) {
                        laws[2] = LawInput::new(0, [f64::NAN; 3]);
                    }
                }
                let record = draft.encode();
                all.extend(operations.into_iter().map(|operation| Stretch {
                    from,
                    operation,
                    lanes: lanes.to_vec(),
                    record: record.clone(),
                }));
            }
        }
    }
}

/// Lists and schedules too short, just long enough and longer.
fn lists(all: &mut Vec<Stretch>, dice: &mut Dice) {
    let draft = samples::three_cells();
    let from = after(&draft, 2);
    for length in [0, 1, 11, 12, 13, 40] {
        for operation in [
            run_over(length, dice),
            fill_over(&from, &draft.cells, length, dice),
            Operation::Judge {
                schedule: own_rows(from, length, &[], &draft.encode()),
            },
        ] {
            all.push(Stretch {
                from,
                operation,
                lanes: vec![],
                record: draft.encode(),
            });
        }
    }
}

/// Cumulative outflows up to their bound, of which a share is no whole number: the
/// outflow that fits the room depends on the remainder. One part more is 14 or 13.
fn remainders(all: &mut Vec<Stretch>, dice: &mut Dice) {
    for share in [1, 3, 333, 499, 750, 999, 1_000] {
        for steps in [1, 500, 1_437] {
            let mut draft = samples::three_cells();
            (draft.cells[0].b, draft.cells[1].b) = (share, 1_000 - share);
            let mut from = three_after(steps, dice);
            let most = 1_000_000 * steps as u32;
            from.gate_f = dice.between(most - 1_000, most);
            for i in 0..3 {
                from.f[i] = dice.between(most - 1_000, most);
            }
            all_ways(all, from, &[], &draft, dice);
            let record = draft.encode();
            let mut schedule = own_rows(from, 12, &[], &record);
            let at = dice.upto(11) as usize;
            schedule[at] += 1;
            all.push(Stretch {
                from,
                operation: Operation::Judge { schedule },
                lanes: vec![],
                record,
            });
        }
    }
}

/// 9 and 10 in each step: queue and held count are the state's.
fn releases(all: &mut Vec<Stretch>, dice: &mut Dice) {
    for step in 0..3 {
        for (queue, held, release) in [
            (600, 4_000, 680),
            (600, 4_000, 681),
            (900_000, 4_000, 1_000),
            (900_000, 4_000, 1_001),
            (0, 8_000, 0),
            (0, 8_000, 1),
            (1_000_000_000, 0, 2_001),
        ] {
            let mut draft = samples::three_cells();
            draft.rows.iter_mut().for_each(|row| row[2] = 0);
            draft.rows[step][2] = release;
            let mut from = three_after(3, dice);
            (from.queue[0], from.held[0]) = (queue, held);
            all_ways(all, from, &[], &draft, dice);
        }
    }
}

/// A road with rows that fit a state of it, mostly of few cells.
pub fn random(k: usize, dice: &mut Dice) -> Stretch {
    let style = STYLES[k % STYLES.len()];
    let (n, most) = match dice.upto(11) {
        0 => (Road::MAX_CELLS, 3),
        1 => (1, 12),
        _ => (1 + dice.upto(7) as usize, 9),
    };
    let rows = 1 + dice.upto(most - 1) as usize;
    let draft = style.road(n, dice);
    let cells = draft.cells.clone();
    let from = random_state(&draft, rows, dice);
    let plan = Plan {
        style,
        steps: rows,
        hold: roads::random_hold(rows, dice),
        fault: dice.one_in(8).then(|| roads::random_step(rows, dice)),
        lanes: match dice.one_in(2) {
            true => closures::random_table(n, rows, dice),
            false => vec![],
        },
    };
    let mut trial = trial::make_from(draft, from, &plan, dice);
    if dice.one_in(3) {
        trial.record = versions::timed(&trial.record, dice.between(1, 900) as u16);
    }
    of_trial(from, &cells, trial, dice)
}

/// Any state within the limits; its held counts are mostly not those of the record.
fn random_state(draft: &Draft, rows: usize, dice: &mut Dice) -> State {
    let (road, start) = trial::start(draft);
    let left = Road::MAX_STEPS - rows;
    let done = match dice.upto(9) {
        0 => 0,
        1 | 2 => left,
        3 => left + 1,
        _ => dice.upto(left as u64) as usize,
    };
    let mut from = steps::random_state(&road, &start, done, dice);
    for i in 0..road.n {
        if !dice.one_in(3) {
            from.held[i] = dice.upto(u64::from(road.jam[i])) as u32;
        }
        if road.ramp[i] == 1 && dice.one_in(8) {
            from.queue[i] = limits::queue_bound(done) as u32;
        }
    }
    fill_past(&mut from, road.n, dice);
    from
}

/// One operation over a trial's rows, from its state.
fn of_trial(from: State, cells: &[CellDraft], trial: Trial, dice: &mut Dice) -> Stretch {
    let length = roads::list_length(trial.table(), dice);
    let operation = match dice.upto(5) {
        0 | 1 => run_over(length, dice),
        2 | 3 => fill_over(&from, cells, length, dice),
        4 => Operation::Judge {
            schedule: trial.schedule.clone(),
        },
        _ => {
            let mut schedule = own_rows(from, trial.table(), &trial.lanes, &trial.record);
            let at = dice.upto(schedule.len() as u64 - 1) as usize;
            schedule[at] = schedule[at].saturating_add(dice.pick(&[0, 1, 1, 1_000]));
            Operation::Judge { schedule }
        }
    };
    Stretch {
        from,
        operation,
        lanes: trial.lanes,
        record: trial.record,
    }
}

/// The rows of some steps as a record of their own, with the start as it was.
fn rows_alone(record: &[u8], rows: &Range<usize>) -> Vec<u8> {
    let (version, n) = (record::version_of(record), record::cells_of(record));
    let at = |step: usize| record::size(version, n, step);
    let mut part = [&record[..at(0)], &record[at(rows.start)..at(rows.end)]].concat();
    let length = part.len() as u32 - 4;
    part[..4].copy_from_slice(&length.to_be_bytes());
    part[6..8].copy_from_slice(&(rows.len() as u16).to_be_bytes());
    part
}

/// The lanes built and the rows of some steps, of a table that isn't empty.
fn lanes_alone(lanes: &[u8], n: usize, rows: &Range<usize>) -> Vec<u8> {
    [
        &lanes[..n],
        &lanes[n * (rows.start + 1)..n * (rows.end + 1)],
    ]
    .concat()
}

/// A study under a table cut in two: the second part from the state that the first
/// leaves, run, judged by the schedule's rows, and filled.
fn cut(all: &mut Vec<Stretch>, k: usize, dice: &mut Dice) {
    let trial = closures::random_trial(k, dice);
    if trial.steps == 1 {
        return;
    }
    let at = dice.between(1, trial.steps as u32 - 1) as usize;
    let (first, rest) = (0..at, at..trial.steps);
    let record = rows_alone(&trial.record, &rest);
    let lanes = lanes_alone(&trial.lanes, trial.n, &rest);
    let start = record::read(&trial.record).state;
    let (mut before, before_lanes) = (
        rows_alone(&trial.record, &first),
        lanes_alone(&trial.lanes, trial.n, &first),
    );
    let mut list = vec![0; at * (trial.n + 1)];
    let length = rest.len() * (trial.n + 1);
    let from = run::run(&before, &before_lanes, &mut list).state;
    let mut push = |from: State, operation: Operation| {
        all.push(Stretch {
            from,
            operation,
            lanes: lanes.clone(),
            record: record.clone(),
        });
    };
    push(from, run_over(length, dice));
    let schedule = trial.schedule[at * (trial.n + 1)..].to_vec();
    push(from, Operation::Judge { schedule });
    let laws = Box::new(some_laws(&cells_in(&record), dice));
    let progress = onward::Progress {
        state: start,
        last: Last::none(),
    };
    let by = laws.map(|law| law.law());
    let filled = onward::fill_on(&mut before, &by, &before_lanes, progress, &mut list);
    let last = Box::new(filled.last);
    push(filled.answer.state, Operation::Fill { laws, last, length });
}

/// The widest road, the longest queues and the most rows that are left.
fn largest(all: &mut Vec<Stretch>, dice: &mut Dice) {
    for (n, rows, done) in [(64, 2, 1_438), (64, 1, 0), (1, 720, 720), (6, 600, 840)] {
        let mut draft = sweep::uniform(n, true, true);
        let mut row = vec![1_000_000];
        row.extend([1_000_000, 0].repeat(n));
        (draft.rows, draft.steps) = (vec![row; rows], rows as u16);
        let mut from = after(&draft, 0);
        from.steps = done;
        let queue = limits::queue_bound(done) as u32;
        (from.gate_queue, from.gate_f) = (queue, 1_000_000 * done as u32);
        from.queue[..n].fill(queue);
        from.f[..n].fill(1_000_000 * done as u32);
        times(&mut from, [0, MAX_TOTAL_A_STEP * done as u64, 0]);
        fill_past(&mut from, n, dice);
        all_ways(all, from, &[], &draft, dice);
        // Held counts of 0, while the record says full cells.
        from.held[..n].fill(0);
        all_ways(all, from, &[], &draft, dice);
    }
}
