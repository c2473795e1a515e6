//! Group 3: single steps. Refusals 7 to 10 at their bounds, and random steps.

use super::case::{StepInput, MAX_ROW};
use super::cells::{Style, STYLES};
use super::dice::Dice;
use super::list::Cases;
use super::samples;
use super::trial;
use reference::limits;
use reference::model::{Road, State};

/// Bound of the total for each step done.
const MAX_TOTAL_A_STEP: u64 = 200_000_000_000;

pub fn add(cases: &mut Cases) {
    let mut dice = Dice::new(3);
    single_numbers(cases, &mut dice);
    row_lengths(cases, &mut dice);
    cell_counts(cases);
    steps_done(cases, &mut dice);
    for steps in [0, 1, 2, 100, 1_439, 1_440] {
        bounds_after(cases, steps, &mut dice);
    }
    past_n(cases, &mut dice);
    releases(cases, &mut dice);
    for k in 0..120 {
        cases.step(&random_step(STYLES[k % STYLES.len()], &mut dice));
    }
}

/// Three cells, the first and the last with ramps, after one step. The
/// entries past cell 3 are garbage.
pub fn sound(dice: &mut Dice) -> StepInput {
    let mut input = samples::first_step(&samples::three_cells());
    input.state.steps = 1;
    input.state.gate_time = 4_000;
    input.state.road_time = 14_600;
    input.state.ramp_time = 1_400;
    input.state.gate_f = 1_400;
    input.state.f[..3].copy_from_slice(&[800, 520, 790]);
    fill_past_n(&mut input, dice);
    input
}

/// Anything at all in the entries past cell n.
pub fn fill_past_n(input: &mut StepInput, dice: &mut Dice) {
    fill_road_past_n(&mut input.road, dice);
    let state = &mut input.state;
    for i in input.road.n..Road::MAX_CELLS {
        state.held[i] = dice.bits() as u32;
        state.queue[i] = dice.bits() as u32;
        state.f[i] = dice.bits() as u32;
        (input.built[i], input.open[i]) = (state.held[i] as u8, state.queue[i] as u8);
    }
}

/// The same, of the road alone.
pub fn fill_road_past_n(road: &mut Road, dice: &mut Dice) {
    for i in road.n..Road::MAX_CELLS {
        road.v[i] = dice.bits() as u16;
        road.w[i] = dice.bits() as u16;
        road.b[i] = dice.bits() as u16;
        road.ramp[i] = dice.bits() as u16;
        road.jam[i] = dice.bits() as u32;
        road.capacity[i] = dice.bits() as u32;
    }
}

type Change = fn(&mut StepInput);

/// The road's and the row's limits, and those of the state that don't depend
/// on the steps done. Where b is too great, F is 0.
const NUMBERS: [Change; 54] = [
    |_| (),
    |x| x.road.gate_capacity = 0,
    |x| x.road.gate_capacity = 1_000_000,
    |x| x.road.gate_capacity = 1_000_001,
    |x| x.road.gate_capacity = u32::MAX,
    |x| x.road.v[0] = 1_000,
    |x| x.road.v[0] = 1_001,
    |x| x.road.v[2] = 1_001,
    |x| x.road.v[1] = 65_535,
    |x| x.road.w[0] = 1_000,
    |x| x.road.w[0] = 1_001,
    |x| x.road.w[2] = 1_001,
    |x| x.road.w[1] = 65_535,
    |x| x.road.b[0] = 1_000,
    |x| (x.road.b[0], x.state.f[0]) = (1_001, 0),
    |x| (x.road.b[1], x.state.f[1]) = (65_535, 0),
    |x| x.road.b[2] = 1,
    |x| x.road.b[2] = 1_000,
    |x| x.road.ramp[1] = 1,
    |x| x.road.ramp[0] = 2,
    |x| x.road.ramp[1] = 2,
    |x| x.road.ramp[2] = 256,
    |x| x.road.ramp[2] = 257,
    |x| x.road.ramp[1] = 65_535,
    |x| x.road.jam[0] = 1_000_000,
    |x| x.road.jam[0] = 1_000_001,
    |x| x.road.jam[2] = u32::MAX,
    |x| x.road.capacity[0] = 1_000_000,
    |x| x.road.capacity[0] = 1_000_001,
    |x| x.road.capacity[2] = u32::MAX,
    |x| x.state.held[1] = 0,
    |x| x.state.held[1] = 8_000,
    |x| x.state.held[1] = 8_001,
    |x| x.state.held[0] = 8_001,
    |x| x.state.held[2] = u32::MAX,
    |x| x.road.jam[2] = 5_999,
    |x| (x.road.jam[1], x.state.held[1]) = (1_000_000, 1_000_000),
    |x| (x.road.jam[1], x.state.held[1]) = (1_000_001, 1_000_001),
    // A queue without a ramp, and rows for a cell without one.
    |x| x.state.queue[1] = 1,
    |x| x.state.queue[1] = u32::MAX,
    |x| x.row[3] = 1,
    |x| x.row[4] = 1,
    |x| (x.road.ramp[1], x.state.queue[1]) = (1, 1),
    |x| (x.road.ramp[1], x.row[3]) = (1, 1),
    |x| (x.road.ramp[0], x.state.queue[0]) = (0, 0),
    |x| x.road.ramp[0] = 0,
    |x| x.row[0] = 1_000_000,
    |x| x.row[0] = 1_000_001,
    |x| x.row[0] = u32::MAX,
    |x| x.row[1] = 1_000_000,
    |x| x.row[1] = 1_000_001,
    |x| x.row[5] = u32::MAX,
    |x| x.row[6] = 1_000_000,
    |x| x.row[6] = 1_000_001,
];

fn single_numbers(cases: &mut Cases, dice: &mut Dice) {
    for change in NUMBERS {
        let mut input = sound(dice);
        change(&mut input);
        cases.step(&input);
    }
    // A release of 1,000,000 that fits.
    let mut input = samples::first_step(&samples::wide());
    for release in [1_000_000, 1_000_001] {
        input.row[2] = release;
        cases.step(&input);
    }
}

/// Rows of other lengths than 7.
fn row_lengths(cases: &mut Cases, dice: &mut Dice) {
    for length in [0, 1, 3, 6, 7, 8, 9, 128, 129, MAX_ROW] {
        let mut input = sound(dice);
        input.row.resize(length, 0);
        cases.step(&input);
    }
}

/// n at its limits and past them, with a row that fits where a frame can hold
/// it, and rows that fit only if 1 + 2n overflows.
fn cell_counts(cases: &mut Cases) {
    let mut input = samples::first_step(&samples::even(64, 1));
    input.state.steps = 1;
    let row = [vec![700], vec![0; MAX_ROW - 1]].concat();
    for (n, length) in [
        (0, 0),
        (0, 1),
        (0, 129),
        (64, 129),
        (64, 131),
        (65, 129),
        (65, 131),
        (99, 199),
        (1_000, 200),
        (1 << 31, 1),
        ((1 << 31) + 2, 5),
        ((1 << 31) + 64, 129),
        (u32::MAX as usize, 129),
        (256 + 2, 5),
        (256 + 64, 129),
    ] {
        input.road.n = n;
        input.row = row[..length].to_vec();
        cases.step(&input);
    }
    // One cell, whose share must be 0.
    (input.road.n, input.row) = (1, vec![700, 0, 0]);
    cases.step(&input);
    input.road.b[0] = 0;
    cases.step(&input);
}

/// 1,440 steps done are 8, one more is 7.
fn steps_done(cases: &mut Cases, dice: &mut Dice) {
    for steps in [1_438, 1_439, 1_440, 1_441, 65_537, u32::MAX as usize] {
        let mut input = sound(dice);
        input.state.steps = steps;
        cases.step(&input);
        // 8 comes before 9 and after 7.
        input.row[2] = 781;
        cases.step(&input);
        input.row[2] = 1_000_001;
        cases.step(&input);
    }
}

/// A number of the state that its bound makes with the steps done.
type Field = fn(&mut State, u64);

const CUMULATIVE: [Field; 3] = [
    |s, x| s.gate_f = x as u32,
    |s, x| s.f[0] = x as u32,
    |s, x| s.f[2] = x as u32,
];

const QUEUES: [Field; 3] = [
    |s, x| s.gate_queue = x as u32,
    |s, x| s.queue[0] = x as u32,
    |s, x| s.queue[2] = x as u32,
];

const TIMES: [Field; 3] = [
    |s, x| s.gate_time = x,
    |s, x| s.road_time = x,
    |s, x| s.ramp_time = x,
];

/// Every F, every queue and each time alone at its bound after so many steps, and
/// one past.
fn bounds_after(cases: &mut Cases, steps: usize, dice: &mut Dice) {
    let s = steps as u64;
    let mut bounds: Vec<(Field, u64)> = Vec::new();
    bounds.extend(CUMULATIVE.map(|field| (field, 1_000_000 * s)));
    bounds.extend(QUEUES.map(|field| (field, limits::queue_bound(steps))));
    bounds.extend(TIMES.map(|field| (field, MAX_TOTAL_A_STEP * s)));
    let mut start = sound(dice);
    start.state.steps = steps;
    set_times(&mut start.state, [0; 3]);
    start.state.gate_f = 0;
    start.state.f[..3].fill(0);
    let mut all = start.clone();
    for (field, bound) in bounds {
        for number in [bound, bound + 1] {
            let mut input = start.clone();
            field(&mut input.state, number);
            cases.step(&input);
        }
        field(&mut all.state, bound);
    }
    // All at their bounds but for the times, of which one alone may be.
    set_times(&mut all.state, [0, 0, MAX_TOTAL_A_STEP * s]);
    cases.step(&all);
    for times in time_sums(MAX_TOTAL_A_STEP * s) {
        set_times(&mut start.state, times);
        cases.step(&start);
    }
}

/// Times whose sum is the bound or past it, though each alone is not, and sums
/// that fit only after wrapping at 64 bits.
fn time_sums(bound: u64) -> [[u64; 3]; 18] {
    let (half, third, high) = (bound / 2, bound / 3, 1 << 63);
    let low = u64::from(bound > 0);
    [
        [half, bound - half, 0],
        [half, bound - half, 1],
        [half, 0, bound - half + 1],
        [0, half, bound - half],
        [third, third, bound - 2 * third],
        [third + 1, third, bound - 2 * third],
        [third, third + 1, bound - 2 * third],
        [bound - low, low, 0],
        [1, bound, 0],
        [0, 1, bound],
        [bound, bound, bound],
        [u64::MAX, 1, 0],
        [0, u64::MAX, 1],
        [1, 0, u64::MAX],
        [high, high, 0],
        [high, bound, high],
        [u64::MAX - 1, 1, 1 + bound],
        [u64::MAX, u64::MAX, u64::MAX],
    ]
}

fn set_times(state: &mut State, times: [u64; 3]) {
    [state.gate_time, state.road_time, state.ramp_time] = times;
}

/// Garbage past cell n, for several n; every step keeps it.
fn past_n(cases: &mut Cases, dice: &mut Dice) {
    for n in [1, 2, 31, 32, 33, 62, 63] {
        let mut input = samples::first_step(&samples::even(n, 1));
        fill_past_n(&mut input, dice);
        cases.step(&input);
        // Refused: the state given comes back.
        input.row[0] = 1_000_001;
        cases.step(&input);
    }
    // No cells: nothing is counted.
    let mut input = samples::first_step(&samples::even(1, 1));
    (input.road.n, input.row) = (0, vec![0]);
    fill_past_n(&mut input, dice);
    cases.step(&input);
}

/// 9 and 10 at their bounds, both at once, and at two cells. The queues are
/// 700, the arrivals 80 and 90, the supplies 1500 and 500.
fn releases(cases: &mut Cases, dice: &mut Dice) {
    let changes: [Change; 20] = [
        |x| x.row[2] = 700,
        |x| x.row[2] = 701,
        |x| x.row[2] = 779,
        |x| x.row[2] = 780,
        |x| x.row[2] = 781,
        |x| x.row[2] = 1_500,
        |x| x.row[2] = 1_501,
        |x| (x.state.queue[0], x.row[2]) = (5_000, 1_500),
        |x| (x.state.queue[0], x.row[2]) = (5_000, 1_501),
        |x| x.row[6] = 500,
        |x| x.row[6] = 501,
        |x| x.row[6] = 791,
        // Both cells at their bounds, then both past them.
        |x| (x.row[2], x.row[6]) = (780, 500),
        |x| (x.row[2], x.row[6]) = (781, 501),
        |x| (x.state.queue[0], x.row[2], x.row[6]) = (5_000, 1_501, 791),
        // What arrives at an empty ramp may pass, and no more.
        |x| (x.state.queue[0], x.row[1], x.row[2]) = (0, 500, 500),
        |x| (x.state.queue[0], x.row[1], x.row[2]) = (0, 500, 501),
        |x| (x.state.queue[0], x.row[1], x.row[2]) = (0, 0, 1),
        |x| (x.state.queue[2], x.row[5], x.row[6]) = (0, 79, 80),
        // The greatest queue and arrivals together.
        |x| (x.state.queue[0], x.row[1], x.row[2]) = (1_001_000_000, 1_000_000, 1_500),
    ];
    for change in changes {
        let mut input = sound(dice);
        change(&mut input);
        cases.step(&input);
    }
}

/// A valid state of a random road. Most releases fit.
pub fn random_step(style: Style, dice: &mut Dice) -> StepInput {
    let n = match dice.upto(5) {
        0 => 64,
        1 => 1,
        _ => 1 + dice.upto(63) as usize,
    };
    let steps = match dice.upto(4) {
        0 => 0,
        1 => 1_439,
        _ => dice.upto(1_439) as usize,
    };
    let (road, start) = trial::start(&style.road(n, dice));
    let state = random_state(&road, &start, steps, dice);
    let mut row = trial::fitting_row(style, &road, [&state, &state], dice);
    if dice.one_in(6) {
        trial::spoil_some(&road, &state, &mut row, dice);
    }
    let lanes = [dice.between(1, 255) as u8; Road::MAX_CELLS];
    let mut input = StepInput {
        road,
        state,
        row,
        built: lanes,
        open: lanes,
    };
    fill_past_n(&mut input, dice);
    input
}

/// Held counts as at the start, everything else anywhere within its limits.
pub fn random_state(road: &Road, start: &State, steps: usize, dice: &mut Dice) -> State {
    let s = steps as u64;
    let mut state = *start;
    state.steps = steps;
    let total = dice.any_size(MAX_TOTAL_A_STEP * s);
    let first = dice.upto(total);
    let second = dice.upto(total - first);
    set_times(&mut state, [first, second, total - first - second]);
    state.gate_f = dice.any_size(1_000_000 * s) as u32;
    if dice.one_in(2) {
        state.gate_queue = dice.any_size(limits::queue_bound(steps)) as u32;
    }
    for i in 0..road.n {
        state.f[i] = dice.any_size(1_000_000 * s) as u32;
        if road.ramp[i] == 1 && dice.one_in(2) {
            state.queue[i] = dice.any_size(limits::queue_bound(steps)) as u32;
        }
    }
    state
}
