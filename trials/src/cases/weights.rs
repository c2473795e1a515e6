//! Group 11: runs weighted, with every refusal of running, and the weighted
//! present of any road and state.

use super::case::{PresentInput, WeighInput};
use super::cells::STYLES;
use super::closures;
use super::dice::Dice;
use super::list::{table_length, Cases};
use super::roads;
use super::samples;
use super::steps;
use super::sweep;
use super::trial::Trial;
use super::versions::timed;
use reference::draft::Draft;
use reference::model::{Road, State};
use reference::weigh::Weights;

/// Longer records than this are not tried again.
const MAX_BYTES: usize = 1_200;
/// Roads of group 4 and roads under tables of lanes.
const AGAIN: usize = 90;
const CLOSED: usize = 60;

/// `trials` are the roads of group 4.
pub fn add(cases: &mut Cases, trials: &[Trial]) {
    let mut dice = Dice::new(12);
    printed(cases, &mut dice);
    lists(cases, &mut dice);
    refused(cases, &mut dice);
    releases(cases, &mut dice);
    tables(cases, &mut dice);
    again(cases, trials, &mut dice);
    closed(cases, &mut dice);
    largest(cases, &mut dice);
    every_count(cases, &mut dice);
    one_place(cases, &mut dice);
    random_states(cases, &mut dice);
}

/// The same weight at every place.
fn same(weight: u8) -> Weights {
    Weights {
        places: [weight; Road::MAX_CELLS + 1],
        ramps: [weight; Road::MAX_CELLS],
    }
}

/// A place's own weight, the others as they are.
fn with_place(weights: Weights, place: usize, weight: u8) -> Weights {
    let mut weights = weights;
    weights.places[place] = weight;
    weights
}

/// The weight of a cell's ramp queue, the others as they are.
fn with_ramp(weights: Weights, cell: usize, weight: u8) -> Weights {
    let mut weights = weights;
    weights.ramps[cell - 1] = weight;
    weights
}

/// Any weights.
fn any(dice: &mut Dice) -> Weights {
    Weights {
        places: [(); Road::MAX_CELLS + 1].map(|()| dice.bits() as u8),
        ramps: [(); Road::MAX_CELLS].map(|()| dice.bits() as u8),
    }
}

/// None weighs more than the one before it; any at the ramps.
fn falling(dice: &mut Dice) -> Weights {
    let mut weights = any(dice);
    weights.places.sort_unstable_by(|a, b| b.cmp(a));
    weights
}

/// None weighs less than the one before it; any at the ramps.
fn rising(dice: &mut Dice) -> Weights {
    let mut weights = any(dice);
    weights.places.sort_unstable();
    weights
}

/// Falling up to cell n, with anything past it.
fn falling_soon(n: usize, dice: &mut Dice) -> Weights {
    let mut weights = any(dice);
    weights.places[..=n].sort_unstable_by(|a, b| b.cmp(a));
    weights
}

/// In one of several manners.
pub fn some(n: usize, dice: &mut Dice) -> Weights {
    match dice.upto(6) {
        0 => falling(dice),
        1 => rising(dice),
        2 | 3 => falling_soon(n, dice),
        4 => {
            let base = same(dice.pick(&[0, 1, 255]));
            with_place(base, dice.upto(n as u64) as usize, dice.bits() as u8)
        }
        _ => any(dice),
    }
}

/// A draft with a list of just the table's length.
fn exact(cases: &mut Cases, draft: &Draft, weights: Weights) {
    cases.weigh(&WeighInput {
        length: table_length(draft),
        weights,
        lanes: vec![],
        record: draft.encode(),
    });
}

/// The document's run under many weights, every third time as version 2. Two
/// cells, of which the second has a ramp: later weights count nothing.
fn printed(cases: &mut Cases, dice: &mut Dice) {
    let mut all: Vec<Weights> = [0, 1, 2, 127, 128, 255].map(same).to_vec();
    for weight in [1, 255] {
        for place in [0, 1, 2, 3, 64] {
            all.push(with_place(same(0), place, weight));
        }
        for cell in [1, 2, 3, 64] {
            all.push(with_ramp(same(0), cell, weight));
        }
    }
    for place in [0, 1, 2] {
        all.push(with_place(same(255), place, 0));
    }
    all.push(with_ramp(same(255), 2, 0));
    // Gate 3, cell 1 2, cell 2 1, without ramps and with them.
    let steep = with_place(with_place(with_place(same(0), 0, 3), 1, 2), 2, 1);
    all.extend([steep, with_ramp(steep, 2, 255), with_ramp(steep, 1, 255)]);
    // Anything past cell 2, with weights of 0 and of 1 before it.
    for weight in [0, 1, 0, 1] {
        let mut weights = any(dice);
        weights.places[..3].fill(weight);
        weights.ramps[..2].fill(weight);
        all.push(weights);
    }
    for make in [falling, rising, any] {
        all.extend((0..12).map(|_| make(dice)));
    }
    all.extend((0..8).map(|_| falling_soon(2, dice)));
    for (k, weights) in all.into_iter().enumerate() {
        let draft = match k % 3 {
            2 => samples::printed().timed(dice.between(1, 900) as u16),
            _ => samples::printed(),
        };
        cases.weigh(&WeighInput {
            length: dice.pick(&[9, 9, 10, 30]),
            weights,
            lanes: vec![],
            record: draft.encode(),
        });
    }
}

/// Lists too short, just long enough and longer, in both versions.
fn lists(cases: &mut Cases, dice: &mut Dice) {
    for sample in [samples::printed, samples::three_cells] {
        for draft in [sample(), sample().timed(20)] {
            let table = table_length(&draft);
            for length in [0, table - 1, table, table + 1, 40] {
                cases.weigh(&WeighInput {
                    length,
                    weights: any(dice),
                    lanes: vec![],
                    record: draft.encode(),
                });
            }
        }
    }
}

type Change = fn(&mut Draft);

/// Refusals 1 to 6 and 19, of three cells.
const REFUSED: [Change; 24] = [
    |d| d.length = Some(1),
    |d| d.cut = 1_000,
    |d| d.cut = 172 - 15,
    |d| d.cut = 172 - 16,
    |d| d.version = 0,
    |d| d.version = 2,
    |d| d.version = 3,
    |d| d.n = 0,
    |d| d.n = 65,
    |d| d.steps = 0,
    |d| d.steps = 1_441,
    |d| (d.version, d.seconds) = (2, Some(0)),
    |d| (d.version, d.seconds) = (2, Some(901)),
    |d| d.extra = 1,
    |d| d.cut = 4,
    |d| d.gate_capacity = 1_000_001,
    |d| d.gate_queue = 1_000_000_001,
    |d| d.cells[0].ramp = 2,
    |d| d.cells[1].held = 8_001,
    |d| d.cells[2].b = 1,
    |d| d.rows[0][0] = 1_000_001,
    |d| d.rows[1][3] = 1,
    |d| d.rows[2][6] = 1_000_001,
    |d| (d.rows[1][4], d.rows[0][2]) = (1, 900_000),
];

fn refused(cases: &mut Cases, dice: &mut Dice) {
    for (k, change) in REFUSED.into_iter().enumerate() {
        let mut draft = samples::three_cells();
        change(&mut draft);
        cases.weigh(&WeighInput {
            length: [12, 11, 14][k % 3],
            weights: any(dice),
            lanes: vec![0; [0, 0, 12, 11][k % 4]],
            record: draft.encode(),
        });
    }
}

/// Refusals 9 and 10, of three cells.
const RELEASES: [fn(&mut Draft, usize); 5] = [
    |d, t| d.rows[t][2] = 900_000,
    |d, t| d.rows[t][6] = 900_000,
    |d, t| (d.cells[0].queue, d.rows[t][2]) = (900_000, 800_000),
    |d, t| (d.cells[2].queue, d.rows[t][6]) = (900_000, 800_000),
    |d, t| (d.rows[t][6], d.rows[2][2]) = (900_000, 900_000),
];

/// Each in every step: what was done before it is weighed. A list too short
/// comes first.
fn releases(cases: &mut Cases, dice: &mut Dice) {
    for (k, change) in RELEASES.into_iter().enumerate() {
        for step in 0..3 {
            let mut draft = samples::three_cells();
            change(&mut draft, step);
            exact(cases, &draft, same(1));
            exact(cases, &draft.clone().timed(900), any(dice));
            cases.weigh(&WeighInput {
                length: [15, 11][k % 2],
                weights: falling_soon(3, dice),
                lanes: vec![],
                record: draft.encode(),
            });
        }
    }
    // Late in a longer run: 9 with a queue of 700, then 10.
    for step in [3, 7, 11] {
        for (queue, release) in [(700, 701), (900_000, 800_000)] {
            let mut draft = samples::even(3, 12);
            (draft.cells[1].ramp, draft.cells[1].queue) = (1, queue);
            draft.rows[step][4] = release;
            exact(cases, &draft, any(dice));
        }
    }
    // Supply 1000 at cell 2 of the document's run, queue and arrivals 2000.
    for step in 0..3 {
        for release in [1_000, 1_001, 900_000] {
            let mut draft = samples::printed();
            draft.rows[step][4] = release;
            exact(cases, &draft, any(dice));
        }
    }
}

/// Tables of lanes: sound ones, refusals 17 and 18, and both before 11.
fn tables(cases: &mut Cases, dice: &mut Dice) {
    let draft = samples::three_cells();
    let sound = vec![0x2D; 12];
    let with = |at: usize, lanes: u8| {
        let mut table = sound.clone();
        table[at] = lanes;
        table
    };
    let all = [
        sound.clone(),
        vec![1; 12],
        // Some lanes of one cell closed, or all of them.
        with(3, 0x25),
        with(7, 0x08),
        with(11, 0x24),
        with(4, 0),
        with(10, 0),
        // 17.
        vec![1; 11],
        vec![1; 13],
        vec![0; 3],
        // 18.
        with(0, 0),
        with(2, 0),
        with(3, 0x2F),
        with(10, 0x02),
        vec![0; 12],
    ];
    for lanes in all {
        for length in [12, 11] {
            cases.weigh(&WeighInput {
                length,
                weights: any(dice),
                lanes: lanes.clone(),
                record: draft.encode(),
            });
        }
    }
}

/// Short roads of group 4 once more, every fourth as version 2.
fn again(cases: &mut Cases, trials: &[Trial], dice: &mut Dice) {
    let short = trials
        .iter()
        .filter(|trial| trial.record.len() <= MAX_BYTES);
    for (k, trial) in short.take(AGAIN).enumerate() {
        let record = match k % 4 {
            3 => timed(&trial.record, dice.between(1, 900) as u16),
            _ => trial.record.clone(),
        };
        cases.weigh(&WeighInput {
            length: roads::list_length(trial.table(), dice),
            weights: some(trial.n, dice),
            lanes: vec![],
            record,
        });
    }
}

/// Random roads under tables of their own.
fn closed(cases: &mut Cases, dice: &mut Dice) {
    for k in 0..CLOSED {
        let trial = closures::random_trial(k, dice);
        cases.weigh(&WeighInput {
            length: trial.table(),
            weights: some(trial.n, dice),
            lanes: trial.lanes,
            record: trial.record,
        });
    }
}

/// The greatest queues and arrivals; nothing is released.
fn crowded(n: usize, steps: usize) -> Draft {
    let mut draft = sweep::uniform(n, true, true);
    let mut row = vec![1_000_000];
    row.extend([1_000_000, 0].repeat(n));
    (draft.rows, draft.steps) = (vec![row; steps], steps as u16);
    draft
}

/// The greatest sums: most steps, most cells, and the longest record.
fn largest(cases: &mut Cases, dice: &mut Dice) {
    exact(cases, &crowded(1, 1_440), same(255));
    exact(cases, &crowded(64, 124), same(255));
    let wide = crowded(64, 2);
    exact(cases, &wide, with_place(same(0), 64, 255));
    exact(cases, &wide, with_ramp(same(0), 64, 255));
    exact(cases, &wide, any(dice));
    exact(cases, &crowded(63, 2), any(dice));
}

/// Anything in a road and a state; the weights are for the caller to set.
pub fn anything(n: usize, dice: &mut Dice) -> PresentInput {
    let mut road = Road::empty();
    steps::fill_road_past_n(&mut road, dice);
    (road.n, road.gate_capacity) = (n, dice.bits() as u32);
    (road.version, road.seconds) = (dice.bits() as u8, dice.bits() as u16);
    let mut state = State::empty();
    state.steps = dice.bits() as u32 as usize;
    let times = [(); 3].map(|()| dice.bits());
    [state.gate_time, state.road_time, state.ramp_time] = times;
    (state.gate_queue, state.gate_f) = (dice.bits() as u32, dice.bits() as u32);
    for i in 0..Road::MAX_CELLS {
        state.held[i] = dice.bits() as u32;
        state.queue[i] = dice.bits() as u32;
        state.f[i] = dice.bits() as u32;
    }
    PresentInput {
        road,
        state,
        weights: any(dice),
    }
}

/// Every number at its greatest.
fn all_greatest(n: usize, dice: &mut Dice) -> PresentInput {
    let mut input = anything(n, dice);
    input.state.gate_queue = u32::MAX;
    input.state.held.fill(u32::MAX);
    input.state.queue.fill(u32::MAX);
    input.weights = same(255);
    input
}

/// n at its limits, past them, and where the lower bits alone would be sound.
fn every_count(cases: &mut Cases, dice: &mut Dice) {
    for n in [
        0,
        1,
        2,
        31,
        32,
        33,
        63,
        64,
        65,
        128,
        256 + 2,
        1_000,
        65_536 + 1,
        u32::MAX as usize,
    ] {
        cases.present(&all_greatest(n, dice));
        cases.present(&anything(n, dice));
    }
}

/// One weight alone, and all but one. Past cell n it counts nothing.
fn one_place(cases: &mut Cases, dice: &mut Dice) {
    for (n, place) in [(64, 0), (64, 1), (64, 32), (64, 33), (64, 64), (63, 64)] {
        let mut input = anything(n, dice);
        input.weights = with_place(same(0), place, 255);
        cases.present(&input);
    }
    for (n, cell) in [(64, 1), (64, 32), (64, 33), (64, 64), (63, 64)] {
        let mut input = anything(n, dice);
        input.weights = with_ramp(same(0), cell, 255);
        cases.present(&input);
    }
    for n in [0, 5, 64] {
        let mut input = anything(n, dice);
        input.weights = with_place(same(1), 5, 0);
        cases.present(&input);
        input.weights = same(0);
        cases.present(&input);
    }
}

/// States as a run may have them, and any states of any n.
fn random_states(cases: &mut Cases, dice: &mut Dice) {
    for k in 0..24 {
        let input = steps::random_step(STYLES[k % STYLES.len()], dice);
        cases.present(&PresentInput {
            road: input.road,
            state: input.state,
            weights: some(input.road.n, dice),
        });
    }
    for _ in 0..12 {
        let n = dice.upto(70) as usize;
        cases.present(&anything(n, dice));
    }
}
