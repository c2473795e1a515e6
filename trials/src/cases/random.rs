//! One case of any kind, as the dice fall.

use super::batches;
use super::case::{Case, FillInput, PresentInput, StepInput, WeighInput};
use super::cells::STYLES;
use super::closed_steps;
use super::closures;
use super::dice::Dice;
use super::joins::{self, JoinInput};
use super::judged;
use super::leaves;
use super::loads;
use super::meters;
use super::puts;
use super::roads;
use super::steps;
use super::streets;
use super::stretches;
use super::trial::Trial;
use super::versions;
use super::wanted_queues;
use super::weights;
use super::within;
use super::writes;
use reference::model::Road;
use reference::record;

pub fn case(dice: &mut Dice) -> Case {
    match dice.upto(54) {
        0..=6 => run(dice),
        7..=14 => judge(dice),
        15..=18 => Case::Step(Box::new(step(dice))),
        19..=22 => write(dice),
        23..=26 => Case::Fill(Box::new(fill(dice))),
        27 => rows(dice),
        28 => row(dice),
        29 => Case::Leaf(leaves::any_bits(dice)),
        30 => Case::Leaf(leaves::common(dice)),
        31..=34 => Case::Weigh(Box::new(weigh(dice))),
        35 => Case::Present(Box::new(present(dice))),
        36 => Case::Load(loads::random(dice)),
        37 | 38 => Case::Wanted(wanted_queues::random(dice)),
        39 => Case::Grant(streets::random(dice)),
        40 | 41 => Case::Put(puts::random(trial(dice).record, dice)),
        42..=44 => Case::Join(join(dice)),
        45 | 46 => Case::Within(within::random(trial(dice).record, dice)),
        47..=50 => Case::On(Box::new(stretches::random(turn(dice), dice))),
        51..=53 => Case::Many(Box::new(batches::random(turn(dice), dice))),
        _ => Case::Capacity {
            capacity: dice.any_size(u64::from(Road::MAX_RATE)) as u32,
            built: dice.bits() as u8,
            open: dice.bits() as u8,
        },
    }
}

/// Counts the styles and the kinds of schedule out.
fn turn(dice: &mut Dice) -> usize {
    dice.upto(11) as usize
}

/// A road with rows that fit it, mostly of few cells and under a table of lanes.
fn trial(dice: &mut Dice) -> Trial {
    let k = turn(dice);
    let mut trial = match dice.upto(9) {
        0 => roads::random_road(
            dice.between(1, Road::MAX_CELLS as u32) as usize,
            STYLES[k % STYLES.len()],
            dice,
        ),
        1 | 2 => roads::random_road(dice.between(1, 6) as usize, STYLES[k % STYLES.len()], dice),
        _ => closures::random_trial(k, dice),
    };
    trial.record = either_version(trial.record, dice);
    trial
}

/// A record of version 1, or the same as version 2.
fn either_version(record: Vec<u8>, dice: &mut Dice) -> Vec<u8> {
    match dice.one_in(3) {
        true => versions::timed(
            &record,
            dice.between(1, u32::from(Road::MAX_SECONDS)) as u16,
        ),
        false => record,
    }
}

/// Seldom under another table, or under none.
fn lanes(trial: &Trial, dice: &mut Dice) -> Vec<u8> {
    match dice.upto(9) {
        0 => vec![],
        1 => closures::random_table(trial.n, trial.steps, dice),
        _ => trial.lanes.clone(),
    }
}

fn run(dice: &mut Dice) -> Case {
    let trial = trial(dice);
    Case::Run {
        length: roads::list_length(trial.table(), dice),
        lanes: lanes(&trial, dice),
        record: trial.record,
    }
}

fn weigh(dice: &mut Dice) -> WeighInput {
    let trial = trial(dice);
    WeighInput {
        length: roads::list_length(trial.table(), dice),
        weights: weights::some(trial.n, dice),
        lanes: lanes(&trial, dice),
        record: trial.record,
    }
}

/// Of a state as a run may have it, or of any.
fn present(dice: &mut Dice) -> PresentInput {
    if dice.one_in(2) {
        let n = dice.upto(70) as usize;
        return weights::anything(n, dice);
    }
    let StepInput { road, state, .. } = step(dice);
    PresentInput {
        road,
        state,
        weights: weights::some(road.n, dice),
    }
}

fn judge(dice: &mut Dice) -> Case {
    let trial = trial(dice);
    let schedule = judged::schedule(turn(dice), &trial, dice);
    Case::Judge {
        schedule,
        lanes: lanes(&trial, dice),
        record: trial.record,
    }
}

fn step(dice: &mut Dice) -> StepInput {
    let k = turn(dice);
    let mut input = match dice.one_in(3) {
        true => steps::random_step(STYLES[k % STYLES.len()], dice),
        false => closed_steps::random(k, dice),
    };
    (input.road.version, input.road.seconds) = (dice.bits() as u8, dice.bits() as u16);
    input
}

fn write(dice: &mut Dice) -> Case {
    let mut input = writes::random(turn(dice), dice);
    if dice.one_in(2) {
        input.road.version = dice.pick(&[2, 2, 2, 2, 1, 0, 3]);
        input.road.seconds = match dice.upto(5) {
            0 => dice.bits() as u16,
            _ => dice.between(1, u32::from(Road::MAX_SECONDS)) as u16,
        };
    }
    Case::Write(Box::new(input))
}

fn fill(dice: &mut Dice) -> FillInput {
    let law =
        dice.pick::<meters::MakeLaw>(&[meters::common_law, meters::common_law, meters::odd_law]);
    let mut input = meters::random(turn(dice), law, dice);
    let (n, steps) = (
        record::cells_of(&input.record),
        record::steps_of(&input.record),
    );
    if dice.one_in(2) {
        input.lanes = closures::random_table(n, steps, dice);
    }
    input.record = either_version(input.record, dice);
    input
}

/// Two roads, or one cut in two, which has at least two cells.
fn join(dice: &mut Dice) -> JoinInput {
    let trial = trial(dice);
    match trial.n > 1 && dice.one_in(2) {
        true => joins::cut_somewhere(&trial.record, dice),
        false => joins::random(turn(dice), dice),
    }
}

/// Bytes, n and T to take rows from: a record's, or any bytes with steps about the
/// last that a record may have.
fn source_of_rows(dice: &mut Dice) -> (Vec<u8>, usize, usize) {
    if dice.one_in(8) {
        let n = dice.upto(2) as usize;
        let count = record::size(2, n, Road::MAX_STEPS) + dice.upto(60) as usize;
        let bytes = (0..count).map(|_| dice.bits() as u8).collect();
        return (bytes, n, Road::MAX_STEPS);
    }
    let trial = trial(dice);
    (trial.record, trial.n, trial.steps)
}

fn rows(dice: &mut Dice) -> Case {
    let (bytes, n, last) = source_of_rows(dice);
    let earlier = dice.upto(last as u64) as usize;
    let steps = dice.pick(&[last, last + 1, earlier]);
    let count = steps * (1 + 2 * n);
    Case::Rows {
        n: n as u32,
        steps: steps as u32,
        length: dice.pick(&[count, count, count + 7, count.saturating_sub(1)]),
        bytes,
    }
}

fn row(dice: &mut Dice) -> Case {
    let (bytes, n, last) = source_of_rows(dice);
    let earlier = dice.upto(last as u64) as usize;
    let t = dice.pick(&[last - 1, last, last + 1, earlier]);
    Case::Row {
        n: n as u32,
        t: t as u32,
        bytes,
    }
}
