//! Group 4: random roads, run.

use super::case::MAX_LIST;
use super::cells::{Style, STYLES};
use super::dice::Dice;
use super::list::Cases;
use super::sweep;
use super::trial::{self, Hold, Plan, Trial};
use super::walk;
use reference::draft::Draft;
use reference::model::Road;
use reference::record;

/// Rounds over all n from 1 to 64, and roads of few cells and more steps.
const ROUNDS: usize = 3;
const LONGER: usize = 144;
const FEW_CELLS: u32 = 12;

/// Adds the runs and gives their roads back.
pub fn add(cases: &mut Cases) -> Vec<Trial> {
    let mut dice = Dice::new(4);
    // With a list of just the table's length.
    let mut trials = complete_roads(&mut dice);
    trials.extend(largest_roads(&mut dice));
    for trial in &trials {
        cases.run(trial.table(), &trial.record);
    }
    // With lists of several lengths.
    let mut others = random_roads(&mut dice);
    others.extend(constant_roads(&mut dice));
    others.extend(sweep::roads(&mut dice));
    for trial in &others {
        let length = list_length(trial.table(), &mut dice);
        cases.run(length, &trial.record);
    }
    trials.extend(others);
    trials
}

/// For every n a road whose run is complete: dice are thrown until it is.
fn complete_roads(dice: &mut Dice) -> Vec<Trial> {
    let complete_road = |n: usize| loop {
        let trial = random_road(n, STYLES[n % STYLES.len()], dice);
        if walk::complete(&trial.record, &trial.lanes) {
            return trial;
        }
    };
    (1..=Road::MAX_CELLS).map(complete_road).collect()
}

/// Every n several times, then small n more often, the styles in turn.
fn random_roads(dice: &mut Dice) -> Vec<Trial> {
    let mut trials = Vec::new();
    for round in 0..ROUNDS {
        for n in 1..=Road::MAX_CELLS {
            let style = STYLES[(n + 1 + 2 * round) % STYLES.len()];
            trials.push(random_road(n, style, dice));
        }
    }
    for k in 0..LONGER {
        let n = dice.between(1, FEW_CELLS) as usize;
        trials.push(random_road(n, STYLES[k % STYLES.len()], dice));
    }
    trials
}

pub fn random_road(n: usize, style: Style, dice: &mut Dice) -> Trial {
    let steps = steps_for(n, dice);
    let plan = Plan {
        style,
        steps,
        hold: random_hold(steps, dice),
        fault: dice.one_in(8).then(|| random_step(steps, dice)),
        lanes: vec![],
    };
    trial::make(style.road(n, dice), &plan, dice)
}

/// A step, not the first if there are more.
pub fn random_step(steps: usize, dice: &mut Dice) -> usize {
    let last = steps as u32 - 1;
    dice.between(last.min(1), last) as usize
}

/// Steps so that few records are long.
fn steps_for(n: usize, dice: &mut Dice) -> usize {
    let bytes = dice.pick(&[500, 2_500, 2_500, 2_500, 4_000, 4_000, 5_000, 9_000]);
    let most = (bytes / row_bytes(n)).clamp(2, most_steps(n)) as u32;
    dice.between(1 + most / 3, most) as usize
}

fn row_bytes(n: usize) -> usize {
    record::size(1, n, 1) - record::size(1, n, 0)
}

/// The most steps of a record of n cells.
fn most_steps(n: usize) -> usize {
    let left = Road::MAX_BYTES - record::size(1, n, 0);
    (left / row_bytes(n)).min(Road::MAX_STEPS)
}

pub fn random_hold(steps: usize, dice: &mut Dice) -> Hold {
    match dice.upto(7) {
        0 | 1 => Hold::Nothing,
        2 | 3 => Hold::Scaled(dice.upto(999)),
        4 | 5 => Hold::Random,
        6 => Hold::Seldom,
        _ => Hold::Until(dice.upto(steps as u64) as usize),
    }
}

/// Roads whose rows are all alike.
fn constant_roads(dice: &mut Dice) -> Vec<Trial> {
    (0..48)
        .map(|k| {
            let style = STYLES[k % STYLES.len()];
            let n = 1 + dice.upto(15) as usize;
            let steps = steps_for(n, dice);
            trial::make_constant(style.road(n, dice), style, steps, dice)
        })
        .collect()
}

/// Mostly just the table's length, often more, seldom less.
pub fn list_length(table: usize, dice: &mut Dice) -> usize {
    let most = MAX_LIST - table;
    match dice.upto(23) {
        0..=13 => table,
        14..=20 => table + dice.upto(most.min(40) as u64) as usize,
        21 => table + dice.upto(most as u64) as usize,
        22 => table - 1,
        _ => dice.upto(table as u64 - 1) as usize,
    }
}

/// The longest records, among them the longest table: n 6, T 1,257.
fn largest_roads(dice: &mut Dice) -> Vec<Trial> {
    let drafts: [(Draft, Style); 5] = [
        (with_ramps(6, dice), Style::Tight),
        (sweep::uniform(64, true, false), Style::Extreme),
        (sweep::uniform(5, true, true), Style::Extreme),
        (with_ramps(1, dice), Style::Tight),
        (with_ramps(33, dice), Style::Tight),
    ];
    drafts
        .into_iter()
        .map(|(draft, style)| {
            let plan = Plan {
                style,
                steps: most_steps(draft.cells.len()),
                hold: Hold::Scaled(950),
                fault: None,
                lanes: vec![],
            };
            trial::make(draft, &plan, dice)
        })
        .collect()
}

/// A tight road with some ramp.
fn with_ramps(n: usize, dice: &mut Dice) -> Draft {
    loop {
        let draft = Style::Tight.road(n, dice);
        if draft.cells.iter().any(|cell| cell.ramp == 1) {
            return draft;
        }
    }
}
