//! Group 5: schedules over the roads of group 4, judged.

use super::dice::Dice;
use super::list::{own_rows, Cases};
use super::trial::Trial;
use super::walk::Walk;

/// Longer records than this are not judged.
const MAX_BYTES: usize = 4_500;

pub fn add(cases: &mut Cases, trials: &[Trial]) {
    let mut dice = Dice::new(5);
    let short = trials
        .iter()
        .filter(|trial| trial.record.len() <= MAX_BYTES);
    for (k, trial) in short.enumerate() {
        // Three roads of five.
        if k % 5 < 3 {
            let schedule = schedule(k / 5 * 3 + k % 5, trial, &mut dice);
            cases.judge(&schedule, &trial.record);
        }
    }
    // The longest table.
    if let Some(trial) = trials.iter().max_by_key(|trial| trial.table()) {
        cases.judge(&own(trial), &trial.record);
    }
}

/// One of twelve kinds of schedule, in turn. The trial's own schedule mostly
/// holds traffic back.
pub fn schedule(k: usize, trial: &Trial, dice: &mut Dice) -> Vec<u32> {
    let held_back = || trial.schedule.clone();
    match k % 12 {
        0 => own(trial),
        1..=3 => held_back(),
        4 => above_demand(trial, own(trial), dice),
        5 => above_demand(trial, held_back(), dice),
        6 => too_much(trial, own(trial), dice),
        7 => too_much(trial, held_back(), dice),
        8 => changed(own(trial), dice),
        9 => changed(held_back(), dice),
        10 => spoilt_later(trial, dice),
        _ => vec![0; trial.table()],
    }
}

/// The run's own rows.
fn own(trial: &Trial) -> Vec<u32> {
    own_rows(trial.table(), &trial.lanes, &trial.record)
}

/// One above the demand, at a random step and place that the schedule reaches.
fn above_demand(trial: &Trial, mut schedule: Vec<u32>, dice: &mut Dice) -> Vec<u32> {
    let walk = Walk::new(&trial.record, &trial.lanes, &schedule);
    if walk.steps() > 0 {
        let t = dice.upto(walk.steps() as u64 - 1) as usize;
        let place = dice.upto(trial.n as u64) as usize;
        schedule[walk.at(t, place)] = walk.demand(t, place) as u32 + 1;
    }
    schedule
}

/// One too many let in, at a random step and place of those that supply holds.
/// Without any, the schedule stays as it is.
fn too_much(trial: &Trial, mut schedule: Vec<u32>, dice: &mut Dice) -> Vec<u32> {
    let walk = Walk::new(&trial.record, &trial.lanes, &schedule);
    let mut choices = Vec::new();
    for t in 0..walk.steps() {
        for (place, greatest) in walk.greatest(t).into_iter().enumerate() {
            if u64::from(greatest) < walk.demand(t, place) {
                choices.push((walk.at(t, place), greatest + 1));
            }
        }
    }
    if !choices.is_empty() {
        let (at, number) = dice.pick(&choices);
        schedule[at] = number;
    }
    schedule
}

/// A random number changed by a random amount.
fn changed(mut schedule: Vec<u32>, dice: &mut Dice) -> Vec<u32> {
    let at = dice.upto(schedule.len() as u64 - 1) as usize;
    let amount = dice.any_size(u64::from(u32::MAX)) as u32;
    schedule[at] = if dice.one_in(2) {
        schedule[at].saturating_add(amount)
    } else {
        schedule[at].saturating_sub(amount)
    };
    schedule
}

/// One too many or one above the demand, and anything in the later rows.
fn spoilt_later(trial: &Trial, dice: &mut Dice) -> Vec<u32> {
    let sound = trial.schedule.clone();
    let mut schedule = if dice.one_in(2) {
        above_demand(trial, sound.clone(), dice)
    } else {
        too_much(trial, sound.clone(), dice)
    };
    let width = trial.n + 1;
    let first = sound.iter().zip(&schedule).position(|(a, b)| a != b);
    if let Some(at) = first {
        let later = (at / width + 1) * width;
        for number in &mut schedule[later..] {
            *number = dice.bits() as u32;
        }
    }
    schedule
}
