//! Part of group 14: the grants of a street, refusal 24.

use super::altered::{alter_length, alter_numbers, near};
use super::case::MAX_LIST;
use super::dice::Dice;
use super::list::Cases;
use reference::model::Road;
use reference::street::MAX_RAMPS;

/// Random streets.
const RANDOM: usize = 200;

const MOST: u32 = Road::MAX_RATE;

/// What granting takes; the grants' list is lent with `length` numbers.
#[derive(Clone, Debug, PartialEq, Eq)]
pub struct GrantInput {
    pub limit: u32,
    pub guarantees: Vec<u32>,
    pub wishes: Vec<u32>,
    pub length: usize,
}

impl GrantInput {
    /// With a grant for each wish.
    fn new(limit: u32, guarantees: &[u32], wishes: &[u32]) -> GrantInput {
        GrantInput {
            limit,
            guarantees: guarantees.to_vec(),
            wishes: wishes.to_vec(),
            length: wishes.len(),
        }
    }

    /// Changes it in one way.
    pub fn alter(&mut self, dice: &mut Dice) {
        match dice.upto(8) {
            0..=2 => self.limit = near(self.limit, dice),
            3 | 4 => alter_numbers(&mut self.guarantees, MAX_LIST, dice),
            5..=7 => alter_numbers(&mut self.wishes, MAX_LIST, dice),
            _ => alter_length(&mut self.length, MAX_LIST, dice),
        }
    }
}

pub fn add(cases: &mut Cases) {
    counts(cases);
    bounds(cases);
    together(cases);
    in_order(cases);
    every_small_one(cases);
    let mut dice = Dice::new(14);
    for _ in 0..RANDOM {
        cases.grant(&random(&mut dice));
    }
}

fn put(cases: &mut Cases, limit: u32, guarantees: &[u32], wishes: &[u32]) {
    cases.grant(&GrantInput::new(limit, guarantees, wishes));
}

/// 0 to 9 ramps and more; then each list longer or shorter than the others.
fn counts(cases: &mut Cases) {
    for ramps in (0..=MAX_RAMPS + 2).chain([16, 64, 256, 257, MAX_LIST]) {
        put(cases, 60, &vec![5; ramps], &vec![9; ramps]);
        put(cases, 60, &vec![0; ramps], &vec![9; ramps]);
        put(cases, 0, &vec![0; ramps], &vec![0; ramps]);
    }
    for ramps in [0, 1, 2, 7, 8, 9] {
        for other in [ramps + 1, ramps.max(1) - 1, 0, 8] {
            for odd in 0..3 {
                let mut counts = [ramps; 3];
                counts[odd] = other;
                cases.grant(&GrantInput {
                    limit: 60,
                    guarantees: vec![5; counts[0]],
                    wishes: vec![9; counts[1]],
                    length: counts[2],
                });
            }
        }
    }
}

/// Limit, guarantee and wish at the bound, one past it and at the greatest, at each ramp.
fn bounds(cases: &mut Cases) {
    for number in [0, 1, MOST - 1, MOST, MOST + 1, 1 << 31, u32::MAX] {
        put(cases, number, &[0, 0, 0], &[MOST; 3]);
        put(cases, number, &[1, 0, 0], &[MOST; 3]);
        for ramps in [1, 3, 8] {
            for ramp in [0, ramps / 2, ramps - 1] {
                let mut numbers = vec![0; ramps];
                numbers[ramp] = number;
                put(cases, MOST, &numbers, &vec![MOST; ramps]);
                put(cases, MOST, &numbers, &vec![0; ramps]);
                put(cases, MOST, &vec![MOST / 8; ramps], &numbers);
                put(cases, 0, &vec![0; ramps], &numbers);
            }
        }
    }
}

/// Guarantees that are the limit together, one below it, one past it, and far past it:
/// sums that are small again in 32 bits.
fn together(cases: &mut Cases) {
    for limit in [0, 7, 8, 999_999, MOST] {
        for ramps in [1, 2, 3, 8] {
            let mut guarantees = vec![limit / ramps; ramps as usize];
            guarantees[0] += limit % ramps;
            let wishes = vec![limit; ramps as usize];
            put(cases, limit, &guarantees, &wishes);
            put(cases, limit.saturating_sub(1), &guarantees, &wishes);
            put(cases, (limit + 1).min(MOST), &guarantees, &wishes);
            *guarantees.last_mut().expect("a ramp") += 1;
            put(cases, limit, &guarantees, &wishes);
        }
    }
    for limit in [0, 9, MOST] {
        put(cases, limit, &[1 << 31, 1 << 31], &[0, 0]);
        put(cases, limit, &[u32::MAX, 1], &[5, 5]);
        put(cases, limit, &[1 << 29; 8], &[1; 8]);
        put(cases, limit, &[MOST; 8], &[MOST; 8]);
    }
}

/// The rest of a street of eight ramps, from nothing to more than all wish.
fn in_order(cases: &mut Cases) {
    let guarantees = [3, 0, 5, 2, 9, 1, 0, 4];
    let wishes = [5, 4, 5, 0, 12, 6, 0, 3];
    for limit in 23..=40 {
        put(cases, limit, &guarantees, &wishes);
    }
    let reversed = |numbers: [u32; 8]| numbers.into_iter().rev().collect::<Vec<_>>();
    for limit in 23..=40 {
        put(cases, limit, &reversed(guarantees), &reversed(wishes));
    }
}

/// Every two guarantees and wishes up to 2, and limits up to 4.
fn every_small_one(cases: &mut Cases) {
    for k in 0..3_u32.pow(4) {
        let digit = |place: u32| k / 3_u32.pow(place) % 3;
        for limit in 0..=4 {
            put(cases, limit, &[digit(0), digit(1)], &[digit(2), digit(3)]);
        }
    }
}

/// Mostly of guarantees within the limit.
pub fn random(dice: &mut Dice) -> GrantInput {
    let ramps = dice.between(1, MAX_RAMPS as u32);
    let limit = dice.any_size(u64::from(MOST)) as u32;
    let share = limit / ramps * dice.pick(&[1, 1, 1, 2]);
    let guarantees: Vec<u32> = (0..ramps).map(|_| dice.between(0, share)).collect();
    let most = dice.pick(&[share, share + 1, limit, MOST]);
    let wishes: Vec<u32> = (0..ramps)
        .map(|_| dice.any_size(u64::from(most)) as u32)
        .collect();
    GrantInput::new(limit, &guarantees, &wishes)
}
