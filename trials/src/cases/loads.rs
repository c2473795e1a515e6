//! Group 12: arrivals from a seed and a peak, refusal 25.

use super::altered::{alter_length, near};
use super::case::{Case, MAX_LIST};
use super::dice::Dice;
use super::list::Cases;
use reference::model::Road;

/// Loads of any seed and peak.
const RANDOM: usize = 60;

/// What loading takes; the list is lent with `length` numbers.
#[derive(Clone, Copy, Debug, PartialEq, Eq)]
pub struct LoadInput {
    pub seed: u32,
    pub peak: u32,
    pub length: usize,
}

/// Seeds with the least and the greatest number, with single bits, and with numbers
/// whose product or sum just wraps.
const SEEDS: [u32; 12] = [
    0,
    1,
    2_580,
    2_581,
    65_535,
    65_536,
    1_013_904_223,
    (1 << 31) - 1,
    1 << 31,
    u32::MAX - 1_013_904_223,
    u32::MAX - 1,
    u32::MAX,
];

/// Peaks at the bound and one past it, and about the 16 bits.
const PEAKS: [u32; 12] = [
    0,
    1,
    2,
    1_000,
    65_534,
    65_535,
    65_536,
    999_999,
    1_000_000,
    1_000_001,
    1 << 31,
    u32::MAX,
];

pub fn add(cases: &mut Cases) {
    for length in [0, 1, 9, 10, 11, Road::MAX_STEPS, MAX_LIST] {
        cases.load(0, 1_000, length);
    }
    for seed in SEEDS {
        for peak in PEAKS {
            cases.load(seed, peak, 12);
        }
        for peak in [1_000_000, 1_000_001] {
            cases.load(seed, peak, 0);
        }
    }
    let mut dice = Dice::new(25);
    for _ in 0..RANDOM {
        cases.list.push(Case::Load(random(&mut dice)));
    }
}

/// Mostly within the bound of the peak.
pub fn random(dice: &mut Dice) -> LoadInput {
    let peak = match dice.one_in(8) {
        true => dice.any_size(u64::from(u32::MAX)),
        false => dice.any_size(u64::from(Road::MAX_RATE)),
    };
    let length = match dice.one_in(8) {
        true => dice.upto(Road::MAX_STEPS as u64),
        false => dice.upto(60),
    };
    LoadInput {
        seed: dice.bits() as u32,
        peak: peak as u32,
        length: length as usize,
    }
}

impl LoadInput {
    /// Changes it in one way.
    pub fn alter(&mut self, dice: &mut Dice) {
        match dice.upto(2) {
            0 => self.seed = near(self.seed, dice),
            1 => self.peak = near(self.peak, dice),
            _ => alter_length(&mut self.length, MAX_LIST, dice),
        }
    }
}
