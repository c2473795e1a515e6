//! Group 13: releases for a wanted queue, refusal 23.

use super::altered::{alter_length, alter_numbers, near};
use super::case::MAX_LIST;
use super::dice::Dice;
use super::list::Cases;
use reference::model::Road;
use reference::wanted::{self, Asked};

/// Random cases of few steps and small numbers, and of any size.
const SMALL: usize = 120;
const LARGE: usize = 120;

const MAX_QUEUE: u32 = Road::MAX_START_QUEUE;

/// What a search for releases takes; the table is lent with `length` numbers.
#[derive(Clone, Debug, PartialEq, Eq)]
pub struct WantedInput {
    pub start: u32,
    pub ceiling: u32,
    pub rate: u32,
    pub arrivals: Vec<u32>,
    pub length: usize,
}

impl WantedInput {
    /// By start, ceiling and rate, with a table for the arrivals.
    fn new([start, ceiling, rate]: [u32; 3], arrivals: &[u32]) -> WantedInput {
        WantedInput {
            start,
            ceiling,
            rate,
            arrivals: arrivals.to_vec(),
            length: arrivals.len(),
        }
    }

    pub fn asked(&self) -> Asked<'_> {
        Asked {
            start: self.start,
            ceiling: self.ceiling,
            rate: self.rate,
            arrivals: &self.arrivals,
        }
    }

    /// Changes it in one way.
    pub fn alter(&mut self, dice: &mut Dice) {
        match dice.upto(7) {
            0 => self.start = near(self.start, dice),
            1 | 2 => self.ceiling = near(self.ceiling, dice),
            3 | 4 => self.rate = near(self.rate, dice),
            5 => alter_length(&mut self.length, MAX_LIST, dice),
            _ => {
                alter_numbers(&mut self.arrivals, MAX_LIST, dice);
                // Mostly the table still has its length.
                if !dice.one_in(4) {
                    self.length = self.arrivals.len();
                }
            }
        }
    }
}

pub fn add(cases: &mut Cases) {
    counts(cases);
    bounds(cases);
    peaks(cases);
    zeros(cases);
    every_small_one(cases);
    greatest(cases);
    let mut dice = Dice::new(13);
    for _ in 0..SMALL {
        let input = small(&mut dice);
        cases.wanted(&at_an_edge(input, &mut dice));
    }
    for _ in 0..LARGE {
        let input = large(&mut dice);
        cases.wanted(&at_an_edge(input, &mut dice));
    }
}

fn put(cases: &mut Cases, numbers: [u32; 3], arrivals: &[u32]) {
    cases.wanted(&WantedInput::new(numbers, arrivals));
}

/// No step, the most, one more; lists of unequal length about these.
fn counts(cases: &mut Cases) {
    let most = Road::MAX_STEPS;
    for (count, length) in [
        (0, 0),
        (0, 1),
        (0, 3),
        (1, 0),
        (1, 1),
        (1, 2),
        (3, 0),
        (3, 2),
        (3, 3),
        (3, 4),
        (most - 1, most - 1),
        (most - 1, most),
        (most, 0),
        (most, most - 1),
        (most, most),
        (most, most + 1),
        (most + 1, most),
        (most + 1, most + 1),
        (MAX_LIST, MAX_LIST),
    ] {
        let mut input = WantedInput::new([3, 5, 4], &vec![2; count]);
        input.length = length;
        cases.wanted(&input);
    }
}

/// Each number at its bound, one past it and at the greatest; then two past theirs.
fn bounds(cases: &mut Cases) {
    let rate = Road::MAX_RATE;
    let within = [MAX_QUEUE, MAX_QUEUE, rate];
    let arrivals = [rate, 0, rate];
    for k in 0..3 {
        for number in [within[k] - 1, within[k], within[k] + 1, u32::MAX] {
            let mut numbers = within;
            numbers[k] = number;
            put(cases, numbers, &arrivals);
            put(cases, numbers, &[0]);
        }
    }
    for k in 0..3 {
        for number in [rate - 1, rate, rate + 1, 1 << 31, u32::MAX] {
            let mut arrivals = arrivals;
            arrivals[k] = number;
            put(cases, within, &arrivals);
            put(cases, [0, MAX_QUEUE, rate], &arrivals);
        }
    }
    // Refused and not searched, where none would do it.
    put(cases, [MAX_QUEUE + 1, 0, 0], &[1]);
    put(cases, [0, 0, 0], &[rate + 1]);
    put(cases, [MAX_QUEUE + 1, MAX_QUEUE + 1, rate + 1], &[rate + 1]);
    put(cases, [0, MAX_QUEUE + 1, rate + 1], &[]);
}

/// Room is made for a peak in time, or can't be: by rate, by ceiling, by what has come.
fn peaks(cases: &mut Cases) {
    for rate in 0..8 {
        for ceiling in 0..8 {
            for start in [0, 2, 5] {
                put(cases, [start, ceiling, rate], &[3, 3, 9, 0]);
            }
        }
    }
    for ceiling in [4, 5, 9, 10, 11] {
        for start in [0, 4, 5, 6] {
            put(cases, [start, ceiling, 10], &[3, 20]);
        }
    }
    // A peak in the first, in the last and in every step.
    for arrivals in [[40, 0, 0, 0, 0], [0, 0, 0, 0, 40], [40; 5]] {
        for rate in [7, 8, 9, 10, 39, 40, 41] {
            for ceiling in [0, 5, 30, 32, 33] {
                put(cases, [10, ceiling, rate], &arrivals);
            }
        }
    }
}

/// Ceilings and rates of 0, with starts and arrivals of 0.
fn zeros(cases: &mut Cases) {
    for arrivals in [[0, 0, 0], [0, 0, 1], [5, 0, 5], [1_000_000; 3]] {
        for start in [0, 1, 1_000_000_000] {
            for rate in [0, 1, 5, 6, 1_000_000] {
                put(cases, [start, 0, rate], &arrivals);
            }
            for ceiling in [1, 10, 11, 3_000_000, 1_000_000_000] {
                put(cases, [start, ceiling, 0], &arrivals);
            }
        }
    }
}

/// Every start, ceiling and rate up to 2 and all arrivals of three steps up to 2.
fn every_small_one(cases: &mut Cases) {
    for k in 0..3_u32.pow(6) {
        let digit = |place: u32| k / 3_u32.pow(place) % 3;
        let numbers = [digit(0), digit(1), digit(2)];
        put(cases, numbers, &[digit(3), digit(4), digit(5)]);
    }
}

/// The most steps of the greatest numbers, which pass 32 bits if added carelessly.
fn greatest(cases: &mut Cases) {
    let arrivals = vec![Road::MAX_RATE; Road::MAX_STEPS];
    let late = [vec![0; Road::MAX_STEPS - 1], vec![Road::MAX_RATE]].concat();
    for start in [
        0,
        MAX_QUEUE - 1_441,
        MAX_QUEUE - 1_440,
        MAX_QUEUE - 1_439,
        MAX_QUEUE,
    ] {
        for rate in [0, 1, 999_999, 1_000_000] {
            put(cases, [start, MAX_QUEUE, rate], &arrivals);
            put(cases, [start, MAX_QUEUE, rate], &late);
        }
        put(cases, [start, 0, 1_000_000], &arrivals);
    }
    // 694,445 must go in step 0 under a ceiling of 999,305,555.
    for ceiling in [0, 999_305_554, 999_305_555, 999_305_556, MAX_QUEUE] {
        put(cases, [MAX_QUEUE, ceiling, 694_445], &late);
    }
}

/// Of any kind.
pub fn random(dice: &mut Dice) -> WantedInput {
    let input = match dice.one_in(3) {
        true => large(dice),
        false => small(dice),
    };
    at_an_edge(input, dice)
}

/// Few steps and small numbers, mostly few enough to be searched.
fn small(dice: &mut Dice) -> WantedInput {
    let most = dice.between(1, 9);
    let steps = dice.between(1, 7) as usize;
    let arrivals: Vec<u32> = (0..steps).map(|_| dice.between(0, most)).collect();
    let numbers = [(); 3].map(|()| dice.between(0, most + 2));
    WantedInput::new(numbers, &arrivals)
}

/// Any number of steps. The rate is near what arrives in a step on average.
fn large(dice: &mut Dice) -> WantedInput {
    let steps = match dice.one_in(4) {
        true => dice.between(1, Road::MAX_STEPS as u32),
        false => dice.between(1, 60),
    };
    let most = dice.any_size(u64::from(Road::MAX_RATE)).max(1) as u32;
    let seldom = dice.pick(&[1, 1, 2, 5]);
    let mut one = || dice.between(0, most) * u32::from(dice.one_in(seldom));
    let arrivals: Vec<u32> = (0..steps).map(|_| one()).collect();
    let ceiling = dice
        .any_size(u64::from(most) * 40)
        .min(u64::from(MAX_QUEUE)) as u32;
    let start = match dice.one_in(4) {
        true => dice.any_size(u64::from(MAX_QUEUE)) as u32,
        false => dice.between(0, ceiling),
    };
    let rate = dice.between(most / 4, most);
    WantedInput::new([start, ceiling, rate], &arrivals)
}

/// As it is, or with the least rate or ceiling that does it, or with one less.
fn at_an_edge(mut input: WantedInput, dice: &mut Dice) -> WantedInput {
    let one_less = dice.upto(1) as u32;
    match dice.upto(3) {
        0 => {
            let least = least(Road::MAX_RATE, |rate| WantedInput {
                rate,
                ..input.clone()
            });
            input.rate = least.unwrap_or(input.rate).saturating_sub(one_less);
        }
        1 => {
            let least = least(MAX_QUEUE, |ceiling| WantedInput {
                ceiling,
                ..input.clone()
            });
            input.ceiling = least.unwrap_or(input.ceiling).saturating_sub(one_less);
        }
        _ => (),
    }
    input
}

/// The least number with which there is a table, if there is any up to the most.
fn least(most: u32, with: impl Fn(u32) -> WantedInput) -> Option<u32> {
    let does = |number: u32| wanted::worked_out(with(number).asked()).is_some();
    if !does(most) {
        return None;
    }
    let (mut low, mut high) = (0, most);
    while low < high {
        let middle = low + (high - low) / 2;
        match does(middle) {
            true => high = middle,
            false => low = middle + 1,
        }
    }
    Some(low)
}
