//! Group 6: records written, at every bound and at random, and rows' numbers.

use super::case::{WriteInput, MAX_ROWS};
use super::cells::STYLES;
use super::dice::Dice;
use super::list::Cases;
use super::samples;
use super::steps;
use super::trial;
use reference::draft::Draft;
use reference::model::Road;
use reference::record;

/// Random roads to be written.
const RANDOM: usize = 220;

pub fn add(cases: &mut Cases) {
    let mut dice = Dice::new(6);
    counts(cases, &mut dice);
    sizes(cases);
    row_counts(cases, &mut dice);
    fields(cases, &mut dice);
    row_numbers(cases, &mut dice);
    targets(cases, &mut dice);
    several(cases, &mut dice);
    for k in 0..RANDOM {
        cases.write(&random(k, &mut dice));
    }
    rows(cases);
}

/// A sound draft with a target of just its size.
pub fn input(draft: &Draft) -> WriteInput {
    let reading = record::read(&draft.encode());
    assert_eq!(reading.number, 0);
    WriteInput {
        road: reading.road,
        steps: reading.steps,
        start: reading.state.start(),
        rows: draft.rows.concat(),
        length: record::size(reading.road.version, reading.road.n, reading.steps),
    }
}

/// Three cells and three steps (172 bytes), garbage past cell 3, and a target
/// with room to spare.
pub fn sound(dice: &mut Dice) -> WriteInput {
    let mut sound = input(&samples::three_cells());
    fill_past_n(&mut sound, dice);
    sound.length += 20;
    sound
}

fn fill_past_n(input: &mut WriteInput, dice: &mut Dice) {
    steps::fill_road_past_n(&mut input.road, dice);
    for i in input.road.n..Road::MAX_CELLS {
        input.start.held[i] = dice.bits() as u32;
        input.start.queue[i] = dice.bits() as u32;
    }
}

type Change = fn(&mut WriteInput);

fn changed(cases: &mut Cases, changes: &[Change], dice: &mut Dice) {
    for change in changes {
        let mut input = sound(dice);
        change(&mut input);
        cases.write(&input);
    }
}

/// n and T at their limits and past them, with rows to match where they can be.
fn counts(cases: &mut Cases, dice: &mut Dice) {
    for (n, steps) in [(1, 1), (64, 1), (1, 1_440)] {
        cases.write(&input(&samples::even(n, steps)));
    }
    let mut wide = input(&samples::even(64, 2));
    for (n, steps) in [(0, 2), (65, 1), (65, 2), (64, 0), (1, 1_441), (0, 0)] {
        (wide.road.n, wide.steps) = (n, steps);
        wide.rows = vec![0; steps * (1 + 2 * n)];
        cases.write(&wide);
    }
    // Numbers that agree with 3 in their last byte or two, and greater ones.
    for number in [259, 65_539, (1 << 31) + 3, u32::MAX as usize] {
        let mut other = sound(dice);
        other.road.n = number;
        cases.write(&other);
        let mut other = sound(dice);
        other.steps = number;
        cases.write(&other);
    }
}

/// 65,536 bytes pass; a row more is 1, whatever the rows are.
fn sizes(cases: &mut Cases) {
    cases.write(&input(&samples::even(64, 124)));
    let mut long = input(&samples::even(6, 1_257));
    long.length += 3;
    cases.write(&long);
    let mut wide = input(&samples::even(64, 1));
    wide.length = 65_600;
    for (n, steps) in [(64, 125), (64, 1_440), (6, 1_258), (6, 1_440), (63, 127)] {
        (wide.road.n, wide.steps) = (n, steps);
        wide.rows = vec![];
        cases.write(&wide);
    }
    // The only case whose rows are as many as they should be.
    (wide.road.n, wide.steps) = (64, 125);
    wide.rows = vec![0; 125 * 129];
    cases.write(&wide);
}

/// Rows of other counts than 3 x 7, with too much and with nothing.
fn row_counts(cases: &mut Cases, dice: &mut Dice) {
    for count in [0, 1, 6, 7, 14, 18, 20, 21, 22, 24, 28, 42] {
        let mut input = sound(dice);
        input.rows.resize(count, 0);
        cases.write(&input);
    }
    let mut input = sound(dice);
    input.rows = vec![0; MAX_ROWS];
    cases.write(&input);
}

/// The gate's and the cells' numbers at their limits and one past them.
const FIELDS: [Change; 46] = [
    |_| (),
    |x| x.road.gate_capacity = 1_000_000,
    |x| x.road.gate_capacity = 1_000_001,
    |x| x.road.gate_capacity = u32::MAX,
    |x| x.start.gate_queue = 1_000_000_000,
    |x| x.start.gate_queue = 1_000_000_001,
    |x| x.start.gate_queue = u32::MAX,
    |x| x.road.v[0] = 1_000,
    |x| x.road.v[0] = 1_001,
    |x| x.road.v[2] = 65_535,
    |x| x.road.w[1] = 1_000,
    |x| x.road.w[1] = 1_001,
    |x| x.road.w[2] = 1_256,
    |x| x.road.b[0] = 1_000,
    |x| x.road.b[0] = 1_001,
    |x| x.road.b[1] = 0,
    |x| x.road.b[2] = 1,
    |x| x.road.b[2] = 1_000,
    |x| x.road.ramp[1] = 1,
    |x| x.road.ramp[0] = 0,
    |x| (x.road.ramp[0], x.start.queue[0]) = (0, 0),
    |x| x.road.ramp[0] = 2,
    |x| x.road.ramp[2] = 257,
    |x| x.road.ramp[1] = 65_535,
    |x| x.road.jam[0] = 1_000_000,
    |x| x.road.jam[0] = 1_000_001,
    |x| x.road.jam[2] = u32::MAX,
    |x| x.road.jam[2] = 6_000,
    |x| x.road.jam[2] = 5_999,
    |x| x.road.capacity[0] = 0,
    |x| x.road.capacity[0] = 1_000_000,
    |x| x.road.capacity[0] = 1_000_001,
    |x| x.road.capacity[2] = u32::MAX,
    |x| x.start.held[1] = 8_000,
    |x| x.start.held[1] = 8_001,
    |x| x.start.held[2] = u32::MAX,
    |x| (x.road.jam[1], x.start.held[1]) = (1_000_000, 1_000_000),
    |x| (x.road.jam[1], x.start.held[1]) = (1_000_001, 1_000_001),
    |x| (x.road.jam[1], x.start.held[1]) = (0, 0),
    |x| x.start.queue[0] = 1_000_000_000,
    |x| x.start.queue[0] = 1_000_000_001,
    |x| x.start.queue[2] = u32::MAX,
    |x| x.start.queue[1] = 1,
    |x| x.start.queue[1] = u32::MAX,
    |x| (x.road.ramp[1], x.start.queue[1]) = (1, 1),
    // Only the cells up to n are looked at: cell 3 is a middle one now.
    |x| (x.road.n, x.rows) = (2, vec![0; 15]),
];

fn fields(cases: &mut Cases, dice: &mut Dice) {
    changed(cases, &FIELDS, dice);
    // The last entry of the arrays.
    let last: [Change; 5] = [
        |_| (),
        |x| x.road.v[63] = 1_001,
        |x| x.road.b[63] = 1,
        |x| x.start.held[63] = 8_001,
        |x| x.start.queue[63] = 1,
    ];
    for change in last {
        let mut wide = input(&samples::even(64, 1));
        change(&mut wide);
        cases.write(&wide);
    }
}

/// Rows' numbers at their limits and past them, in each step. Cell 2 has no
/// ramp. Releases that no queue or supply allows are written all the same.
fn row_numbers(cases: &mut Cases, dice: &mut Dice) {
    for step in 0..3 {
        for (slot, number) in [
            (0, 1_000_000),
            (0, 1_000_001),
            (2, 1_000_000),
            (2, u32::MAX),
            (3, 1),
            (4, 1),
            (5, 1_000_000),
            (6, 1_000_001),
        ] {
            let mut input = sound(dice);
            input.rows[7 * step + slot] = number;
            cases.write(&input);
        }
    }
}

/// Targets too short, just long enough and longer.
fn targets(cases: &mut Cases, dice: &mut Dice) {
    for length in [0, 1, 4, 16, 128, 167, 171, 172, 173, 200, 1_000, 65_600] {
        let mut input = sound(dice);
        input.length = length;
        cases.write(&input);
    }
}

/// Several faults at once; the first in the order 3, 1, 4, 5, 6, 15 is named.
const SEVERAL: [Change; 19] = [
    |x| (x.road.n, x.steps) = (65, 0),
    |x| (x.road.n, x.road.v[0]) = (0, 1_001),
    |x| (x.steps, x.length) = (1_441, 0),
    |x| (x.steps, x.road.n) = (1_440, 65),
    |x| (x.steps, x.road.n, x.length) = (1_440, 64, 0),
    |x| (x.steps, x.road.n, x.road.gate_capacity) = (1_440, 64, u32::MAX),
    |x| (x.steps, x.road.n, x.rows[0]) = (125, 64, u32::MAX),
    |x| (x.steps, x.road.v[0]) = (4, 1_001),
    |x| (x.steps, x.rows[0]) = (2, 1_000_001),
    |x| (x.steps, x.length) = (2, 0),
    |x| (x.road.v[2], x.rows[0]) = (1_001, 1_000_001),
    |x| (x.road.v[2], x.length) = (1_001, 0),
    |x| (x.road.v[2], x.start.held[0]) = (1_001, 8_001),
    |x| (x.start.gate_queue, x.start.queue[0]) = (u32::MAX, u32::MAX),
    |x| (x.rows[20], x.length) = (1_000_001, 0),
    |x| (x.rows[20], x.rows[7]) = (1_000_001, 1_000_001),
    |x| (x.rows[3], x.rows[14]) = (1, 1_000_001),
    |x| (x.road.b[2], x.rows[4], x.length) = (1, 1, 171),
    |x| {
        (x.road.n, x.steps, x.length) = (65, 1_441, 0);
        (x.road.gate_capacity, x.rows[0]) = (u32::MAX, u32::MAX);
    },
];

fn several(cases: &mut Cases, dice: &mut Dice) {
    changed(cases, &SEVERAL, dice);
}

/// A random road with any rows that 6 allows, and often a fault or two.
pub fn random(k: usize, dice: &mut Dice) -> WriteInput {
    let style = STYLES[k % STYLES.len()];
    let n = match dice.upto(7) {
        0 => 64,
        1 => 1,
        _ => 1 + dice.upto(11) as usize,
    };
    let (road, state) = trial::start(&style.road(n, dice));
    let steps = 1 + dice.upto(4) as usize;
    let rows: Vec<Vec<u32>> = (0..steps).map(|_| any_row(&road, dice)).collect();
    let size = record::size(1, n, steps);
    let mut input = WriteInput {
        road,
        steps,
        start: state.start(),
        rows: rows.concat(),
        length: size + dice.upto(30) as usize,
    };
    fill_past_n(&mut input, dice);
    for _ in 0..dice.pick(&[0, 0, 0, 0, 1, 1, 2]) {
        spoil(&mut input, size, dice);
    }
    input
}

/// Numbers up to 1,000,000 of any size, 0 for a cell without a ramp.
pub fn any_row(road: &Road, dice: &mut Dice) -> Vec<u32> {
    let mut row = vec![dice.any_size(1_000_000) as u32];
    for i in 0..road.n {
        for _ in 0..2 {
            let number = dice.any_size(1_000_000) as u32;
            row.push(number * u32::from(road.ramp[i]));
        }
    }
    row
}

/// Another number somewhere, often out of range.
fn spoil(input: &mut WriteInput, size: usize, dice: &mut Dice) {
    let i = dice.upto(input.road.n.clamp(1, 64) as u64 - 1) as usize;
    let number = dice.any_size(u64::from(u32::MAX)) as u32;
    match dice.upto(13) {
        0 => input.road.n = dice.upto(70) as usize,
        1 => input.steps = dice.any_size(2_000) as usize,
        2 => input
            .rows
            .truncate(dice.upto(input.rows.len() as u64) as usize),
        3 => input.length = dice.upto(size as u64 - 1) as usize,
        4 => input.road.gate_capacity = number,
        5 => input.start.gate_queue = number,
        6 => input.road.v[i] = number as u16,
        7 => input.road.b[i] = number as u16,
        8 => input.road.ramp[i] = dice.upto(2) as u16,
        9 => input.road.jam[i] = number,
        10 => input.start.held[i] = number,
        11 => input.start.queue[i] = number,
        _ if input.rows.is_empty() => {}
        _ => {
            let k = dice.upto(input.rows.len() as u64 - 1) as usize;
            input.rows[k] = number;
        }
    }
}

/// Rows of a sound record, of one cut short in a number, of other n, of steps
/// that it doesn't have, and at the limits of n and t.
fn rows(cases: &mut Cases) {
    let mut draft = samples::three_cells();
    for (k, number) in draft.rows.iter_mut().flatten().enumerate() {
        *number = 1_000 * k as u32 + 65_537;
    }
    let record = draft.encode();
    for t in [0, 1, 2, 3, 4, 1_439, 1_440, 1 << 30, u32::MAX] {
        cases.row(3, t, &record);
    }
    for n in [0, 1, 2, 4, 5, 63, 64, 65, 66, 256 + 3, 1 << 29, u32::MAX] {
        for t in [0, 1] {
            cases.row(n, t, &record);
        }
    }
    for count in [0, 1, 15, 16, 17, 88, 91, 92, 115, 116, 119, 144, 168, 171] {
        for t in [0, 1, 2] {
            cases.row(3, t, &record[..count]);
        }
    }
    let wide = samples::even(64, 3).encode();
    for t in 0..4 {
        cases.row(64, t, &wide);
    }
    let long = samples::even(1, 1_440).encode();
    for t in [0, 1_438, 1_439, 1_440] {
        cases.row(1, t, &long);
    }
}
