//! A case with something changed: a byte, a number, a length. What was sound is then
//! often just past a bound, and what was refused may have two faults.

use super::case::{Case, FillInput, LawInput, LeafInput, PresentInput, StepInput};
use super::case::{WeighInput, WriteInput};
use super::case::{MAX_LANES, MAX_LIST, MAX_RECORD, MAX_ROW, MAX_ROWS, MAX_TARGET};
use super::dice::Dice;
use reference::model::{Road, State};
use reference::record;
use reference::weigh::Weights;

/// Numbers at the bounds of the fields, and one past them.
const EDGES: [u32; 14] = [
    0,
    1,
    2,
    255,
    900,
    901,
    1_000,
    1_001,
    1_000_000,
    1_000_001,
    1_000_000_000,
    1_000_000_001,
    1 << 31,
    u32::MAX,
];

/// Numbers that a law may have.
const REALS: [f64; 10] = [
    0.0,
    -0.0,
    0.5,
    -1.0,
    1e6,
    5e-324,
    f64::MAX,
    f64::NAN,
    f64::INFINITY,
    f64::NEG_INFINITY,
];

/// Changes a case in one way.
pub fn alter(case: &mut Case, dice: &mut Dice) {
    match case {
        Case::Read { record } => alter_record(record, dice),
        Case::Run {
            length,
            lanes,
            record,
        } => match dice.upto(7) {
            0 => alter_length(length, MAX_LIST, dice),
            1 | 2 => alter_lanes(lanes, dice),
            _ => alter_record(record, dice),
        },
        Case::Judge {
            schedule,
            lanes,
            record,
        } => match dice.upto(7) {
            0 | 1 => alter_numbers(schedule, MAX_LIST, dice),
            2 | 3 => alter_lanes(lanes, dice),
            _ => alter_record(record, dice),
        },
        Case::Step(input) => alter_step(input, dice),
        Case::Write(input) => alter_write(input, dice),
        Case::Row { n, t, bytes } => match dice.upto(3) {
            0 => *n = near(*n, dice),
            1 => *t = near(*t, dice),
            _ => alter_record(bytes, dice),
        },
        Case::Fill(input) => alter_fill(input, dice),
        Case::Leaf(input) => alter_leaf(input, dice),
        Case::Capacity {
            capacity,
            built,
            open,
        } => match dice.upto(2) {
            0 => *capacity = near(*capacity, dice).min(Road::MAX_RATE),
            1 => *built = altered_byte(*built, dice),
            _ => *open = altered_byte(*open, dice),
        },
        Case::Rows {
            n,
            steps,
            length,
            bytes,
        } => match dice.upto(4) {
            0 => *n = near(*n, dice),
            1 => *steps = near(*steps, dice),
            2 => alter_length(length, MAX_ROWS, dice),
            _ => alter_record(bytes, dice),
        },
        Case::Weigh(input) => alter_weigh(input, dice),
        Case::Present(input) => alter_present(input, dice),
        Case::Load(input) => input.alter(dice),
        Case::Wanted(input) => input.alter(dice),
        Case::Grant(input) => input.alter(dice),
        Case::Put(input) => input.alter(dice),
        Case::Join(input) => input.alter(dice),
        Case::Within(input) => input.alter(dice),
        Case::On(input) => input.alter(dice),
        Case::Many(input) => input.alter(dice),
    }
}

/// One more, one less, an edge, or anything.
pub fn near(number: u32, dice: &mut Dice) -> u32 {
    match dice.upto(5) {
        0 | 1 => number.wrapping_add(1),
        2 | 3 => number.wrapping_sub(1),
        4 => dice.pick(&EDGES),
        _ => dice.any_size(u64::from(u32::MAX)) as u32,
    }
}

fn near_u16(number: u16, dice: &mut Dice) -> u16 {
    near(u32::from(number), dice) as u16
}

/// As `near`.
pub fn near_u64(number: u64, dice: &mut Dice) -> u64 {
    match dice.upto(4) {
        0 => number.wrapping_add(1),
        1 => number.wrapping_sub(1),
        2 => number.wrapping_mul(2),
        3 => dice.bits(),
        _ => u64::from(dice.pick(&EDGES)),
    }
}

/// A bit turned, or anything.
fn altered_byte(byte: u8, dice: &mut Dice) -> u8 {
    match dice.one_in(3) {
        true => dice.bits() as u8,
        false => byte ^ 1 << dice.upto(7),
    }
}

/// One more or less, some more, or fewer.
pub fn alter_length(length: &mut usize, most: usize, dice: &mut Dice) {
    *length = match dice.upto(3) {
        0 => *length + 1,
        1 => length.saturating_sub(1),
        2 => *length + 20,
        _ => dice.upto(*length as u64) as usize,
    }
    .min(most);
}

/// Where to change a list; nowhere if it is empty.
fn place(count: usize, dice: &mut Dice) -> Option<usize> {
    let last = count.checked_sub(1)?;
    Some(dice.upto(last as u64) as usize)
}

/// A number near what it was, or the list's length.
pub fn alter_numbers(numbers: &mut Vec<u32>, most: usize, dice: &mut Dice) {
    if dice.one_in(8) {
        let mut length = numbers.len();
        alter_length(&mut length, most, dice);
        numbers.resize(length, 0);
    } else if let Some(at) = place(numbers.len(), dice) {
        numbers[at] = near(numbers[at], dice);
    }
}

pub fn alter_lanes(lanes: &mut Vec<u8>, dice: &mut Dice) {
    if dice.one_in(8) {
        let mut length = lanes.len();
        alter_length(&mut length, MAX_LANES, dice);
        lanes.resize(length, 1);
    } else if let Some(at) = place(lanes.len(), dice) {
        lanes[at] = altered_byte(lanes[at], dice);
    }
}

/// A record's head, cells or rows changed, or its end.
pub fn alter_record(bytes: &mut Vec<u8>, dice: &mut Dice) {
    if bytes.len() < 16 {
        bytes.push(dice.bits() as u8);
        return;
    }
    let head = record::head_bytes(bytes[4]);
    match dice.upto(15) {
        0 => bytes[4] = dice.pick(&[0, 1, 2, 3]),
        1 => bytes[5] = near(u32::from(bytes[5]), dice) as u8,
        2 => bytes[7] = near(u32::from(bytes[7]), dice) as u8,
        3 => alter_u16(bytes, 8, dice),
        4 => alter_end(bytes, dice),
        5 => {
            if let Some(at) = place(bytes.len(), dice) {
                bytes[at] = altered_byte(bytes[at], dice);
            }
        }
        6 | 7 => {
            let at = dice.pick(&[8, 4]);
            alter_u32(bytes, head - at, dice);
        }
        8..=11 => {
            let cells = usize::from(bytes[5].max(1));
            let cell = head + record::CELL_BYTES * dice.upto(cells as u64 - 1) as usize;
            match dice.upto(7) {
                field @ 0..=3 => alter_u16(bytes, cell + 2 * field as usize, dice),
                field => alter_u32(bytes, cell + 4 * (field as usize - 2), dice),
            }
        }
        _ => {
            let rows = head + record::CELL_BYTES * usize::from(bytes[5]);
            let count = bytes.len().saturating_sub(rows) / 4;
            if let Some(k) = place(count, dice) {
                alter_u32(bytes, rows + 4 * k, dice);
            }
        }
    }
}

/// Bytes more or fewer; the first field is mostly made to fit.
fn alter_end(bytes: &mut Vec<u8>, dice: &mut Dice) {
    let mut length = bytes.len();
    alter_length(&mut length, MAX_RECORD, dice);
    bytes.resize(length, 0);
    if length >= 4 && !dice.one_in(4) {
        bytes[..4].copy_from_slice(&(length as u32 - 4).to_be_bytes());
    }
}

fn alter_u16(bytes: &mut [u8], at: usize, dice: &mut Dice) {
    if at + 2 <= bytes.len() {
        let number = near_u16(record::u16_at(bytes, at), dice);
        bytes[at..at + 2].copy_from_slice(&number.to_be_bytes());
    }
}

fn alter_u32(bytes: &mut [u8], at: usize, dice: &mut Dice) {
    if at + 4 <= bytes.len() {
        let number = near(record::u32_at(bytes, at), dice);
        bytes[at..at + 4].copy_from_slice(&number.to_be_bytes());
    }
}

/// A road's number, at an entry.
fn alter_road(road: &mut Road, i: usize, dice: &mut Dice) {
    match dice.upto(9) {
        0 => road.n = near(road.n as u32, dice) as usize,
        1 => road.version = dice.pick(&[0, 1, 2, 3]),
        2 => road.seconds = near_u16(road.seconds, dice),
        3 => road.gate_capacity = near(road.gate_capacity, dice),
        4 => road.v[i] = near_u16(road.v[i], dice),
        5 => road.w[i] = near_u16(road.w[i], dice),
        6 => road.b[i] = near_u16(road.b[i], dice),
        7 => road.ramp[i] = near_u16(road.ramp[i], dice),
        8 => road.jam[i] = near(road.jam[i], dice),
        _ => road.capacity[i] = near(road.capacity[i], dice),
    }
}

/// Cells as a record names them, if it reaches so far.
pub fn named_cells(record: &[u8]) -> usize {
    record.get(5).map_or(1, |&n| usize::from(n))
}

/// An entry of the road's cells, now and then one past them.
pub fn entry(n: usize, dice: &mut Dice) -> usize {
    match dice.one_in(10) {
        true => dice.upto(Road::MAX_CELLS as u64 - 1) as usize,
        false => dice.upto(n.clamp(1, Road::MAX_CELLS) as u64 - 1) as usize,
    }
}

/// A state's number, at an entry.
pub fn alter_state(state: &mut State, i: usize, dice: &mut Dice) {
    match dice.upto(8) {
        0 => state.steps = near(state.steps as u32, dice) as usize,
        1 => state.gate_time = near_u64(state.gate_time, dice),
        2 => state.road_time = near_u64(state.road_time, dice),
        3 => state.ramp_time = near_u64(state.ramp_time, dice),
        4 => state.gate_queue = near(state.gate_queue, dice),
        5 => state.gate_f = near(state.gate_f, dice),
        6 => state.held[i] = near(state.held[i], dice),
        7 => state.queue[i] = near(state.queue[i], dice),
        _ => state.f[i] = near(state.f[i], dice),
    }
}

/// The weight of a place or of a ramp, at an entry.
pub fn alter_weights(weights: &mut Weights, i: usize, dice: &mut Dice) {
    let weight = match dice.upto(2) {
        0 => &mut weights.places[0],
        1 => &mut weights.places[i + 1],
        _ => &mut weights.ramps[i],
    };
    *weight = match dice.one_in(2) {
        true => dice.pick(&[0, 1, 255]),
        false => altered_byte(*weight, dice),
    };
}

fn alter_step(input: &mut StepInput, dice: &mut Dice) {
    let i = entry(input.road.n, dice);
    match dice.upto(15) {
        0..=2 => alter_road(&mut input.road, i, dice),
        3..=11 => alter_state(&mut input.state, i, dice),
        12 => input.built[i] = altered_byte(input.built[i], dice),
        13 => input.open[i] = altered_byte(input.open[i], dice),
        _ => alter_numbers(&mut input.row, MAX_ROW, dice),
    }
}

fn alter_write(input: &mut WriteInput, dice: &mut Dice) {
    let i = entry(input.road.n, dice);
    let start = &mut input.start;
    match dice.upto(11) {
        0..=3 => alter_road(&mut input.road, i, dice),
        4 => input.steps = near(input.steps as u32, dice) as usize,
        5 => alter_length(&mut input.length, MAX_TARGET, dice),
        6 => start.gate_queue = near(start.gate_queue, dice),
        7 => start.held[i] = near(start.held[i], dice),
        8 => start.queue[i] = near(start.queue[i], dice),
        _ => alter_numbers(&mut input.rows, MAX_ROWS, dice),
    }
}

pub fn alter_law(law: &mut LawInput, dice: &mut Dice) {
    match dice.upto(5) {
        0 => law.kind = dice.upto(3) as u32,
        1 => law.bits[dice.upto(2) as usize] = dice.pick(&REALS).to_bits(),
        _ => law.bits[dice.upto(2) as usize] ^= 1 << dice.upto(63),
    }
}

fn alter_fill(input: &mut FillInput, dice: &mut Dice) {
    match dice.upto(9) {
        0 => alter_length(&mut input.length, MAX_LIST, dice),
        1 | 2 => alter_lanes(&mut input.lanes, dice),
        3..=5 => {
            let i = entry(named_cells(&input.record), dice);
            alter_law(&mut input.laws[i], dice);
        }
        _ => alter_record(&mut input.record, dice),
    }
}

fn alter_weigh(input: &mut WeighInput, dice: &mut Dice) {
    match dice.upto(9) {
        0 => alter_length(&mut input.length, MAX_LIST, dice),
        1 | 2 => alter_lanes(&mut input.lanes, dice),
        3..=5 => {
            let i = entry(named_cells(&input.record), dice);
            alter_weights(&mut input.weights, i, dice);
        }
        _ => alter_record(&mut input.record, dice),
    }
}

fn alter_present(input: &mut PresentInput, dice: &mut Dice) {
    let i = entry(input.road.n, dice);
    match dice.upto(3) {
        0 => alter_road(&mut input.road, i, dice),
        1 => alter_state(&mut input.state, i, dice),
        _ => alter_weights(&mut input.weights, i, dice),
    }
}

fn alter_leaf(input: &mut LeafInput, dice: &mut Dice) {
    match dice.upto(6) {
        0 => input.last = near(input.last, dice),
        1 => input.entered = near(input.entered, dice),
        2 => input.held = near(input.held, dice),
        3 => input.cap = near(input.cap, dice),
        _ => alter_law(&mut input.law, dice),
    }
}
