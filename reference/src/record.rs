//! Reading a record: refusals 1, 2, 3, 19, 4, 26, 5 and 6, in this order.
//!
//! Version 2 has a step's seconds in two bytes after byte 7, and everything after
//! them comes two bytes later.

use crate::limits;
use crate::model::{Road, State};
use crate::refusals;

/// Bytes of a cell.
pub const CELL_BYTES: usize = 24;
/// The place of a step's seconds in version 2.
const SECONDS_AT: usize = 8;

/// Bytes before the first cell. The gate's capacity and queue are the last of
/// them.
pub fn head_bytes(version: u8) -> usize {
    match version {
        2 => 18,
        _ => 16,
    }
}

/// The most that a caller takes. Numbers above a record's own limits change nothing.
#[derive(Clone, Copy, Debug, PartialEq, Eq)]
pub struct Caller {
    /// Most cells.
    pub cells: usize,
    /// Most bytes.
    pub bytes: usize,
}

impl Caller {
    /// The full program, which never refuses with 26.
    pub const FULL: Caller = Caller {
        cells: Road::MAX_CELLS,
        bytes: Road::MAX_BYTES,
    };
    /// The exercise program.
    pub const EXERCISE: Caller = Caller {
        cells: 8,
        bytes: 4_096,
    };

    /// Whether it takes a record of this many cells and bytes.
    fn takes(self, cells: usize, bytes: usize) -> bool {
        cells <= self.cells && bytes <= self.bytes
    }
}

/// What reading gives. After a refusal road and state are all zero and T is 0.
#[derive(Clone, Copy, Debug, PartialEq, Eq)]
pub struct Reading {
    /// 0, or the refusal.
    pub number: u32,
    /// The lowest cell (0 for the gate) for 5, the first step for 6, else 0.
    pub place: usize,
    /// All zero after a refusal.
    pub road: Road,
    /// T, the number of steps.
    pub steps: usize,
    /// The state before step 0.
    pub state: State,
}

impl Reading {
    fn refused(number: u32, place: usize) -> Reading {
        Reading {
            number,
            place,
            road: Road::empty(),
            steps: 0,
            state: State::empty(),
        }
    }
}

/// Reads a record.
pub fn read(record: &[u8]) -> Reading {
    read_within(record, Caller::FULL)
}

/// Reads a record for a caller with its own limits.
pub fn read_within(record: &[u8], caller: Caller) -> Reading {
    if let Some(number) = frame_fault(record, caller) {
        return Reading::refused(number, 0);
    }
    let n = cells_of(record);
    let steps = steps_of(record);
    let (road, state) = road_and_state(record, n);
    if let Some(place) = first_bad_place(&road, &state) {
        return Reading::refused(refusals::LIMITS, place);
    }
    if let Some(step) = (0..steps).find(|&t| !limits::row_fits(&road, &row(record, n, t))) {
        return Reading::refused(refusals::RATES, step);
    }
    Reading {
        number: 0,
        place: 0,
        road,
        steps,
        state,
    }
}

/// Number of bytes of a record of n cells and T steps.
pub fn size(version: u8, n: usize, steps: usize) -> usize {
    head_bytes(version) + CELL_BYTES * n + steps * (4 + 8 * n)
}

/// The row of a step, of 1 + 2n numbers, from a record of the right size.
pub fn row(record: &[u8], n: usize, step: usize) -> Vec<u32> {
    row_numbers(record, n, step)[..1 + 2 * n].to_vec()
}

/// The numbers of a step's row where a record of n cells has them, for any
/// bytes. A number whose four bytes aren't all there is 0, and so are those
/// past the row. All are 0 for n above 64 or a step from 1,440 on. Byte 4 says
/// the version; bytes that don't reach it are laid out as version 1.
pub fn row_numbers(bytes: &[u8], n: usize, step: usize) -> [u32; Road::MAX_ROW] {
    let mut numbers = [0; Road::MAX_ROW];
    if n > Road::MAX_CELLS || step >= Road::MAX_STEPS {
        return numbers;
    }
    let start = size(version_of(bytes), n, step);
    for (k, number) in numbers[..1 + 2 * n].iter_mut().enumerate() {
        let at = start + 4 * k;
        if at + 4 <= bytes.len() {
            *number = u32_at(bytes, at);
        }
    }
    numbers
}

/// Puts the rows of T steps at the front of a lent list, one after the other,
/// as writing takes them: each by its 1 + 2n numbers as `row_numbers` gives
/// them, for any bytes. The answer is their count, T x (1 + 2n). It is 0 and the
/// list is unchanged for n above 64, T above 1,440 or a list without that room.
pub fn rows(bytes: &[u8], n: usize, steps: usize, list: &mut [u32]) -> usize {
    if n > Road::MAX_CELLS || steps > Road::MAX_STEPS {
        return 0;
    }
    let width = 1 + 2 * n;
    let count = steps * width;
    if list.len() < count {
        return 0;
    }
    for t in 0..steps {
        let numbers = row_numbers(bytes, n, t);
        list[t * width..(t + 1) * width].copy_from_slice(&numbers[..width]);
    }
    count
}

/// Puts a step's row of 1 + 2n numbers into a record of the right size.
pub fn put_row(record: &mut [u8], n: usize, step: usize, row: &[u32]) {
    let start = size(version_of(record), n, step);
    for (k, number) in row.iter().enumerate() {
        let at = start + 4 * k;
        record[at..at + 4].copy_from_slice(&number.to_be_bytes());
    }
}

/// Refusals 1 to 4, 19 and 26: the record's frame.
fn frame_fault(record: &[u8], caller: Caller) -> Option<u32> {
    let version = version_of(record);
    if record.len() < head_bytes(version) || record.len() > Road::MAX_BYTES {
        return Some(refusals::LENGTH);
    }
    if u32_at(record, 0) as usize != record.len() - 4 {
        return Some(refusals::LENGTH);
    }
    if !version_fits(version) {
        return Some(refusals::VERSION);
    }
    let (n, steps) = (cells_of(record), steps_of(record));
    if !counts_fit(n, steps) {
        return Some(refusals::COUNTS);
    }
    if !seconds_fit(version, seconds_of(record)) {
        return Some(refusals::SECONDS);
    }
    if record.len() != size(version, n, steps) {
        return Some(refusals::SIZE);
    }
    if !caller.takes(n, record.len()) {
        return Some(refusals::CALLER_LIMITS);
    }
    None
}

/// The version is known.
pub fn version_fits(version: u8) -> bool {
    version == 1 || version == 2
}

/// A step's seconds are 1 to 900; version 1 has none.
pub fn seconds_fit(version: u8, seconds: u16) -> bool {
    version != 2 || (1..=Road::MAX_SECONDS).contains(&seconds)
}

/// n and T are within their limits.
pub fn counts_fit(n: usize, steps: usize) -> bool {
    (1..=Road::MAX_CELLS).contains(&n) && (1..=Road::MAX_STEPS).contains(&steps)
}

/// Refusal 5: the lowest place out of its limits.
pub fn first_bad_place(road: &Road, state: &State) -> Option<usize> {
    if !limits::gate_fits(road) || !limits::gate_queue_fits(state) {
        return Some(0);
    }
    (1..=road.n)
        .find(|&cell| !limits::cell_fits(road, cell) || !limits::cell_counts_fit(road, state, cell))
}

/// The road and the starting state in the bytes.
fn road_and_state(record: &[u8], n: usize) -> (Road, State) {
    let mut road = Road::empty();
    let mut state = State::empty();
    road.n = n;
    road.version = version_of(record);
    road.seconds = seconds_of(record);
    let head = head_bytes(road.version);
    road.gate_capacity = u32_at(record, head - 8);
    state.gate_queue = u32_at(record, head - 4);
    for i in 0..n {
        let at = head + CELL_BYTES * i;
        road.v[i] = u16_at(record, at);
        road.w[i] = u16_at(record, at + 2);
        road.b[i] = u16_at(record, at + 4);
        road.ramp[i] = u16_at(record, at + 6);
        road.jam[i] = u32_at(record, at + 8);
        road.capacity[i] = u32_at(record, at + 12);
        state.held[i] = u32_at(record, at + 16);
        state.queue[i] = u32_at(record, at + 20);
    }
    (road, state)
}

/// The version in byte 4; 1 if there is no such byte.
pub fn version_of(record: &[u8]) -> u8 {
    record.get(4).copied().unwrap_or(1)
}

/// A step's seconds as version 2 has them, 0 in other versions.
pub fn seconds_of(record: &[u8]) -> u16 {
    match version_of(record) {
        2 => u16_at(record, SECONDS_AT),
        _ => 0,
    }
}

/// n as the record names it.
pub fn cells_of(record: &[u8]) -> usize {
    usize::from(record[5])
}

/// T as the record names it.
pub fn steps_of(record: &[u8]) -> usize {
    usize::from(u16_at(record, 6))
}

/// The two bytes from here as a number.
pub fn u16_at(record: &[u8], at: usize) -> u16 {
    u16::from_be_bytes([record[at], record[at + 1]])
}

/// The four bytes from here as a number.
pub fn u32_at(record: &[u8], at: usize) -> u32 {
    u32::from_be_bytes([record[at], record[at + 1], record[at + 2], record[at + 3]])
}
