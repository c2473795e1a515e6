//! Writing a record: refusals 2, 3, 19, 1, 4, 5, 6 and 15, in this order.

use crate::limits;
use crate::model::{Road, Start, State};
use crate::record;
use crate::refusals;

/// What writing returns.
#[derive(Clone, Copy, Debug, PartialEq, Eq)]
pub struct Written {
    /// 0, or the refusal.
    pub number: u32,
    /// The lowest cell (0 for the gate) for 5, the first step for 6, else 0.
    pub place: usize,
    /// Bytes written, 0 after a refusal.
    pub count: usize,
}

impl Written {
    /// A refusal: nothing is written.
    pub fn refused(number: u32, place: usize) -> Written {
        Written {
            number,
            place,
            count: 0,
        }
    }
}

/// Writes a record into the target's first bytes. A refusal leaves the target
/// unchanged, and bytes beyond the record are never written.
///
/// `rows` are the numbers of all rows in the record's order.
pub fn write(road: &Road, steps: usize, start: &Start, rows: &[u32], target: &mut [u8]) -> Written {
    if let Some((number, place)) = fault(road, steps, start, rows) {
        return Written::refused(number, place);
    }
    let size = record::size(road.version, road.n, steps);
    if target.len() < size {
        return Written::refused(refusals::TARGET_LENGTH, 0);
    }
    target[..size].copy_from_slice(&encoded(road, steps, start, rows));
    Written {
        number: 0,
        place: 0,
        count: size,
    }
}

/// Refusals 2, 3, 19, 1, 4, 5 and 6, with their place. Once n and T are within
/// their limits no size can overflow. Version 1's seconds are ignored.
fn fault(road: &Road, steps: usize, start: &Start, rows: &[u32]) -> Option<(u32, usize)> {
    if !record::version_fits(road.version) {
        return Some((refusals::VERSION, 0));
    }
    if !record::counts_fit(road.n, steps) {
        return Some((refusals::COUNTS, 0));
    }
    if !record::seconds_fit(road.version, road.seconds) {
        return Some((refusals::SECONDS, 0));
    }
    if record::size(road.version, road.n, steps) > Road::MAX_BYTES {
        return Some((refusals::LENGTH, 0));
    }
    let width = 1 + 2 * road.n;
    if rows.len() != steps * width {
        return Some((refusals::SIZE, 0));
    }
    if let Some(place) = record::first_bad_place(road, &State::before(start)) {
        return Some((refusals::LIMITS, place));
    }
    let step = rows
        .chunks(width)
        .position(|row| !limits::row_fits(road, row));
    step.map(|step| (refusals::RATES, step))
}

/// The bytes of a record that is not refused.
fn encoded(road: &Road, steps: usize, start: &Start, rows: &[u32]) -> Vec<u8> {
    let size = record::size(road.version, road.n, steps);
    let mut bytes = Vec::with_capacity(size);
    bytes.extend((size as u32 - 4).to_be_bytes());
    bytes.extend([road.version, road.n as u8]);
    bytes.extend((steps as u16).to_be_bytes());
    if road.version == 2 {
        bytes.extend(road.seconds.to_be_bytes());
    }
    bytes.extend(road.gate_capacity.to_be_bytes());
    bytes.extend(start.gate_queue.to_be_bytes());
    debug_assert_eq!(bytes.len(), record::head_bytes(road.version));
    for i in 0..road.n {
        for number in [road.v[i], road.w[i], road.b[i], road.ramp[i]] {
            bytes.extend(number.to_be_bytes());
        }
        for number in [road.jam[i], road.capacity[i], start.held[i], start.queue[i]] {
            bytes.extend(number.to_be_bytes());
        }
    }
    debug_assert_eq!(bytes.len(), record::size(road.version, road.n, 0));
    for number in rows {
        bytes.extend(number.to_be_bytes());
    }
    bytes
}
