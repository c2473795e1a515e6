//! Two neighbouring roads joined into one record: reading's refusals of the upstream
//! record and then of the downstream one, 5 for the joint's share, 20, 21, 22 and 15,
//! in this order. And a record cut into two such roads.

use crate::model::Road;
use crate::record::{self, Reading, CELL_BYTES};
use crate::refusals;
use crate::write::Written;

/// Bytes of a gate's arrivals, which start a row.
const ARRIVALS: usize = 4;
/// The place of n in a record.
const CELLS_AT: usize = 5;
/// The place of the share in a cell.
const SHARE_AT: usize = 4;

/// Writes the joined road's record into the target's first bytes. A refusal leaves the
/// target unchanged, and bytes beyond the record are never written.
pub fn join(upstream: &[u8], downstream: &[u8], share: u16, target: &mut [u8]) -> Written {
    if let Some((number, place)) = fault(upstream, downstream, share) {
        return Written::refused(number, place);
    }
    let joined = joined(upstream, downstream, share);
    if target.len() < joined.len() {
        return Written::refused(refusals::TARGET_LENGTH, 0);
    }
    target[..joined.len()].copy_from_slice(&joined);
    Written {
        number: 0,
        place: 0,
        count: joined.len(),
    }
}

/// All refusals but 15, with their place.
fn fault(upstream: &[u8], downstream: &[u8], share: u16) -> Option<(u32, usize)> {
    let readings = [upstream, downstream].map(record::read);
    if let Some(refused) = readings.iter().find(|reading| reading.number != 0) {
        return Some((refused.number, refused.place));
    }
    let [up, down] = &readings;
    if share > Road::WHOLE {
        return Some((refusals::LIMITS, up.road.n));
    }
    if !alike(up, down) {
        return Some((refusals::ROADS_DIFFER, 0));
    }
    if !gate_is_idle(down, downstream) {
        return Some((refusals::SECOND_GATE, 0));
    }
    let n = up.road.n + down.road.n;
    let size = record::size(up.road.version, n, up.steps);
    if n > Road::MAX_CELLS || size > Road::MAX_BYTES {
        return Some((refusals::JOINED_SIZE, 0));
    }
    None
}

/// T, version and a step's seconds are the same.
fn alike(up: &Reading, down: &Reading) -> bool {
    let frame = |reading: &Reading| (reading.steps, reading.road.version, reading.road.seconds);
    frame(up) == frame(down)
}

/// Nobody waits at the gate and nobody arrives there. Its capacity may be anything.
fn gate_is_idle(reading: &Reading, bytes: &[u8]) -> bool {
    let arrivals = |t: usize| record::row(bytes, reading.road.n, t)[0];
    reading.state.gate_queue == 0 && (0..reading.steps).all(|t| arrivals(t) == 0)
}

/// The joined bytes of two roads that are not refused.
fn joined(upstream: &[u8], downstream: &[u8], share: u16) -> Vec<u8> {
    let (up, down) = (Parts::of(upstream), Parts::of(downstream));
    let last = record::cells_of(upstream);
    let mut bytes = [up.head, up.cells, down.cells].concat();
    for (row, other) in up.rows().zip(down.rows()) {
        bytes.extend([row, &other[ARRIVALS..]].concat());
    }
    set_share(&mut bytes, last, share);
    counted(bytes, last + record::cells_of(downstream))
}

/// A record that reads without refusal, as two roads that meet after a cell that isn't
/// the last, and that cell's share. The second gate has nothing: no capacity, no queue
/// and no arrivals.
pub fn cut(bytes: &[u8], cell: usize) -> (Vec<u8>, Vec<u8>, u16) {
    let n = record::cells_of(bytes);
    assert!((1..n).contains(&cell), "a cell before the last");
    let whole = Parts::of(bytes);
    let (head, gate) = whole.head.split_at(whole.head.len() - 8);
    let (first, second) = whole.cells.split_at(CELL_BYTES * cell);
    let mut up = [head, gate, first].concat();
    let mut down = [head, &[0; 8], second].concat();
    for row in whole.rows() {
        let (here, there) = row.split_at(ARRIVALS + 8 * cell);
        up.extend(here);
        down.extend([&[0; ARRIVALS], there].concat());
    }
    let share = record::u16_at(first, CELL_BYTES * (cell - 1) + SHARE_AT);
    set_share(&mut up, cell, 0);
    (counted(up, cell), counted(down, n - cell), share)
}

/// The same bytes with n and a true first field.
fn counted(mut bytes: Vec<u8>, n: usize) -> Vec<u8> {
    let length = bytes.len() as u32 - 4;
    bytes[..4].copy_from_slice(&length.to_be_bytes());
    bytes[CELLS_AT] = n as u8;
    bytes
}

/// Puts the share of a cell where its record has it.
fn set_share(bytes: &mut [u8], cell: usize, share: u16) {
    let cells = record::head_bytes(record::version_of(bytes));
    let at = cells + CELL_BYTES * (cell - 1) + SHARE_AT;
    bytes[at..at + 2].copy_from_slice(&share.to_be_bytes());
}

/// A record of the right size in its parts.
struct Parts<'a> {
    /// All before the first cell; the gate's eight bytes are its last.
    head: &'a [u8],
    cells: &'a [u8],
    rows: &'a [u8],
    /// Bytes of a row.
    width: usize,
}

impl<'a> Parts<'a> {
    fn of(bytes: &'a [u8]) -> Parts<'a> {
        let n = record::cells_of(bytes);
        let (head, rest) = bytes.split_at(record::head_bytes(record::version_of(bytes)));
        let (cells, rows) = rest.split_at(CELL_BYTES * n);
        Parts {
            head,
            cells,
            rows,
            width: ARRIVALS + 8 * n,
        }
    }

    /// The bytes of each step's row.
    fn rows(&self) -> impl Iterator<Item = &'a [u8]> {
        self.rows.chunks(self.width)
    }
}
