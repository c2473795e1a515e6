//! Lanes closed during works: the table of lanes, refusals 17 and 18, and the
//! road that a step sees.
//!
//! A table is empty, which means all lanes open, or has n x (T + 1) bytes: the
//! lanes built, cell by cell, then one row per step of lanes open. A lane is a bit.

use crate::model::Road;
use crate::refusals;

/// The capacity that its open lanes leave a cell: C x open / built, rounded
/// down. It is 0 if no lane is built, and the greatest 32-bit number if more lanes
/// are open than built and the quotient exceeds it.
pub fn open_capacity(capacity: u32, built: u8, open: u8) -> u32 {
    let whole = u64::from(capacity) * u64::from(open.count_ones());
    let left = whole.checked_div(u64::from(built.count_ones()));
    u32::try_from(left.unwrap_or(0)).unwrap_or(u32::MAX)
}

/// Some lane is built, and every open lane is.
fn sound(built: u8, open: u8) -> bool {
    built != 0 && open & !built == 0
}

/// Refusals 17 and 18 with their place, for a table of n cells and T steps.
pub fn table_fault(table: &[u8], n: usize, steps: usize) -> Option<(u32, usize)> {
    if table.is_empty() {
        return None;
    }
    if table.len() != n * (steps + 1) {
        return Some((refusals::LANES_LENGTH, 0));
    }
    let (built, rows) = table.split_at(n);
    let bad_cell = |i: usize| rows.chunks(n).any(|open| !sound(built[i], open[i]));
    (0..n)
        .find(|&i| bad_cell(i))
        .map(|i| (refusals::LANES, i + 1))
}

/// Refusal 18 in a step: the lowest cell, of n.
pub fn step_fault(built: &[u8], open: &[u8], n: usize) -> Option<usize> {
    (0..n).find(|&i| !sound(built[i], open[i])).map(|i| i + 1)
}

/// The road with the capacities that these lanes leave its cells up to n.
pub fn narrowed(road: &Road, built: &[u8], open: &[u8]) -> Road {
    let mut narrow = *road;
    for i in 0..road.n {
        narrow.capacity[i] = open_capacity(road.capacity[i], built[i], open[i]);
    }
    narrow
}

/// The road of a step under a table that is not refused.
pub fn road_at(road: &Road, table: &[u8], step: usize) -> Road {
    if table.is_empty() {
        return *road;
    }
    let (built, rows) = table.split_at(road.n);
    narrowed(road, built, &rows[step * road.n..])
}
