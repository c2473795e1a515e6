//! Putting one release into a record: reading's refusals, then 5 and 6.

use crate::model::Road;
use crate::record::{self, Reading};
use crate::refusals;

/// The answer of putting.
#[derive(Clone, Copy, Debug, PartialEq, Eq)]
pub struct Put {
    /// 0, or the refusal.
    pub number: u32,
    /// As in reading; else the cell asked for 5, the step asked for 6.
    pub place: usize,
}

/// Puts a release at a step, counted from 0, and a cell, counted from 1. A refusal
/// leaves the record unchanged.
pub fn put(bytes: &mut [u8], step: usize, cell: usize, release: u32) -> Put {
    let reading = record::read(bytes);
    if let Some(refused) = refused(&reading, step, cell, release) {
        return refused;
    }
    // The row has the gate's arrivals, then each cell's arrivals and its release.
    let row = record::size(reading.road.version, reading.road.n, step);
    let at = row + 4 * (2 * cell);
    bytes[at..at + 4].copy_from_slice(&release.to_be_bytes());
    Put {
        number: 0,
        place: 0,
    }
}

fn refused(reading: &Reading, step: usize, cell: usize, release: u32) -> Option<Put> {
    let Reading { number, place, .. } = *reading;
    if number != 0 {
        return Some(Put { number, place });
    }
    let on_road = (1..=reading.road.n).contains(&cell);
    if !on_road || reading.road.ramp[cell - 1] == 0 {
        return Some(Put {
            number: refusals::LIMITS,
            place: cell,
        });
    }
    if step >= reading.steps || release > Road::MAX_RATE {
        return Some(Put {
            number: refusals::RATES,
            place: step,
        });
    }
    None
}
