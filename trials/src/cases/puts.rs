//! Part of group 14: a release put into a record. Reading's refusals, then 5 at a cell
//! without a ramp, then 6 at a step or a release past its bound.

use super::altered::{alter_record, near, near_u64};
use super::dice::Dice;
use super::list::Cases;
use super::samples;
use super::trial::Trial;
use super::versions;
use reference::draft::Draft;
use reference::model::Road;
use reference::put;
use reference::record;

/// Roads with longer records are not tried here.
const MAX_BYTES: usize = 2_000;
/// The number of roads of group 4 that are used.
const ROADS: usize = 40;

/// Releases within the bound and past it.
const RELEASES: [u32; 6] = [0, 1, 300, 1_000_000, 1_000_001, u32::MAX];

/// Numbers past every bound. Some are small again in 8, 16 or 32 bits, or times 4, 8 or 24.
const FAR: [u64; 12] = [
    64,
    65,
    257,
    1_440,
    65_537,
    1 << 29 | 1,
    1 << 32,
    1 << 32 | 1,
    1 << 61 | 1,
    1 << 62 | 1,
    1 << 63,
    u64::MAX,
];

/// What putting takes.
#[derive(Clone, Debug, PartialEq, Eq)]
pub struct PutInput {
    pub step: u64,
    pub cell: u64,
    pub release: u32,
    pub record: Vec<u8>,
}

impl PutInput {
    /// The record with the release, or unchanged.
    pub fn record_after(&self) -> Vec<u8> {
        let mut record = self.record.clone();
        put::put(
            &mut record,
            self.step as usize,
            self.cell as usize,
            self.release,
        );
        record
    }

    /// Changes it in one way.
    pub fn alter(&mut self, dice: &mut Dice) {
        match dice.upto(7) {
            0 => self.step = near_u64(self.step, dice),
            1 => self.cell = near_u64(self.cell, dice),
            2 | 3 => self.release = near(self.release, dice),
            _ => alter_record(&mut self.record, dice),
        }
    }
}

/// `trials` are the roads of group 4.
pub fn add(cases: &mut Cases, trials: &[Trial]) {
    every_place(cases);
    far(cases);
    unread(cases);
    largest(cases);
    again(cases, trials, &mut Dice::new(15));
}

fn put_at(cases: &mut Cases, step: u64, cell: u64, release: u32, record: &[u8]) {
    cases.put(&PutInput {
        step,
        cell,
        release,
        record: record.to_vec(),
    });
}

/// Every cell from 0 to n + 1, steps about the last, releases about the bound, in both
/// versions.
fn every_place(cases: &mut Cases) {
    for draft in [samples::three_cells(), samples::printed().timed(20)] {
        let (n, steps) = (draft.cells.len() as u64, draft.rows.len() as u64);
        let record = draft.encode();
        for cell in 0..=n + 1 {
            for step in [0, 1, steps - 1, steps, steps + 1] {
                for release in RELEASES {
                    put_at(cases, step, cell, release, &record);
                }
            }
        }
    }
}

/// Cells and steps far past the road and its rows, and both.
fn far(cases: &mut Cases) {
    let record = samples::three_cells().encode();
    for number in FAR {
        put_at(cases, 1, number, 200, &record);
        put_at(cases, number, 1, 200, &record);
        put_at(cases, number, 3, 1_000_001, &record);
        put_at(cases, number, number, 200, &record);
    }
}

type Change = fn(&mut Draft);

/// One of each of reading's refusals, and some that the release asked would mend.
const UNREAD: [Change; 15] = [
    |d| d.length = Some(1),
    |d| d.version = 0,
    |d| d.version = 1,
    |d| d.version = 3,
    |d| d.n = 65,
    |d| d.n = 2,
    |d| d.steps = 0,
    |d| d.steps = 2,
    |d| d.seconds = Some(0),
    |d| d.extra = 9,
    |d| d.cells[2].b = 1,
    |d| d.gate_capacity = u32::MAX,
    |d| d.rows[1][6] = 1_000_001,
    |d| d.rows[2][2] = u32::MAX,
    |d| d.rows[0][3] = 1,
];

/// Records that don't read, at a place that would be sound and at ones that wouldn't.
fn unread(cases: &mut Cases) {
    for change in UNREAD {
        let mut draft = samples::three_cells().timed(20);
        change(&mut draft);
        let record = draft.encode();
        for (step, cell, release) in [(1, 3, 200), (2, 1, 0), (1, 2, 200), (3, 3, 200), (0, 0, 9)] {
            put_at(cases, step, cell, release, &record);
        }
    }
    let record = samples::three_cells().encode();
    for count in [0, 4, 5, 15, 16, 87, record.len() - 1] {
        put_at(cases, 0, 1, 200, &record[..count]);
    }
}

/// The most cells, the last with a ramp, and the most steps.
fn largest(cases: &mut Cases) {
    let mut wide = samples::even(64, 2);
    wide.cells[63].ramp = 1;
    let wide = [wide.encode(), wide.timed(900).encode()];
    for (step, cell) in [(0, 64), (1, 64), (2, 64), (1, 65), (1, 63), (1, 0)] {
        for record in &wide {
            put_at(cases, step, cell, 1_000_000, record);
        }
    }
    let mut long = samples::even(1, Road::MAX_STEPS);
    long.cells[0].ramp = 1;
    let long = long.encode();
    for step in [0, 1_438, 1_439, 1_440, 1_441] {
        put_at(cases, step, 1, 77, &long);
    }
}

/// Random places of some short roads of group 4, every third of them as version 2.
fn again(cases: &mut Cases, trials: &[Trial], dice: &mut Dice) {
    let short = trials
        .iter()
        .filter(|trial| trial.record.len() <= MAX_BYTES);
    for (k, trial) in short.step_by(3).take(ROADS).enumerate() {
        let record = match k % 3 {
            2 => versions::timed(&trial.record, dice.between(1, 900) as u16),
            _ => trial.record.clone(),
        };
        for _ in 0..3 {
            cases.put(&random(record.clone(), dice));
        }
    }
}

/// Somewhere in a record that reads, mostly at a ramp.
pub fn random(record: Vec<u8>, dice: &mut Dice) -> PutInput {
    let reading = record::read(&record);
    let (n, steps) = (reading.road.n as u64, reading.steps as u64);
    let ramps: Vec<u64> = (1..=n)
        .filter(|&cell| reading.road.ramp[cell as usize - 1] == 1)
        .collect();
    let cell = match ramps.is_empty() || dice.one_in(5) {
        true => dice.upto(n + 1),
        false => dice.pick(&ramps),
    };
    let step = match dice.one_in(8) {
        true => dice.pick(&[steps, steps + 1, 0]),
        false => dice.upto(steps.max(1) - 1),
    };
    let release = match dice.one_in(8) {
        true => dice.any_size(u64::from(u32::MAX)),
        false => dice.any_size(u64::from(Road::MAX_RATE)),
    };
    PutInput {
        step,
        cell,
        release: release as u32,
        record,
    }
}
