//! Group 16: reading for a caller with its own limits, refusal 26, after 1, 2, 3, 19 and
//! 4 and before 5 and 6.

use super::altered::{alter_record, near_u64};
use super::dice::Dice;
use super::list::Cases;
use super::samples;
use super::trial::Trial;
use super::versions;
use reference::draft::Draft;
use reference::record::Caller;

/// Longer records are tried with few pairs of limits.
const MAX_BYTES: usize = 1_000;
/// The number of roads of group 4 that are used.
const ROADS: usize = 80;

/// What reading within limits takes.
#[derive(Clone, Debug, PartialEq, Eq)]
pub struct WithinInput {
    pub cells: u64,
    pub bytes: u64,
    pub record: Vec<u8>,
}

impl WithinInput {
    pub fn caller(&self) -> Caller {
        Caller {
            cells: self.cells as usize,
            bytes: self.bytes as usize,
        }
    }

    /// Changes it in one way.
    pub fn alter(&mut self, dice: &mut Dice) {
        match dice.upto(5) {
            0 => self.cells = near_u64(self.cells, dice),
            1 => self.bytes = near_u64(self.bytes, dice),
            _ => alter_record(&mut self.record, dice),
        }
    }
}

/// `trials` are the roads of group 4.
pub fn add(cases: &mut Cases, trials: &[Trial]) {
    bounds(cases);
    orders(cases);
    fields(cases);
    short(cases);
    again(cases, trials, &mut Dice::new(26));
}

fn within(cases: &mut Cases, (cells, bytes): (u64, u64), record: &[u8]) {
    cases.within(&WithinInput {
        cells,
        bytes,
        record: record.to_vec(),
    });
}

/// Neither limit, the exercise program's, a record's own and ones past them. Some are
/// small again in 8, 16 or 32 bits.
const PAIRS: [(u64, u64); 20] = [
    (0, 0),
    (8, 4_096),
    (64, 65_536),
    (u64::MAX, u64::MAX),
    (8, 65_536),
    (64, 4_096),
    (63, 65_536),
    (64, 65_535),
    (65, 65_537),
    (0, u64::MAX),
    (u64::MAX, 0),
    (7, 4_096),
    (9, 4_096),
    (8, 4_095),
    (8, 4_097),
    (1 << 8, 1 << 16),
    (1 << 16, 1 << 17),
    (1 << 32, 1 << 32),
    (1 << 32 | 1, 1 << 32 | 16),
    (1 << 63, 1 << 63),
];

/// A record's own cells and bytes, one more and one less of either.
fn about(cells: u64, bytes: u64) -> [(u64, u64); 11] {
    [
        (cells, bytes),
        (cells - 1, bytes),
        (cells, bytes - 1),
        (cells - 1, bytes - 1),
        (cells + 1, bytes),
        (cells, bytes + 1),
        (cells + 1, bytes - 1),
        (cells - 1, bytes + 1),
        (cells, u64::MAX),
        (u64::MAX, bytes),
        (cells - 1, u64::MAX),
    ]
}

/// Sound records about every bound: 8 cells and 9, 4,096 bytes (1 cell and 338 steps, 5
/// and 90), the sizes next to it in both versions, and the longest records.
fn bounds(cases: &mut Cases) {
    let sizes = [
        (1, 1),
        (7, 2),
        (8, 1),
        (8, 2),
        (9, 1),
        (64, 1),
        (1, 338),
        (1, 339),
        (2, 202),
        (3, 143),
        (5, 90),
        (8, 57),
        (8, 58),
        (9, 50),
        (9, 58),
        (16, 28),
    ];
    let mut drafts = vec![samples::printed(), samples::three_cells()];
    drafts.extend(sizes.map(|(n, steps)| samples::even(n, steps)));
    let timed: Vec<Draft> = drafts.iter().map(|d| d.clone().timed(20)).collect();
    drafts.extend(timed);
    drafts.push(samples::even(64, 124));
    drafts.push(samples::even(64, 123).timed(1));
    drafts.push(samples::even(1, 1_440));
    drafts.push(samples::even(6, 1_257).timed(900));
    for draft in &drafts {
        let record = draft.encode();
        let own = about(draft.cells.len() as u64, record.len() as u64);
        let few = record.len() > MAX_BYTES;
        let (pairs, own) = match few {
            true => (&PAIRS[..4], &own[..3]),
            false => (&PAIRS[..], &own[..]),
        };
        for &pair in pairs.iter().chain(own) {
            within(cases, pair, &record);
        }
    }
}

type Fault = fn(&mut Draft);

/// Of reading's refusals but 26, in their order.
const FAULTS: [Fault; 7] = [
    |d| d.length = Some(9),
    |d| d.version = 3,
    |d| d.steps = 1_441,
    |d| d.seconds = Some(901),
    |d| d.extra = 2,
    |d| d.cells[1].held = 8_001,
    |d| d.rows[2][6] = 1_000_001,
];

/// Each set of these faults, with limits that are enough, one cell too few, one byte too
/// few, and both.
fn orders(cases: &mut Cases) {
    for faults in 0..1_u32 << FAULTS.len() {
        let mut draft = samples::three_cells().timed(20);
        for (k, fault) in FAULTS.iter().enumerate() {
            if faults >> k & 1 == 1 {
                fault(&mut draft);
            }
        }
        let record = draft.encode();
        for pair in &about(3, record.len() as u64)[..4] {
            within(cases, *pair, &record);
        }
    }
    // Other numbers of cells than the record has: 3 and 4 come first.
    for n in [0, 1, 2, 4, 8, 9, 64, 65, 255] {
        let mut draft = samples::three_cells();
        draft.n = n;
        for pair in [(2, 172), (3, 172), (8, 4_096), (0, 0)] {
            within(cases, pair, &draft.encode());
        }
    }
}

/// Refusals 5 and 6 at their bounds and one past them.
const FIELDS: [Fault; 14] = [
    |d| d.gate_capacity = 1_000_000,
    |d| d.gate_capacity = 1_000_001,
    |d| d.gate_queue = 1_000_000_001,
    |d| d.cells[0].v = 1_001,
    |d| d.cells[1].b = 1_000,
    |d| d.cells[1].b = 1_001,
    |d| d.cells[2].b = 1,
    |d| d.cells[0].ramp = 2,
    |d| d.cells[1].queue = 1,
    |d| d.rows[0][0] = 1_000_000,
    |d| d.rows[0][0] = 1_000_001,
    |d| d.rows[1][3] = 1,
    |d| d.rows[2][6] = u32::MAX,
    |d| (d.cells[2].w, d.rows[0][2]) = (1_001, 1_000_001),
];

/// With limits that are enough, one too few of either, and greater ones.
fn fields(cases: &mut Cases) {
    for fault in FIELDS {
        for mut draft in [samples::three_cells(), samples::three_cells().timed(20)] {
            fault(&mut draft);
            let record = draft.encode();
            let own = about(3, record.len() as u64);
            for &pair in own[..3].iter().chain(&PAIRS[..4]) {
                within(cases, pair, &record);
            }
        }
    }
}

/// Bytes that end early, where no limit is looked at.
fn short(cases: &mut Cases) {
    let record = samples::printed().timed(20).encode();
    for count in [0, 1, 4, 5, 15, 16, 17, 18, 125] {
        let mut cut = record[..count].to_vec();
        for pair in [(0, 0), (2, 126), (u64::MAX, u64::MAX)] {
            within(cases, pair, &cut);
        }
        // With a true first field.
        if count >= 4 {
            cut[..4].copy_from_slice(&(count as u32 - 4).to_be_bytes());
            within(cases, (1, 3), &cut);
        }
    }
}

/// Some roads of group 4 with limits about their own, every third as version 2.
fn again(cases: &mut Cases, trials: &[Trial], dice: &mut Dice) {
    let roads = trials.iter().filter(|trial| trial.record.len() <= 6_000);
    for (k, trial) in roads.step_by(4).take(ROADS).enumerate() {
        let record = match k % 3 {
            2 => versions::timed(&trial.record, dice.between(1, 900) as u16),
            _ => trial.record.clone(),
        };
        for _ in 0..3 {
            cases.within(&random(record.clone(), dice));
        }
    }
}

/// Limits about a record's own, about the exercise program's, or any.
pub fn random(record: Vec<u8>, dice: &mut Dice) -> WithinInput {
    let (n, size) = (u64::from(record[5]), record.len() as u64);
    let any = dice.any_size((1 << 63) - 1);
    WithinInput {
        cells: dice.pick(&[n, n, n + 1, n - 1, 8, 64, u64::MAX, any]),
        bytes: dice.pick(&[size, size, size + 1, size - 1, 4_096, 65_536, u64::MAX, any]),
        record,
    }
}
