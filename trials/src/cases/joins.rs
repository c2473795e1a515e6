//! Group 15: two roads joined. Reading's refusals of either, 5 for the joint's share,
//! 20, 21, 22 and 15, at their bounds and several at once; records cut and joined again.

use super::altered::{alter_length, alter_record, near};
use super::case::MAX_TARGET;
use super::cells::STYLES;
use super::dice::Dice;
use super::list::Cases;
use super::samples;
use super::trial::{self, Trial};
use super::versions;
use super::writes;
use reference::draft::Draft;
use reference::join;
use reference::model::Road;
use reference::record;

/// Longer records are not cut here.
const MAX_BYTES: usize = 2_500;
/// The number of roads of group 4 that are cut.
const ROADS: usize = 60;
/// Random pairs of roads.
const RANDOM: usize = 150;

/// What joining takes; the target is lent with `length` bytes.
#[derive(Clone, Debug, PartialEq, Eq)]
pub struct JoinInput {
    pub upstream: Vec<u8>,
    pub downstream: Vec<u8>,
    pub share: u16,
    pub length: usize,
}

impl JoinInput {
    /// The joined record, if there is no refusal.
    pub fn joined(&self) -> Option<Vec<u8>> {
        let mut target = vec![0; self.length];
        let written = join::join(&self.upstream, &self.downstream, self.share, &mut target);
        target.truncate(written.count);
        (written.number == 0).then_some(target)
    }

    /// Changes it in one way.
    pub fn alter(&mut self, dice: &mut Dice) {
        match dice.upto(9) {
            0 => self.share = near(u32::from(self.share), dice) as u16,
            1 => alter_length(&mut self.length, MAX_TARGET, dice),
            2 => std::mem::swap(&mut self.upstream, &mut self.downstream),
            3..=5 => alter_record(&mut self.upstream, dice),
            _ => alter_record(&mut self.downstream, dice),
        }
    }
}

/// Two roads still in values.
struct Pair {
    up: Draft,
    down: Draft,
    share: u16,
    /// Bytes of the target beyond the joined record, or lacking.
    room: isize,
}

impl Pair {
    /// With a target of just the size. Nobody is at the second gate.
    fn new(up: Draft, mut down: Draft, share: u16) -> Pair {
        down.gate_queue = 0;
        for row in &mut down.rows {
            row[0] = 0;
        }
        let room = 0;
        Pair {
            up,
            down,
            share,
            room,
        }
    }

    fn timed(self, seconds: u16) -> Pair {
        Pair {
            up: self.up.timed(seconds),
            down: self.down.timed(seconds),
            ..self
        }
    }

    fn input(&self) -> JoinInput {
        let n = self.up.cells.len() + self.down.cells.len();
        let size = record::size(self.up.version, n, self.up.rows.len());
        JoinInput {
            upstream: self.up.encode(),
            downstream: self.down.encode(),
            share: self.share,
            length: size.saturating_add_signed(self.room).min(MAX_TARGET),
        }
    }
}

/// `trials` are the roads of group 4.
pub fn add(cases: &mut Cases, trials: &[Trial]) {
    let mut dice = Dice::new(16);
    shares(cases);
    targets(cases);
    changed(cases, &DIFFERENT);
    many_steps(cases);
    changed(cases, &GATES);
    counts(cases);
    sizes(cases);
    unread(cases);
    several(cases);
    again(cases, trials, &mut dice);
    for k in 0..RANDOM {
        cases.join(&random(k, &mut dice));
    }
}

/// Three cells before two others, with three steps. All numbers differ from their
/// neighbours'.
fn sound() -> Pair {
    let (mut up, mut down) = (samples::three_cells(), samples::printed());
    for (k, number) in up.rows.iter_mut().flatten().enumerate() {
        *number += u32::from(*number > 0) * k as u32;
    }
    for (k, number) in down.rows.iter_mut().flatten().enumerate() {
        *number += u32::from(*number > 0) * 3 * k as u32;
    }
    down.gate_capacity = 1_234;
    down.cells[0].v = 431;
    Pair::new(up, down, 650)
}

type Change = fn(&mut Pair);

/// In both versions.
fn changed(cases: &mut Cases, changes: &[Change]) {
    for change in changes {
        for mut pair in [sound(), sound().timed(20)] {
            change(&mut pair);
            cases.join(&pair.input());
        }
    }
}

/// At the bound, one past it, and numbers that agree with small ones in a byte.
fn shares(cases: &mut Cases) {
    for share in [
        0, 1, 255, 256, 650, 999, 1_000, 1_001, 1_002, 1_256, 32_768, 65_280, 65_535,
    ] {
        for mut pair in [sound(), sound().timed(900), roads(1, 1, 1), roads(9, 2, 2)] {
            pair.share = share;
            cases.join(&pair.input());
        }
    }
}

/// Targets too short, of just the size, and longer.
fn targets(cases: &mut Cases) {
    for room in [-200, -18, -16, -4, -2, -1, 0, 1, 2, 3, 30, 1_000, 9_000] {
        for mut pair in [sound(), sound().timed(20), roads(1, 1, 1).timed(1)] {
            pair.room = room;
            cases.join(&pair.input());
        }
    }
    for length in [0, 1, 4, 16, 18] {
        let mut input = sound().input();
        input.length = length;
        cases.join(&input);
    }
}

fn longer(draft: &mut Draft) {
    draft.rows.push(vec![0; 1 + 2 * draft.cells.len()]);
    draft.steps += 1;
}

fn shorter(draft: &mut Draft) {
    draft.rows.pop();
    draft.steps -= 1;
}

fn timed(draft: &mut Draft, seconds: u16) {
    (draft.version, draft.seconds) = (2, Some(seconds));
}

fn untimed(draft: &mut Draft) {
    (draft.version, draft.seconds) = (1, None);
}

/// Steps that agree in their last byte.
fn many_steps(cases: &mut Cases) {
    for (steps, other) in [(1, 257), (257, 1), (256, 512), (257, 257)] {
        let mut pair = roads(1, 2, steps);
        pair.down = roads(1, 2, other).down;
        cases.join(&pair.input());
    }
}

/// Refusal 20, and changes of both roads alike.
const DIFFERENT: [Change; 15] = [
    |x| longer(&mut x.up),
    |x| longer(&mut x.down),
    |x| shorter(&mut x.up),
    |x| shorter(&mut x.down),
    |x| (longer(&mut x.up), longer(&mut x.down)).1,
    |x| timed(&mut x.up, 20),
    |x| timed(&mut x.down, 20),
    |x| untimed(&mut x.up),
    |x| untimed(&mut x.down),
    |x| timed(&mut x.up, 276),
    |x| timed(&mut x.down, 21),
    |x| (timed(&mut x.up, 1), timed(&mut x.down, 900)).1,
    |x| (timed(&mut x.up, 900), timed(&mut x.down, 900)).1,
    |x| (timed(&mut x.up, 256), timed(&mut x.down, 512)).1,
    |x| (longer(&mut x.up), timed(&mut x.down, 3)).1,
];

/// Refusal 21, and what the first gate may have.
const GATES: [Change; 14] = [
    |x| x.down.gate_queue = 1,
    |x| x.down.gate_queue = 256,
    |x| x.down.gate_queue = 1 << 16,
    |x| x.down.gate_queue = 1_000_000_000,
    |x| x.down.rows[0][0] = 1,
    |x| x.down.rows[1][0] = 256,
    |x| x.down.rows[2][0] = 1 << 16,
    |x| x.down.rows[2][0] = 1_000_000,
    |x| (x.down.gate_queue, x.down.rows[1][0]) = (5, 5),
    |x| x.down.gate_capacity = 0,
    |x| x.down.gate_capacity = 1_000_000,
    |x| (x.up.gate_capacity, x.up.gate_queue) = (1_000_000, 1_000_000_000),
    |x| (x.up.gate_capacity, x.up.gate_queue) = (0, 0),
    |x| x.up.rows[2][0] = 1_000_000,
];

/// Roads of like cells and rows.
fn roads(n: usize, other: usize, steps: usize) -> Pair {
    Pair::new(samples::even(n, steps), samples::even(other, steps), 1_000)
}

/// 64 cells and one more, and twice as many.
fn counts(cases: &mut Cases) {
    for (n, other) in [
        (1, 1),
        (1, 62),
        (1, 63),
        (63, 1),
        (32, 32),
        (1, 64),
        (64, 1),
        (33, 32),
        (63, 63),
        (64, 64),
    ] {
        cases.join(&roads(n, other, 2).input());
        cases.join(&roads(n, other, 1).timed(7).input());
    }
}

/// 65,536 bytes of version 1, which are 65,538 of version 2; the next sizes below and
/// above, the most steps, and both limits at once.
fn sizes(cases: &mut Cases) {
    for (n, other, steps) in [(1, 63, 124), (40, 24, 124), (20, 1, 378), (31, 32, 126)] {
        cases.join(&roads(n, other, steps).input());
        cases.join(&roads(n, other, steps).timed(20).input());
    }
    for (n, other, steps) in [
        (7, 7, 562),
        (1, 55, 142),
        (3, 3, 1_257),
        (3, 3, 1_258),
        (1, 4, 1_440),
        (3, 3, 1_440),
        (32, 32, 125),
        (1, 64, 124),
        (64, 64, 124),
    ] {
        cases.join(&roads(n, other, steps).input());
    }
    cases.join(&roads(5, 1, 1_257).timed(900).input());
    // An arrival in the last of many steps; 65,536 bytes with one too few lent.
    let mut late = roads(1, 1, Road::MAX_STEPS);
    late.down.rows[Road::MAX_STEPS - 1][0] = 1;
    cases.join(&late.input());
    let mut full = roads(32, 32, 124);
    for room in [-1, 40] {
        full.room = room;
        cases.join(&full.input());
    }
}

type Spoil = fn(&mut Draft);

/// One of each of reading's refusals, and some of 5 and 6 at other places.
const SPOILS: [Spoil; 14] = [
    |d| d.length = Some(1),
    |d| d.version = 3,
    |d| d.n = 0,
    |d| d.n = 65,
    |d| d.steps = 1_441,
    |d| timed(d, 901),
    |d| d.extra = 1,
    |d| d.cut = 4,
    |d| d.gate_queue = 1_000_000_001,
    |d| d.cells[0].v = 1_001,
    |d| d.cells[1].held = 8_001,
    |d| d.cells.last_mut().unwrap().b = 1,
    |d| d.rows[0][0] = 1_000_001,
    |d| d.rows[2][2] = 1_000_001,
];

/// Either road spoilt, both, and bytes that end early.
fn unread(cases: &mut Cases) {
    for (k, spoil) in SPOILS.into_iter().enumerate() {
        let (mut one, mut other, mut both) = (sound(), sound(), sound());
        spoil(&mut one.up);
        spoil(&mut other.down);
        spoil(&mut both.up);
        SPOILS[(k + 5) % SPOILS.len()](&mut both.down);
        for mut pair in [one, other, both] {
            cases.join(&pair.input());
            // With 5 and 15, and with 20 and 21.
            (pair.share, pair.room) = (1_001, -1);
            cases.join(&pair.input());
            pair.share = 0;
            longer(&mut pair.up);
            pair.down.rows[1][0] = 9;
            cases.join(&pair.input());
        }
    }
    let sound = sound().input();
    for count in [0, 1, 4, 5, 15, 16, 17, 64, 100] {
        let mut short = sound.clone();
        short.upstream.truncate(count);
        cases.join(&short);
        let mut short = sound.clone();
        short.downstream.truncate(count);
        cases.join(&short);
        short.upstream.clear();
        cases.join(&short);
    }
}

/// Each set of 5, 20, 21, 22 and 15, with 22 by cells, and those with 22 by bytes.
fn several(cases: &mut Cases) {
    for faults in 0..32_u8 {
        match faults >> 3 & 1 == 1 {
            true => {
                cases.join(&with_faults(roads(64, 1, 2), faults).input());
                cases.join(&with_faults(roads(40, 24, 125), faults).input());
            }
            false => cases.join(&with_faults(roads(63, 1, 2), faults).input()),
        }
    }
}

/// Bit 0 is 5, bit 1 20, bit 2 21, bit 4 15; 22 is the roads' own.
fn with_faults(mut pair: Pair, faults: u8) -> Pair {
    let has = |k: u8| faults >> k & 1 == 1;
    if has(0) {
        pair.share = 1_001;
    }
    if has(1) {
        match faults % 3 {
            0 => shorter(&mut pair.down),
            1 => timed(&mut pair.down, 5),
            _ => shorter(&mut pair.up),
        }
    }
    if has(2) {
        match faults % 4 {
            0 => pair.down.gate_queue = 1,
            _ => pair.down.rows.last_mut().unwrap()[0] = 1,
        }
    }
    if has(4) {
        pair.room = -60_000;
    }
    pair
}

/// Records cut in two and joined again: small ones at every cell, and some short roads
/// of group 4, every third of them as version 2.
fn again(cases: &mut Cases, trials: &[Trial], dice: &mut Dice) {
    for draft in [
        samples::printed(),
        samples::three_cells(),
        samples::three_cells().timed(20),
        samples::even(64, 2),
    ] {
        for cell in 1..draft.cells.len() {
            cases.join(&cut_at(&draft.encode(), cell, 0));
        }
    }
    let short = trials
        .iter()
        .filter(|trial| trial.record.len() <= MAX_BYTES && trial.n > 1);
    for (k, trial) in short.step_by(3).take(ROADS).enumerate() {
        let record = match k % 3 {
            2 => versions::timed(&trial.record, dice.between(1, 900) as u16),
            _ => trial.record.clone(),
        };
        for _ in 0..2 {
            cases.join(&cut_somewhere(&record, dice));
        }
    }
}

/// A record cut after a cell, with the cell's own share.
fn cut_at(bytes: &[u8], cell: usize, room: isize) -> JoinInput {
    let (upstream, downstream, share) = join::cut(bytes, cell);
    JoinInput {
        upstream,
        downstream,
        share,
        length: bytes.len().saturating_add_signed(room).min(MAX_TARGET),
    }
}

/// A record of at least two cells, that reads, cut somewhere. The target is mostly of
/// just its size.
pub fn cut_somewhere(bytes: &[u8], dice: &mut Dice) -> JoinInput {
    let last = record::cells_of(bytes) as u32 - 1;
    let cell = dice.between(1, last) as usize;
    cut_at(bytes, cell, dice.pick(&[0, 0, 0, 0, 1, 25, -1]))
}

/// Two random roads with any rows that 6 allows, and often a fault or two.
pub fn random(k: usize, dice: &mut Dice) -> JoinInput {
    let most = Road::MAX_CELLS as u32;
    let first = dice.between(1, most - 1);
    let (n, other) = match dice.upto(15) {
        0 => (first, most - first),
        1 => (first, most + 1 - first),
        _ => (dice.between(1, 6), dice.between(1, 6)),
    };
    let steps = dice.between(1, 5) as usize;
    let up = road(k, n as usize, steps, dice);
    let down = road(k + 1, other as usize, steps, dice);
    let mut pair = Pair::new(up, down, dice.thousandths(0, Road::WHOLE));
    if dice.one_in(3) {
        pair = pair.timed(dice.between(1, 900) as u16);
    }
    pair.room = dice.upto(30) as isize;
    for _ in 0..dice.pick(&[0, 0, 0, 0, 1, 1, 1, 2, 3]) {
        spoil(&mut pair, dice);
    }
    pair.input()
}

fn road(k: usize, n: usize, steps: usize, dice: &mut Dice) -> Draft {
    let mut draft = STYLES[k % STYLES.len()].road(n, dice);
    let (road, _) = trial::start(&draft);
    draft.rows = (0..steps).map(|_| writes::any_row(&road, dice)).collect();
    draft.steps = steps as u16;
    draft
}

/// A fault that joining has, or something of one road that reading refuses.
fn spoil(pair: &mut Pair, dice: &mut Dice) {
    let step = dice.upto(pair.down.rows.len() as u64 - 1) as usize;
    let any = dice.any_size(u64::from(u32::MAX)) as u32;
    let (up, down) = (&mut pair.up, &mut pair.down);
    match dice.upto(9) {
        0 => pair.share = dice.pick(&[1_000, 1_001, 65_535, any as u16]),
        1 => longer(if dice.one_in(2) { up } else { down }),
        2 => timed(up, dice.between(1, 900) as u16),
        3 => timed(down, dice.between(1, 900) as u16),
        4 => down.gate_queue = dice.between(0, Road::MAX_START_QUEUE),
        5 | 6 => down.rows[step][0] = dice.between(0, Road::MAX_RATE),
        7 => pair.room = -1 - dice.upto(40) as isize,
        8 => spoil_one(up, any, dice),
        _ => spoil_one(down, any, dice),
    }
}

/// Another number somewhere in a road, often out of range.
fn spoil_one(draft: &mut Draft, number: u32, dice: &mut Dice) {
    let cell = dice.upto(draft.cells.len() as u64 - 1) as usize;
    let step = dice.upto(draft.rows.len() as u64 - 1) as usize;
    match dice.upto(7) {
        0 => draft.extra = dice.between(1, 9) as usize,
        1 => draft.version = dice.pick(&[0, 1, 2, 3]),
        2 => draft.n = dice.pick(&[0, 1, 65, number as u8]),
        3 => draft.gate_queue = number,
        4 => draft.cells[cell].b = number as u16,
        5 => draft.cells[cell].jam = number,
        6 => draft.cells[cell].held = number,
        _ => draft.rows[step][2 * cell + 1] = number,
    }
}
