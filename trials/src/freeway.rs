//! The operations that both implementations have, in the reference's own types.

use crate::onward::Onward;
use reference::answer::Answer;
use reference::load::Loaded;
use reference::longest::Queues;
use reference::model::{Road, Start, State};
use reference::put::Put;
use reference::record::{Caller, Reading};
use reference::step::{Lanes, Stepped};
use reference::wanted::{Asked, Wanted};
use reference::weigh::Weights;
use reference::write::Written;
use trials::cases::case::LawInput;

/// A law for each cell.
pub type Laws = [LawInput; Road::MAX_CELLS];

/// The numbers of a row, 0 past its end.
pub type Row = [u32; Road::MAX_ROW];

/// The answer of running, judging, history and filling.
pub struct Ended {
    pub answer: Answer,
    /// Total time spent.
    pub total: u64,
    pub present: u64,
    pub exits: u64,
}

/// What a study passes to history in addition to its record.
pub struct HistoryArguments<'a> {
    pub lanes: &'a [u8],
    pub schedule: &'a [u32],
    pub held: &'a mut [u32],
    pub queue: &'a mut [u32],
}

pub trait Freeway: Onward {
    fn read(&self, record: &[u8]) -> Reading;
    fn read_within(&self, record: &[u8], caller: Caller) -> Reading;
    fn run(&self, record: &[u8], lanes: &[u8], list: &mut [u32]) -> Ended;
    /// Runs, and gives the weighted sum of present over the steps done.
    fn run_weighted(
        &self,
        record: &[u8],
        lanes: &[u8],
        weights: &Weights,
        list: &mut [u32],
    ) -> (Ended, u64);
    /// Runs, and gives the longest queues over the steps done.
    fn run_longest(&self, record: &[u8], lanes: &[u8], list: &mut [u32]) -> (Ended, Queues);
    fn judge(&self, record: &[u8], lanes: &[u8], schedule: &[u32]) -> Ended;
    /// Judges, and puts what each place holds and what waits at each ramp after each
    /// step made into two lent lists.
    fn history(&self, record: &[u8], arguments: HistoryArguments) -> Ended;
    fn fill(&self, record: &mut [u8], laws: &Laws, lanes: &[u8], list: &mut [u32]) -> Ended;
    /// Fills, and gives the longest queues over the steps done.
    fn fill_longest(
        &self,
        record: &mut [u8],
        laws: &Laws,
        lanes: &[u8],
        list: &mut [u32],
    ) -> (Ended, Queues);
    fn step(&self, road: Road, state: State, row: &[u32], built: &Lanes, open: &Lanes) -> Stepped;
    fn write(
        &self,
        road: &Road,
        steps: usize,
        start: &Start,
        rows: &[u32],
        target: &mut [u8],
    ) -> Written;
    fn rows(&self, record: &[u8], n: usize, steps: usize, list: &mut [u32]) -> usize;
    fn row(&self, record: &[u8], n: usize, step: usize) -> Row;
    fn wish(&self, law: &LawInput, last: u32, entered: u32, held: u32) -> f64;
    fn release(&self, wish: f64, cap: u32) -> u32;
    /// What a state holds, of a road of at most 64 cells.
    fn present(&self, road: &Road, state: &State) -> u64;
    fn on_road(&self, road: &Road, state: &State) -> u64;
    fn at_ramps(&self, road: &Road, state: &State) -> u64;
    /// Present, each place and ramp queue times its weight.
    fn weighted(&self, road: &Road, state: &State, weights: &Weights) -> u64;
    /// What has left, of a road within its limits.
    fn exits(&self, road: &Road, state: &State) -> u64;
    fn total(&self, state: &State) -> u64;
    fn vehicle_seconds(&self, seconds: u16, state: &State) -> u64;
    /// The flow rules of a place within its limits.
    fn demand(&self, speed: u16, capacity: u32, held: u32) -> u32;
    fn gate_demand(&self, capacity: u32, queue: u32) -> u32;
    fn supply(&self, wave: u16, capacity: u32, jam: u32, held: u32) -> u32;
    fn room(&self, supply: u32, release: u32) -> u32;
    fn onward(&self, share: u16, cumulative: u32) -> u64;
    fn entering(&self, share: u16, cumulative: u32, outflow: u32) -> u64;
    fn outflow(&self, share: u16, cumulative: u32, room: u32, demand: u32) -> u32;
    fn outflow_by_halves(&self, share: u16, cumulative: u32, room: u32, demand: u32) -> u32;
    fn open_capacity(&self, capacity: u32, built: u8, open: u8) -> u32;
    fn load(&self, seed: u32, peak: u32, list: &mut [u32]) -> Loaded;
    fn wanted(&self, asked: Asked, table: &mut [u32]) -> Wanted;
    fn grant(&self, limit: u32, guarantees: &[u32], wishes: &[u32], grants: &mut [u32]) -> u32;
    fn put(&self, record: &mut [u8], step: usize, cell: usize, release: u32) -> Put;
    fn join(&self, upstream: &[u8], downstream: &[u8], share: u16, target: &mut [u8]) -> Written;
}
