//! The cases in their order, as the groups add them.

use super::case::{
    Case, FillInput, LeafInput, PresentInput, StepInput, WeighInput, WriteInput, MAX_LANES,
    MAX_LIST, MAX_RECORD, MAX_ROW, MAX_ROWS, MAX_TARGET,
};
use super::joins::JoinInput;
use super::loads::LoadInput;
use super::puts::PutInput;
use super::streets::GrantInput;
use super::wanted_queues::WantedInput;
use super::within::WithinInput;
use reference::draft::Draft;
use reference::model::Road;
use reference::run;

#[derive(Default)]
pub struct Cases {
    pub list: Vec<Case>,
}

impl Cases {
    pub fn read(&mut self, record: &[u8]) {
        assert!(record.len() <= MAX_RECORD);
        let record = record.to_vec();
        self.list.push(Case::Read { record });
    }

    /// With all lanes open.
    pub fn run(&mut self, length: usize, record: &[u8]) {
        self.run_under(length, &[], record);
    }

    pub fn run_under(&mut self, length: usize, lanes: &[u8], record: &[u8]) {
        assert!(record.len() <= MAX_RECORD && length <= MAX_LIST);
        assert!(lanes.len() <= MAX_LANES);
        self.list.push(Case::Run {
            length,
            lanes: lanes.to_vec(),
            record: record.to_vec(),
        });
    }

    /// With all lanes open.
    pub fn judge(&mut self, schedule: &[u32], record: &[u8]) {
        self.judge_under(schedule, &[], record);
    }

    pub fn judge_under(&mut self, schedule: &[u32], lanes: &[u8], record: &[u8]) {
        assert!(record.len() <= MAX_RECORD && schedule.len() <= MAX_LIST);
        assert!(lanes.len() <= MAX_LANES);
        self.list.push(Case::Judge {
            schedule: schedule.to_vec(),
            lanes: lanes.to_vec(),
            record: record.to_vec(),
        });
    }

    pub fn step(&mut self, input: &StepInput) {
        assert!(input.row.len() <= MAX_ROW);
        self.list.push(Case::Step(Box::new(input.clone())));
    }

    pub fn write(&mut self, input: &WriteInput) {
        assert!(input.rows.len() <= MAX_ROWS && input.length <= MAX_TARGET);
        self.list.push(Case::Write(Box::new(input.clone())));
    }

    pub fn row(&mut self, n: u32, t: u32, bytes: &[u8]) {
        assert!(bytes.len() <= MAX_RECORD);
        let bytes = bytes.to_vec();
        self.list.push(Case::Row { n, t, bytes });
    }

    pub fn rows(&mut self, n: u32, steps: u32, length: usize, bytes: &[u8]) {
        assert!(bytes.len() <= MAX_RECORD && length <= MAX_ROWS);
        self.list.push(Case::Rows {
            n,
            steps,
            length,
            bytes: bytes.to_vec(),
        });
    }

    pub fn fill(&mut self, input: &FillInput) {
        assert!(input.record.len() <= MAX_RECORD && input.length <= MAX_LIST);
        assert!(input.lanes.len() <= MAX_LANES);
        self.list.push(Case::Fill(Box::new(input.clone())));
    }

    pub fn leaf(&mut self, input: LeafInput) {
        self.list.push(Case::Leaf(input));
    }

    pub fn capacity(&mut self, capacity: u32, built: u8, open: u8) {
        assert!(capacity <= Road::MAX_RATE);
        self.list.push(Case::Capacity {
            capacity,
            built,
            open,
        });
    }

    pub fn weigh(&mut self, input: &WeighInput) {
        assert!(input.record.len() <= MAX_RECORD && input.length <= MAX_LIST);
        assert!(input.lanes.len() <= MAX_LANES);
        self.list.push(Case::Weigh(Box::new(input.clone())));
    }

    pub fn present(&mut self, input: &PresentInput) {
        self.list.push(Case::Present(Box::new(input.clone())));
    }

    pub fn load(&mut self, seed: u32, peak: u32, length: usize) {
        assert!(length <= MAX_LIST);
        self.list.push(Case::Load(LoadInput { seed, peak, length }));
    }

    pub fn wanted(&mut self, input: &WantedInput) {
        assert!(input.arrivals.len() <= MAX_LIST && input.length <= MAX_LIST);
        self.list.push(Case::Wanted(input.clone()));
    }

    pub fn grant(&mut self, input: &GrantInput) {
        let counts = [input.guarantees.len(), input.wishes.len(), input.length];
        assert!(counts.iter().all(|&count| count <= MAX_LIST));
        self.list.push(Case::Grant(input.clone()));
    }

    pub fn put(&mut self, input: &PutInput) {
        assert!(input.record.len() <= MAX_RECORD);
        self.list.push(Case::Put(input.clone()));
    }

    pub fn join(&mut self, input: &JoinInput) {
        let counts = [input.upstream.len(), input.downstream.len()];
        assert!(counts.iter().all(|&count| count <= MAX_RECORD));
        assert!(input.length <= MAX_TARGET);
        self.list.push(Case::Join(input.clone()));
    }

    pub fn within(&mut self, input: &WithinInput) {
        assert!(input.record.len() <= MAX_RECORD);
        self.list.push(Case::Within(input.clone()));
    }

    /// These bytes read, run with a list of this length, and judged with a
    /// schedule of that length: the run's own rows, then zeros.
    pub fn all_ways(&mut self, length: usize, record: &[u8]) {
        self.read(record);
        self.run(length, record);
        self.judge(&own_rows(length, &[], record), record);
    }

    /// As `all_ways`, with the length that the draft's lists ask for.
    pub fn draft(&mut self, draft: &Draft) {
        self.all_ways(table_length(draft), &draft.encode());
    }
}

/// Length of the table of a draft's cells and rows.
pub fn table_length(draft: &Draft) -> usize {
    draft.rows.len() * (draft.cells.len() + 1)
}

/// The rows that running writes into a list of zeros.
pub fn own_rows(length: usize, lanes: &[u8], record: &[u8]) -> Vec<u32> {
    let mut list = vec![0; length];
    run::run(record, lanes, &mut list);
    list
}
