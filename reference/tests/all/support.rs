//! What several tests use.

use reference::answer::Answer;
use reference::draft::{CellDraft, Draft};
use reference::fill::Laws;
use reference::model::exits;
use reference::model::{Road, State};
use reference::record;
use reference::step::{Lanes, Stepped};
use reference::text;

/// The document's input.
pub const EXAMPLE: &str = "
steps 3
gate capacity 2000 queue 3000
cell v 500 w 250 b 750 ramp 0 jam 8000 capacity 2000 held 2000 queue 0
cell v 500 w 250 b 0 ramp 1 jam 8000 capacity 1000 held 4000 queue 1500
repeat 3 row gate 1000 ramp 2 arrivals 500 release 300
";

/// A number that running never writes.
pub const LENT: u32 = u32::MAX;

pub fn record_of(text: &str) -> Vec<u8> {
    text::record_of(text).unwrap_or_else(|error| panic!("{error}"))
}

/// One lane a cell.
pub const ONE_LANE: Lanes = [1; 64];

/// Stepping with all lanes open.
pub fn step(road: Road, state: State, row: &[u32]) -> Stepped {
    reference::step::step(road, state, row, &ONE_LANE, &ONE_LANE)
}

/// Running with all lanes open.
pub fn run(record: &[u8], list: &mut [u32]) -> Answer {
    reference::run::run(record, &[], list)
}

/// Judging with all lanes open.
pub fn judge(record: &[u8], schedule: &[u32]) -> Answer {
    reference::judge::judge(record, &[], schedule)
}

/// Filling with all lanes open.
pub fn fill(record: &mut [u8], laws: &Laws, list: &mut [u32]) -> Answer {
    reference::fill::fill(record, laws, &[], list)
}

/// Runs a record with a list of just the table's length.
pub fn run_whole(record: &[u8]) -> (Answer, Vec<u32>) {
    let reading = record::read(record);
    let mut list = vec![LENT; reading.steps * (reading.road.n + 1)];
    let answer = run(record, &mut list);
    (answer, list)
}

pub fn run_text(text: &str) -> (Answer, Vec<u32>) {
    run_whole(&record_of(text))
}

/// Number, step and place.
pub fn verdict(answer: &Answer) -> (u32, usize, usize) {
    (answer.number, answer.step, answer.place)
}

/// Total and exits of an answer.
pub fn sums(answer: &Answer) -> (u64, u64) {
    let total = u64::try_from(answer.state.total()).unwrap();
    (total, exits(&answer.road, &answer.state))
}

/// The document's input in values.
pub fn example_draft() -> Draft {
    let first = CellDraft {
        v: 500,
        w: 250,
        b: 750,
        ramp: 0,
        jam: 8000,
        capacity: 2000,
        held: 2000,
        queue: 0,
    };
    let second = CellDraft {
        b: 0,
        ramp: 1,
        capacity: 1000,
        held: 4000,
        queue: 1500,
        ..first
    };
    let row = vec![1000, 0, 0, 500, 300];
    Draft::new((2000, 3000), vec![first, second], vec![row; 3])
}

/// The lines of a text that say something, without comments.
pub fn without_comments(text: &str) -> String {
    let said = text.lines().map(|line| line.split('#').next().unwrap());
    let kept = said.map(str::trim_end).filter(|line| !line.is_empty());
    kept.map(|line| format!("{line}\n")).collect()
}
