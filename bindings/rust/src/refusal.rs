//! The refusals, and the operations that give them; made by tools/refusals --write from docs/refusals.tsv.

/// Why an operation was refused: the refusals of docs/MODEL.md. [`Refusal::number`] gives their numbers.
#[derive(Clone, Copy, Debug, PartialEq, Eq, Hash)]
#[non_exhaustive]
pub enum Refusal {
    /// 1: fewer than 16 bytes (18 where byte 4 is 2), more than 65,536, or a first field that is not the count of bytes after it.
    Length,
    /// 2: a version other than 1 or 2.
    Version,
    /// 3: n is not 1 to 64, or T not 1 to 1,440.
    Counts,
    /// 4: a size other than 16 + 24n + T × (4 + 8n) bytes, in version 2 two more.
    Size,
    /// 5: the gate or a cell out of its limits, a ramp mark above 1, held above the jam count, a queue without a ramp, or a last share other than 0.
    Limits,
    /// 6: a row's number above 1,000,000, or one other than 0 for a cell without a ramp.
    Rates,
    /// 7: the row's length, the road, the row, n, the steps done or the state breaks a limit.
    StepInput,
    /// 8: 1,440 steps are done.
    StepsDone,
    /// 9: a release above its ramp's queue and this step's arrivals there together.
    ReleaseAboveQueue,
    /// 10: a release above its cell's supply.
    ReleaseAboveSupply,
    /// 11: the list for the outflows is shorter than T × (n + 1).
    ListLength,
    /// 12: the schedule is not of length T × (n + 1).
    ScheduleLength,
    /// 13: an outflow above the demand of its place.
    OutflowAboveDemand,
    /// 14: an outflow that lets too much into the next cell.
    EnteringAboveRoom,
    /// 15: the target is shorter than the record.
    TargetLength,
    /// 16: a ramp's meter law has a number that isn't finite.
    LawNumbers,
    /// 17: a table of lanes that is neither empty nor of n × (T + 1) bytes.
    LanesLength,
    /// 18: no lane built, or an open lane that is not built.
    Lanes,
    /// 19: in version 2, the step's seconds are not 1 to 900.
    Seconds,
    /// 20: of two roads to join: T, the version or the step's seconds differ.
    RoadsDiffer,
    /// 21: of two roads to join: the second gate has a queue or an arrival.
    SecondGate,
    /// 22: of two roads to join: more than 64 cells together, or a joined record of more than 65,536 bytes.
    JoinedSize,
    /// 23: of a wanted queue: no step, more than 1,440, lists of unequal length, a rate or arrival above 1,000,000, a start or ceiling above 1,000,000,000.
    WantedInput,
    /// 24: of a street: ramps not 1 to 8, lists of unequal length, a guarantee, wish or limit above 1,000,000, guarantees that together pass the limit.
    StreetInput,
    /// 25: a peak above 1,000,000.
    Peak,
    /// 26: more cells or bytes than the caller takes (the exercise program: 8 cells and 4,096 bytes).
    CallerLimits,
    /// 27: the arrivals are no whole number of tables (list 1), or the answers have fewer than 75 numbers a study (list 2).
    ManyLengths,
    /// A number that this version of the crate has no name for.
    Unknown(u64),
}

/// What was called. A run with weights or with its longest queues is a run.
#[derive(Clone, Copy, Debug, PartialEq, Eq, Hash)]
#[non_exhaustive]
pub enum Operation {
    /// `nobyaluk_read` of the boundary.
    Read,
    /// `nobyaluk_read_within` of the boundary.
    ReadWithin,
    /// `nobyaluk_run` of the boundary.
    Run,
    /// `nobyaluk_fill` of the boundary.
    Fill,
    /// `nobyaluk_judge` of the boundary.
    Judge,
    /// `nobyaluk_history` of the boundary.
    History,
    /// `nobyaluk_put` of the boundary.
    Put,
    /// `nobyaluk_join` of the boundary.
    Join,
    /// `nobyaluk_run_many` of the boundary.
    RunMany,
    /// `nobyaluk_fill_many` of the boundary.
    FillMany,
    /// `nobyaluk_run_on` of the boundary.
    RunOn,
    /// `nobyaluk_fill_on` of the boundary.
    FillOn,
    /// `nobyaluk_judge_on` of the boundary.
    JudgeOn,
    /// `nobyaluk_history_on` of the boundary.
    HistoryOn,
    /// `nobyaluk_write` of the boundary.
    Write,
    /// `nobyaluk_step` of the boundary.
    Step,
    /// `nobyaluk_wanted` of the boundary.
    Wanted,
    /// `nobyaluk_grant` of the boundary.
    Grant,
    /// `nobyaluk_load` of the boundary.
    Load,
}

/// What the place of a refusal is.
#[derive(Clone, Copy, Debug, PartialEq, Eq)]
pub(crate) enum Where {
    None,
    Place,
    Cell,
    Step,
    StepAndCell,
    StepAndPlace,
    List,
}

use Operation as O;
use Refusal as R;

/// Every refusal, by its number.
#[rustfmt::skip]
pub(crate) const REFUSALS: [Refusal; 27] = [
    R::Length,
    R::Version,
    R::Counts,
    R::Size,
    R::Limits,
    R::Rates,
    R::StepInput,
    R::StepsDone,
    R::ReleaseAboveQueue,
    R::ReleaseAboveSupply,
    R::ListLength,
    R::ScheduleLength,
    R::OutflowAboveDemand,
    R::EnteringAboveRoom,
    R::TargetLength,
    R::LawNumbers,
    R::LanesLength,
    R::Lanes,
    R::Seconds,
    R::RoadsDiffer,
    R::SecondGate,
    R::JoinedSize,
    R::WantedInput,
    R::StreetInput,
    R::Peak,
    R::CallerLimits,
    R::ManyLengths,
];

/// A row of the table: the refusal, the operations, what the place is, the words.
pub(crate) type Row = (Refusal, &'static [Operation], Where, &'static str);

#[rustfmt::skip]
pub(crate) const ROWS: [Row; 37] = [
    (R::Length, &[O::Read, O::ReadWithin, O::Run, O::Fill, O::Judge, O::History, O::Put, O::Join, O::RunMany, O::FillMany, O::RunOn, O::FillOn, O::JudgeOn, O::HistoryOn], Where::None,
        "fewer than 16 bytes (18 where byte 4 is 2), more than 65,536, or a first field that is not the count of bytes after it"),
    (R::Length, &[O::Write], Where::None,
        "a record of more than 65,536 bytes"),
    (R::Version, &[O::Read, O::ReadWithin, O::Run, O::Fill, O::Judge, O::History, O::Put, O::Join, O::Write, O::RunMany, O::FillMany, O::RunOn, O::FillOn, O::JudgeOn, O::HistoryOn], Where::None,
        "a version other than 1 or 2"),
    (R::Counts, &[O::Read, O::ReadWithin, O::Run, O::Fill, O::Judge, O::History, O::Put, O::Join, O::Write, O::RunMany, O::FillMany, O::RunOn, O::FillOn, O::JudgeOn, O::HistoryOn], Where::None,
        "n is not 1 to 64, or T not 1 to 1,440"),
    (R::Size, &[O::Read, O::ReadWithin, O::Run, O::Fill, O::Judge, O::History, O::Put, O::Join, O::RunMany, O::FillMany, O::RunOn, O::FillOn, O::JudgeOn, O::HistoryOn], Where::None,
        "a size other than 16 + 24n + T × (4 + 8n) bytes, in version 2 two more"),
    (R::Size, &[O::Write], Where::None,
        "the rows do not have T × (1 + 2n) numbers"),
    (R::Limits, &[O::Read, O::ReadWithin, O::Run, O::Fill, O::Judge, O::History, O::Write, O::RunMany, O::FillMany, O::RunOn, O::FillOn, O::JudgeOn, O::HistoryOn], Where::Place,
        "the gate or a cell out of its limits, a ramp mark above 1, held above the jam count, a queue without a ramp, or a last share other than 0"),
    (R::Limits, &[O::Put], Where::Place,
        "a cell without a ramp, or that is not on the road; or in the record, the gate or a cell out of its limits"),
    (R::Limits, &[O::Join], Where::Place,
        "the joint's share above 1,000; or in one of the two records, the gate or a cell out of its limits"),
    (R::Rates, &[O::Read, O::ReadWithin, O::Run, O::Fill, O::Judge, O::History, O::Join, O::Write, O::RunMany, O::FillMany, O::RunOn, O::FillOn, O::JudgeOn, O::HistoryOn], Where::Step,
        "a row's number above 1,000,000, or one other than 0 for a cell without a ramp"),
    (R::Rates, &[O::Put], Where::Step,
        "a step from T on, or a release above 1,000,000; or in the record, a row's number above 1,000,000, or one other than 0 for a cell without a ramp"),
    (R::StepInput, &[O::Step], Where::None,
        "the row's length, the road, the row, n, the steps done or the state breaks a limit"),
    (R::StepInput, &[O::RunOn, O::FillOn, O::JudgeOn, O::HistoryOn], Where::None,
        "the state given breaks a limit"),
    (R::StepsDone, &[O::Step], Where::None,
        "1,440 steps are done"),
    (R::StepsDone, &[O::RunOn, O::FillOn, O::JudgeOn, O::HistoryOn], Where::None,
        "with the steps done, the record makes more than 1,440"),
    (R::ReleaseAboveQueue, &[O::Run, O::Judge, O::History, O::RunOn, O::JudgeOn, O::HistoryOn], Where::StepAndCell,
        "a release above its ramp's queue and this step's arrivals there together"),
    (R::ReleaseAboveQueue, &[O::Step], Where::Cell,
        "a release above its ramp's queue and this step's arrivals there together"),
    (R::ReleaseAboveSupply, &[O::Run, O::Judge, O::History, O::RunOn, O::JudgeOn, O::HistoryOn], Where::StepAndCell,
        "a release above its cell's supply"),
    (R::ReleaseAboveSupply, &[O::Step], Where::Cell,
        "a release above its cell's supply"),
    (R::ListLength, &[O::Run, O::Fill, O::RunOn, O::FillOn], Where::None,
        "the list for the outflows is shorter than T × (n + 1)"),
    (R::ListLength, &[O::History, O::HistoryOn], Where::None,
        "a list for the states is shorter than T × (n + 1)"),
    (R::ScheduleLength, &[O::Judge, O::History, O::JudgeOn, O::HistoryOn], Where::None,
        "the schedule is not of length T × (n + 1)"),
    (R::OutflowAboveDemand, &[O::Judge, O::History, O::JudgeOn, O::HistoryOn], Where::StepAndPlace,
        "an outflow above the demand of its place"),
    (R::EnteringAboveRoom, &[O::Judge, O::History, O::JudgeOn, O::HistoryOn], Where::StepAndPlace,
        "an outflow that lets too much into the next cell"),
    (R::TargetLength, &[O::Write, O::Join], Where::None,
        "the target is shorter than the record"),
    (R::LawNumbers, &[O::Fill, O::FillOn], Where::Cell,
        "a ramp's meter law has a number that isn't finite"),
    (R::LanesLength, &[O::Run, O::Fill, O::Judge, O::History, O::RunOn, O::FillOn, O::JudgeOn, O::HistoryOn], Where::None,
        "a table of lanes that is neither empty nor of n × (T + 1) bytes"),
    (R::Lanes, &[O::Step, O::Run, O::Fill, O::Judge, O::History, O::RunOn, O::FillOn, O::JudgeOn, O::HistoryOn], Where::Cell,
        "no lane built, or an open lane that is not built"),
    (R::Seconds, &[O::Read, O::ReadWithin, O::Run, O::Fill, O::Judge, O::History, O::Put, O::Join, O::Write, O::RunMany, O::FillMany, O::RunOn, O::FillOn, O::JudgeOn, O::HistoryOn], Where::None,
        "in version 2, the step's seconds are not 1 to 900"),
    (R::RoadsDiffer, &[O::Join], Where::None,
        "of two roads to join: T, the version or the step's seconds differ"),
    (R::SecondGate, &[O::Join], Where::None,
        "of two roads to join: the second gate has a queue or an arrival"),
    (R::JoinedSize, &[O::Join], Where::None,
        "of two roads to join: more than 64 cells together, or a joined record of more than 65,536 bytes"),
    (R::WantedInput, &[O::Wanted], Where::None,
        "of a wanted queue: no step, more than 1,440, lists of unequal length, a rate or arrival above 1,000,000, a start or ceiling above 1,000,000,000"),
    (R::StreetInput, &[O::Grant], Where::None,
        "of a street: ramps not 1 to 8, lists of unequal length, a guarantee, wish or limit above 1,000,000, guarantees that together pass the limit"),
    (R::Peak, &[O::Load], Where::None,
        "a peak above 1,000,000"),
    (R::CallerLimits, &[O::ReadWithin], Where::None,
        "more cells or bytes than the caller takes (the exercise program: 8 cells and 4,096 bytes)"),
    (R::ManyLengths, &[O::RunMany, O::FillMany], Where::List,
        "the arrivals are no whole number of tables (list 1), or the answers have fewer than 75 numbers a study (list 2)"),
];
