//! The refusals by name, with their words for each operation; made by tools/refusals --write from docs/refusals.tsv.

/// fewer than 16 bytes (18 where byte 4 is 2), more than 65,536, or a first field that is not the count of bytes after it
pub const LENGTH: u32 = 1;
/// a version other than 1 or 2
pub const VERSION: u32 = 2;
/// n is not 1 to 64, or T not 1 to 1,440
pub const COUNTS: u32 = 3;
/// a size other than 16 + 24n + T × (4 + 8n) bytes, in version 2 two more
pub const SIZE: u32 = 4;
/// the gate or a cell out of its limits, a ramp mark above 1, held above the jam count, a queue without a ramp, or a last share other than 0
pub const LIMITS: u32 = 5;
/// a row's number above 1,000,000, or one other than 0 for a cell without a ramp
pub const RATES: u32 = 6;
/// the row's length, the road, the row, n, the steps done or the state breaks a limit
pub const STEP_INPUT: u32 = 7;
/// 1,440 steps are done
pub const STEPS_DONE: u32 = 8;
/// a release above its ramp's queue and this step's arrivals there together
pub const RELEASE_ABOVE_QUEUE: u32 = 9;
/// a release above its cell's supply
pub const RELEASE_ABOVE_SUPPLY: u32 = 10;
/// the list for the outflows is shorter than T × (n + 1)
pub const LIST_LENGTH: u32 = 11;
/// the schedule is not of length T × (n + 1)
pub const SCHEDULE_LENGTH: u32 = 12;
/// an outflow above the demand of its place
pub const OUTFLOW_ABOVE_DEMAND: u32 = 13;
/// an outflow that lets too much into the next cell
pub const ENTERING_ABOVE_ROOM: u32 = 14;
/// the target is shorter than the record
pub const TARGET_LENGTH: u32 = 15;
/// a ramp's meter law has a number that isn't finite
pub const LAW_NUMBERS: u32 = 16;
/// a table of lanes that is neither empty nor of n × (T + 1) bytes
pub const LANES_LENGTH: u32 = 17;
/// no lane built, or an open lane that is not built
pub const LANES: u32 = 18;
/// in version 2, the step's seconds are not 1 to 900
pub const SECONDS: u32 = 19;
/// of two roads to join: T, the version or the step's seconds differ
pub const ROADS_DIFFER: u32 = 20;
/// of two roads to join: the second gate has a queue or an arrival
pub const SECOND_GATE: u32 = 21;
/// of two roads to join: more than 64 cells together, or a joined record of more than 65,536 bytes
pub const JOINED_SIZE: u32 = 22;
/// of a wanted queue: no step, more than 1,440, lists of unequal length, a rate or arrival above 1,000,000, a start or ceiling above 1,000,000,000
pub const WANTED_INPUT: u32 = 23;
/// of a street: ramps not 1 to 8, lists of unequal length, a guarantee, wish or limit above 1,000,000, guarantees that together pass the limit
pub const STREET_INPUT: u32 = 24;
/// a peak above 1,000,000
pub const PEAK: u32 = 25;
/// more cells or bytes than the caller takes (the exercise program: 8 cells and 4,096 bytes)
pub const CALLER_LIMITS: u32 = 26;
/// the arrivals are no whole number of tables (list 1), or the answers have fewer than 75 numbers a study (list 2)
pub const MANY_LENGTHS: u32 = 27;

/// A row of the table: the refusal, the operations that give it with these words, the words.
type Row = (u32, &'static [&'static str], &'static str);

#[rustfmt::skip]
const ROWS: [Row; 37] = [
    (LENGTH, &["read", "read_within", "run", "fill", "judge", "history", "put", "join", "run_many", "fill_many", "run_on", "fill_on", "judge_on", "history_on"],
        "fewer than 16 bytes (18 where byte 4 is 2), more than 65,536, or a first field that is not the count of bytes after it"),
    (LENGTH, &["write"],
        "a record of more than 65,536 bytes"),
    (VERSION, &["read", "read_within", "run", "fill", "judge", "history", "put", "join", "write", "run_many", "fill_many", "run_on", "fill_on", "judge_on", "history_on"],
        "a version other than 1 or 2"),
    (COUNTS, &["read", "read_within", "run", "fill", "judge", "history", "put", "join", "write", "run_many", "fill_many", "run_on", "fill_on", "judge_on", "history_on"],
        "n is not 1 to 64, or T not 1 to 1,440"),
    (SIZE, &["read", "read_within", "run", "fill", "judge", "history", "put", "join", "run_many", "fill_many", "run_on", "fill_on", "judge_on", "history_on"],
        "a size other than 16 + 24n + T × (4 + 8n) bytes, in version 2 two more"),
    (SIZE, &["write"],
        "the rows do not have T × (1 + 2n) numbers"),
    (LIMITS, &["read", "read_within", "run", "fill", "judge", "history", "write", "run_many", "fill_many", "run_on", "fill_on", "judge_on", "history_on"],
        "the gate or a cell out of its limits, a ramp mark above 1, held above the jam count, a queue without a ramp, or a last share other than 0"),
    (LIMITS, &["put"],
        "a cell without a ramp, or that is not on the road; or in the record, the gate or a cell out of its limits"),
    (LIMITS, &["join"],
        "the joint's share above 1,000; or in one of the two records, the gate or a cell out of its limits"),
    (RATES, &["read", "read_within", "run", "fill", "judge", "history", "join", "write", "run_many", "fill_many", "run_on", "fill_on", "judge_on", "history_on"],
        "a row's number above 1,000,000, or one other than 0 for a cell without a ramp"),
    (RATES, &["put"],
        "a step from T on, or a release above 1,000,000; or in the record, a row's number above 1,000,000, or one other than 0 for a cell without a ramp"),
    (STEP_INPUT, &["step"],
        "the row's length, the road, the row, n, the steps done or the state breaks a limit"),
    (STEP_INPUT, &["run_on", "fill_on", "judge_on", "history_on"],
        "the state given breaks a limit"),
    (STEPS_DONE, &["step"],
        "1,440 steps are done"),
    (STEPS_DONE, &["run_on", "fill_on", "judge_on", "history_on"],
        "with the steps done, the record makes more than 1,440"),
    (RELEASE_ABOVE_QUEUE, &["run", "judge", "history", "run_on", "judge_on", "history_on"],
        "a release above its ramp's queue and this step's arrivals there together"),
    (RELEASE_ABOVE_QUEUE, &["step"],
        "a release above its ramp's queue and this step's arrivals there together"),
    (RELEASE_ABOVE_SUPPLY, &["run", "judge", "history", "run_on", "judge_on", "history_on"],
        "a release above its cell's supply"),
    (RELEASE_ABOVE_SUPPLY, &["step"],
        "a release above its cell's supply"),
    (LIST_LENGTH, &["run", "fill", "run_on", "fill_on"],
        "the list for the outflows is shorter than T × (n + 1)"),
    (LIST_LENGTH, &["history", "history_on"],
        "a list for the states is shorter than T × (n + 1)"),
    (SCHEDULE_LENGTH, &["judge", "history", "judge_on", "history_on"],
        "the schedule is not of length T × (n + 1)"),
    (OUTFLOW_ABOVE_DEMAND, &["judge", "history", "judge_on", "history_on"],
        "an outflow above the demand of its place"),
    (ENTERING_ABOVE_ROOM, &["judge", "history", "judge_on", "history_on"],
        "an outflow that lets too much into the next cell"),
    (TARGET_LENGTH, &["write", "join"],
        "the target is shorter than the record"),
    (LAW_NUMBERS, &["fill", "fill_on"],
        "a ramp's meter law has a number that isn't finite"),
    (LANES_LENGTH, &["run", "fill", "judge", "history", "run_on", "fill_on", "judge_on", "history_on"],
        "a table of lanes that is neither empty nor of n × (T + 1) bytes"),
    (LANES, &["step", "run", "fill", "judge", "history", "run_on", "fill_on", "judge_on", "history_on"],
        "no lane built, or an open lane that is not built"),
    (SECONDS, &["read", "read_within", "run", "fill", "judge", "history", "put", "join", "write", "run_many", "fill_many", "run_on", "fill_on", "judge_on", "history_on"],
        "in version 2, the step's seconds are not 1 to 900"),
    (ROADS_DIFFER, &["join"],
        "of two roads to join: T, the version or the step's seconds differ"),
    (SECOND_GATE, &["join"],
        "of two roads to join: the second gate has a queue or an arrival"),
    (JOINED_SIZE, &["join"],
        "of two roads to join: more than 64 cells together, or a joined record of more than 65,536 bytes"),
    (WANTED_INPUT, &["wanted"],
        "of a wanted queue: no step, more than 1,440, lists of unequal length, a rate or arrival above 1,000,000, a start or ceiling above 1,000,000,000"),
    (STREET_INPUT, &["grant"],
        "of a street: ramps not 1 to 8, lists of unequal length, a guarantee, wish or limit above 1,000,000, guarantees that together pass the limit"),
    (PEAK, &["load"],
        "a peak above 1,000,000"),
    (CALLER_LIMITS, &["read_within"],
        "more cells or bytes than the caller takes (the exercise program: 8 cells and 4,096 bytes)"),
    (MANY_LENGTHS, &["run_many", "fill_many"],
        "the arrivals are no whole number of tables (list 1), or the answers have fewer than 75 numbers a study (list 2)"),
];

/// The words of a refusal for an operation, by its name in C; if this one never gives it, the words for another.
pub fn words(number: u32, operation: &str) -> &'static str {
    let rows = || ROWS.iter().filter(|row| row.0 == number);
    let found = rows().find(|row| row.1.contains(&operation));
    found
        .or_else(|| rows().next())
        .map_or("no refusal has this number", |row| row.2)
}
