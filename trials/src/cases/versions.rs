//! Group 9: records of version 2, with a step's seconds. Refusals 1, 2, 3, 19
//! and 4 in their order, and everything that is tried with version 1.

use super::case::{Case, FillInput, LawInput, WriteInput, MAX_RECORD};
use super::dice::Dice;
use super::list::{table_length, Cases};
use super::samples;
use super::steps;
use super::trial::Trial;
use super::writes;
use reference::draft::Draft;
use reference::model::Road;

/// Longer records than this are not tried again.
const MAX_BYTES: usize = 1_500;

/// `trials` are the roads of group 4; the cases so far have fills to try again.
pub fn add(cases: &mut Cases, trials: &[Trial]) {
    let mut dice = Dice::new(11);
    printed(cases);
    short(cases);
    versions(cases);
    seconds(cases);
    changed(cases, &FRAMES);
    changed(cases, &FIELDS);
    changed(cases, &RELEASES);
    long(cases);
    again(cases, trials, &mut dice);
    filled(cases, &mut dice);
    any_version_steps(cases, &mut dice);
    written(cases, &mut dice);
    rows(cases);
}

/// The document's input in steps of several seconds, in all ways.
fn printed(cases: &mut Cases) {
    for seconds in [1, 20, 900] {
        cases.draft(&samples::printed().timed(seconds));
    }
    let record = samples::printed().timed(20).encode();
    for length in [0, 8, 10] {
        cases.run(length, &record);
    }
}

/// Records cut to a few bytes, with a true first field: 16 and 17 bytes pass 1
/// in version 1, or another version, and not in version 2.
fn short(cases: &mut Cases) {
    for version in [1, 2, 3] {
        for count in [4, 5, 15, 16, 17, 18, 19] {
            let mut draft = samples::printed().timed(20);
            draft.version = version;
            draft.cut = 126 - count;
            cases.draft(&draft);
        }
    }
    // Without a cell or a step, where 3 comes next.
    for count in [16, 17, 18] {
        let mut draft = samples::printed().timed(20);
        (draft.n, draft.steps, draft.cut) = (0, 0, 126 - count);
        cases.draft(&draft);
    }
}

/// Every layout under every version.
fn versions(cases: &mut Cases) {
    for version in [0, 1, 2, 3, 4, 18, 130, 255] {
        let mut timed = samples::printed().timed(20);
        timed.version = version;
        cases.draft(&timed);
        let mut plain = samples::printed();
        plain.version = version;
        cases.draft(&plain);
    }
    // A gate capacity whose upper half would be sound seconds.
    for capacity in [1 << 16, 900 << 16, 901 << 16] {
        let mut plain = samples::printed();
        (plain.version, plain.gate_capacity) = (2, capacity);
        cases.draft(&plain);
        plain.extra = 2;
        cases.draft(&plain);
    }
}

/// Seconds at their bounds, and numbers that agree in one byte only.
fn seconds(cases: &mut Cases) {
    for seconds in [
        0, 1, 2, 3, 20, 255, 256, 257, 899, 900, 901, 902, 1_000, 1_024, 33_768, 65_535,
    ] {
        cases.draft(&samples::three_cells().timed(seconds));
    }
}

type Change = fn(&mut Draft);

fn changed(cases: &mut Cases, changes: &[Change]) {
    for change in changes {
        let mut draft = samples::three_cells().timed(20);
        change(&mut draft);
        cases.draft(&draft);
    }
}

/// Refusals 1 to 4, and 19 together with the others.
const FRAMES: [Change; 24] = [
    |d| d.length = Some(1),
    |d| d.length = Some(168),
    |d| d.n = 0,
    |d| d.n = 65,
    |d| d.steps = 0,
    |d| d.steps = 1_441,
    |d| d.extra = 1,
    |d| d.extra = 2,
    |d| d.cut = 2,
    |d| d.cut = 4,
    |d| d.n = 2,
    |d| d.steps = 4,
    // 1 and 19, 2 and 19, 3 and 19.
    |d| (d.length, d.seconds) = (Some(1), Some(0)),
    |d| (d.version, d.seconds) = (3, Some(0)),
    |d| (d.version, d.n) = (3, 65),
    |d| (d.n, d.seconds) = (65, Some(901)),
    |d| (d.steps, d.seconds) = (0, Some(0)),
    // 19 and 4, 5, 6.
    |d| (d.seconds, d.extra) = (Some(0), 1),
    |d| (d.seconds, d.cut) = (Some(901), 4),
    |d| (d.seconds, d.gate_capacity) = (Some(901), 1_000_001),
    |d| (d.seconds, d.rows[0][0]) = (Some(0), 1_000_001),
    |d| (d.seconds, d.cells[0].v, d.cut) = (Some(0), 1_001, 1),
    // 4 and 5, 4 and 6.
    |d| (d.extra, d.gate_capacity) = (1, 1_000_001),
    |d| (d.cut, d.rows[0][0]) = (4, 1_000_001),
];

/// Refusals 5 and 6 at their places.
const FIELDS: [Change; 24] = [
    |d| d.gate_capacity = 1_000_000,
    |d| d.gate_capacity = 1_000_001,
    |d| d.gate_queue = 1_000_000_000,
    |d| d.gate_queue = 1_000_000_001,
    |d| d.cells[0].v = 1_000,
    |d| d.cells[0].v = 1_001,
    |d| d.cells[1].w = 1_001,
    |d| d.cells[1].b = 1_001,
    |d| d.cells[2].b = 1,
    |d| d.cells[0].ramp = 2,
    |d| d.cells[1].jam = 1_000_001,
    |d| d.cells[2].capacity = 1_000_001,
    |d| d.cells[2].held = 8_000,
    |d| d.cells[2].held = 8_001,
    |d| d.cells[1].queue = 1,
    |d| d.cells[2].queue = 1_000_000_001,
    |d| d.rows[0][0] = 1_000_000,
    |d| d.rows[0][0] = 1_000_001,
    |d| d.rows[1][3] = 1,
    |d| d.rows[2][4] = 1,
    |d| d.rows[2][6] = 1_000_001,
    |d| d.rows[2][6] = 1_000_000,
    |d| (d.cells[2].held, d.rows[0][0]) = (8_001, 1_000_001),
    |d| (d.rows[1][4], d.rows[2][0]) = (1, 1_000_001),
];

/// Refusals 9 and 10: queues of 700 with arrivals of 80 and 90, supplies of
/// 1500 and 500 before step 0.
const RELEASES: [Change; 8] = [
    |d| d.rows[0][2] = 780,
    |d| d.rows[0][2] = 781,
    |d| d.rows[0][6] = 500,
    |d| d.rows[0][6] = 501,
    |d| d.rows[1][6] = 900_000,
    |d| d.rows[2][2] = 900_000,
    |d| (d.cells[0].queue, d.rows[0][2]) = (5_000, 1_501),
    |d| (d.cells[2].queue, d.rows[2][6]) = (5_000, 3_000),
];

/// No version 2 has just 65,536 bytes: 65,526 are the most, with 6 cells, and
/// 65,022 are the most of 64 cells. A step more has 65,578 and 65,538; the first
/// is cut to what a frame holds.
fn long(cases: &mut Cases) {
    cases.read(&samples::even(64, 124).timed(20).encode());
    let longest = samples::even(6, 1_257).timed(20);
    cases.run(table_length(&longest), &longest.encode());
    let mut longer = samples::even(6, 1_258).timed(20);
    longer.cut = 65_578 - MAX_RECORD;
    cases.read(&longer.encode());
    cases.read(&samples::even(1, 1_440).timed(900).encode());
}

/// A record of version 1 as version 2.
pub fn timed(record: &[u8], seconds: u16) -> Vec<u8> {
    let mut bytes = [&record[..8], &seconds.to_be_bytes(), &record[8..]].concat();
    let length = bytes.len() as u32 - 4;
    bytes[..4].copy_from_slice(&length.to_be_bytes());
    bytes[4] = 2;
    bytes
}

/// The short roads of group 4 once more, run and some of them judged.
fn again(cases: &mut Cases, trials: &[Trial], dice: &mut Dice) {
    let short = trials
        .iter()
        .filter(|trial| trial.record.len() <= MAX_BYTES);
    for (k, trial) in short.take(120).enumerate() {
        let record = timed(&trial.record, dice.between(1, 900) as u16);
        cases.run(trial.table(), &record);
        if k % 3 == 0 {
            cases.judge(&trial.schedule, &record);
        }
    }
}

/// Every sixth short fill once more, with its lanes.
fn filled(cases: &mut Cases, dice: &mut Dice) {
    let fills: Vec<FillInput> = cases.list.iter().filter_map(sound_fill).collect();
    for mut input in fills.into_iter().step_by(6) {
        input.record = timed(&input.record, dice.between(1, 900) as u16);
        cases.fill(&input);
    }
    // 19 comes before 16, and releases are read where version 2 has them.
    for (seconds, rate) in [(0, f64::NAN), (901, 1.0), (900, f64::NAN), (900, 99.5)] {
        let draft = samples::three_cells().timed(seconds);
        cases.fill(&FillInput {
            laws: [LawInput::new(0, [rate, 0.0, 0.0]); Road::MAX_CELLS],
            length: table_length(&draft),
            lanes: vec![],
            record: draft.encode(),
        });
    }
}

fn sound_fill(case: &Case) -> Option<FillInput> {
    match case {
        Case::Fill(input) if (16..=MAX_BYTES).contains(&input.record.len()) => {
            Some((**input).clone())
        }
        _ => None,
    }
}

/// Stepping ignores version and seconds.
fn any_version_steps(cases: &mut Cases, dice: &mut Dice) {
    for (version, seconds) in [
        (0, 0),
        (0, 9),
        (1, 7),
        (2, 0),
        (2, 901),
        (3, 20),
        (255, 65_535),
    ] {
        let mut input = steps::sound(dice);
        (input.road.version, input.road.seconds) = (version, seconds);
        cases.step(&input);
        input.row[2] = 781;
        cases.step(&input);
    }
}

type WriteChange = fn(&mut WriteInput);

/// Version 2 with 20 seconds, 174 bytes into 192.
const WRITES: [WriteChange; 38] = [
    |_| (),
    |x| x.road.seconds = 0,
    |x| x.road.seconds = 1,
    |x| x.road.seconds = 256,
    |x| x.road.seconds = 900,
    |x| x.road.seconds = 901,
    |x| x.road.seconds = 65_535,
    |x| x.road.version = 0,
    |x| x.road.version = 1,
    |x| x.road.version = 3,
    |x| x.road.version = 129,
    |x| x.road.version = 255,
    // Version 1's seconds are ignored.
    |x| (x.road.version, x.road.seconds) = (1, 0),
    |x| (x.road.version, x.road.seconds) = (1, 65_535),
    // Targets.
    |x| x.length = 0,
    |x| x.length = 172,
    |x| x.length = 173,
    |x| x.length = 174,
    |x| x.length = 175,
    |x| (x.length, x.road.version) = (172, 1),
    |x| (x.length, x.road.version) = (171, 1),
    // 2 before 3, 3 before 19, 19 before 1, 4, 5, 6 and 15.
    |x| (x.road.version, x.road.n) = (0, 0),
    |x| (x.road.version, x.steps) = (3, 1_441),
    |x| (x.road.version, x.road.seconds) = (3, 0),
    |x| (x.road.n, x.road.seconds) = (65, 0),
    |x| (x.steps, x.road.seconds) = (0, 901),
    |x| (x.steps, x.road.n, x.road.seconds) = (1_440, 64, 901),
    |x| (x.rows.clear(), x.road.seconds = 0).1,
    |x| (x.road.v[0], x.road.seconds) = (1_001, 0),
    |x| (x.rows[0], x.road.seconds) = (1_000_001, 0),
    |x| (x.length, x.road.seconds) = (0, 901),
    // The others, in version 2.
    |x| (x.steps, x.road.n) = (1_440, 64),
    |x| x.rows.truncate(20),
    |x| x.road.gate_capacity = 1_000_001,
    |x| x.start.held[2] = 8_001,
    |x| x.rows[4] = 1,
    |x| x.rows[20] = 1_000_001,
    |x| (x.rows[20], x.length) = (1_000_001, 0),
];

fn written(cases: &mut Cases, dice: &mut Dice) {
    for change in WRITES {
        let mut input = writes::sound(dice);
        (input.road.version, input.road.seconds) = (2, 20);
        input.length = 192;
        change(&mut input);
        cases.write(&input);
    }
    // 65,536 bytes of version 1 would be 65,538 of version 2: 1.
    let mut wide = writes::input(&samples::even(64, 1));
    (wide.road.version, wide.road.seconds) = (2, 900);
    (wide.steps, wide.length) = (124, 65_600);
    wide.rows = vec![];
    cases.write(&wide);
    wide.steps = 123;
    cases.write(&wide);
    for k in 0..60 {
        let mut input = writes::random(k, dice);
        input.road.version = dice.pick(&[2, 2, 2, 2, 1, 0, 3]);
        input.road.seconds = match dice.upto(5) {
            0 => dice.upto(65_535) as u16,
            _ => dice.between(1, 900) as u16,
        };
        cases.write(&input);
    }
}

/// Rows of version 2, whole and cut, and of bytes that only say so.
fn rows(cases: &mut Cases) {
    let mut draft = samples::three_cells().timed(20);
    for (k, number) in draft.rows.iter_mut().flatten().enumerate() {
        *number = 1_000 * k as u32 + 65_537;
    }
    let record = draft.encode();
    for t in [0, 1, 2, 3, 1_439, 1_440] {
        cases.row(3, t, &record);
    }
    for n in [0, 1, 2, 4, 64, 65] {
        cases.row(n, 0, &record);
        cases.row(n, 1, &record);
    }
    for count in [4, 5, 16, 18, 22, 90, 93, 94, 117, 118, 170, 173] {
        for t in [0, 2] {
            cases.row(3, t, &record[..count]);
        }
    }
    for version in [0, 1, 3, 34, 130, 255] {
        let mut other = record.clone();
        other[4] = version;
        cases.row(3, 1, &other);
    }
    // A first field that would have 2 elsewhere.
    let mut other = record.clone();
    other[..6].copy_from_slice(&[2, 2, 2, 2, 1, 2]);
    cases.row(3, 1, &other);
    for bytes in [
        &[0, 0, 0, 0, 2][..],
        &[2; 40],
        &[2; 22],
        &[2; 21],
        &[1; 40],
        &[9; 19],
    ] {
        cases.row(0, 0, bytes);
    }
}
