//! Part of group 8: records run, judged and filled with lanes closed. Refusals
//! 17 and 18, closures by hand, and random tables.

use super::case::{FillInput, LawInput};
use super::cells::{with_ramp, STYLES};
use super::dice::Dice;
use super::judged;
use super::list::{own_rows, table_length, Cases};
use super::meters;
use super::roads;
use super::samples;
use super::trial::{self, Plan, Trial};
use reference::draft::Draft;
use reference::model::Road;

/// Random roads under tables of their own, and records to be filled.
const RANDOM: usize = 220;
const FILLED: usize = 110;

pub fn add(cases: &mut Cases) {
    let mut dice = Dice::new(10);
    lengths(cases);
    faults(cases);
    several(cases);
    one_cell(cases);
    reopened(cases);
    for k in 0..RANDOM {
        random(cases, k, &mut dice);
    }
    for k in 0..FILLED {
        random_fill(cases, k, &mut dice);
    }
    wide(cases, &mut dice);
    meters::works(cases);
}

/// A draft under a table: run, judged with the run's own rows, and filled.
fn all_ways(cases: &mut Cases, draft: &Draft, lanes: &[u8]) {
    let (length, record) = (table_length(draft), draft.encode());
    cases.run_under(length, lanes, &record);
    let rows = own_rows(length, lanes, &record);
    cases.judge_under(&rows, lanes, &record);
    cases.fill(&FillInput {
        laws: [LawInput::new(0, [150.5, 0.0, 0.0]); Road::MAX_CELLS],
        length,
        lanes: lanes.to_vec(),
        record,
    });
}

/// The same mask of lanes built in every cell, all of them open.
fn all_open(n: usize, steps: usize, lanes: u8) -> Vec<u8> {
    vec![lanes; n * (steps + 1)]
}

/// 17 at every length but 0 and 12, for three cells and three steps.
fn lengths(cases: &mut Cases) {
    let draft = samples::three_cells();
    for length in [0, 1, 3, 4, 9, 11, 12, 13, 15, 16, 24, 64 * 4, 9_000] {
        all_ways(cases, &draft, &vec![1; length]);
    }
    // 17 comes before 18.
    for length in [1, 11, 13] {
        all_ways(cases, &draft, &vec![0; length]);
    }
}

/// 18 at each cell by the lanes built and by each row, and at the lowest of
/// two cells, whichever row has it.
fn faults(cases: &mut Cases) {
    let draft = samples::three_cells();
    let sound = all_open(3, 3, 0x2D);
    for cell in 0..3 {
        let mut table = sound.clone();
        table[cell] = 0;
        all_ways(cases, &draft, &table);
        for row in 1..4 {
            let mut table = sound.clone();
            table[3 * row + cell] = 0x2F;
            cases.run_under(12, &table, &draft.encode());
            cases.judge_under(&[0; 12], &table, &draft.encode());
        }
    }
    for (first, second) in [(2, 9), (3 + 2, 9), (3 + 1, 6), (1, 11), (8, 10), (5, 0)] {
        let mut table = sound.clone();
        for at in [first, second] {
            table[at] = if at < 3 { 0 } else { 0x12 };
        }
        all_ways(cases, &draft, &table);
    }
    // No lane built and none open is 18 too; all lanes closed is not.
    all_ways(cases, &draft, &[0; 12]);
    all_ways(cases, &draft, &[[255; 3], [0; 3], [0; 3], [0; 3]].concat());
}

type Change = fn(&mut Draft);

/// 17 and 18 together with 1 to 6, 16, 11 and 12.
fn several(cases: &mut Cases) {
    let changes: [Change; 7] = [
        |_| (),
        |d| d.length = Some(0),
        |d| d.version = 3,
        |d| d.steps = 4,
        |d| d.cells[2].v = 1_001,
        |d| d.rows[2][6] = 1_000_001,
        |d| d.rows[0][2] = 781,
    ];
    let mut spoilt = all_open(3, 3, 1);
    spoilt[10] = 2;
    for change in changes {
        let mut draft = samples::three_cells();
        change(&mut draft);
        let record = draft.encode();
        for lanes in [&spoilt[..11], &spoilt[..]] {
            for length in [11, 12] {
                cases.run_under(length, lanes, &record);
                cases.judge_under(&vec![1_000_000; length], lanes, &record);
            }
        }
    }
    for rate in [f64::NAN, 1.0] {
        for lanes in [&spoilt[..11], &spoilt[..], &[]] {
            for length in [11, 12] {
                cases.fill(&FillInput {
                    laws: [LawInput::new(0, [rate, 0.0, 0.0]); Road::MAX_CELLS],
                    length,
                    lanes: lanes.to_vec(),
                    record: samples::three_cells().encode(),
                });
            }
        }
    }
}

/// One cell of three with some of its lanes closed in one step or in all.
fn one_cell(cases: &mut Cases) {
    let draft = samples::three_cells();
    for cell in 0..3 {
        for (built, open) in [(7, 5), (3, 1), (0xFF, 0xFE), (1, 0)] {
            for rows in [1..4, 1..2, 2..3, 3..4] {
                let mut table = all_open(3, 3, 3);
                for row in 0..4 {
                    let closed = row > 0 && rows.contains(&row);
                    table[3 * row + cell] = if closed { open } else { built };
                }
                let record = draft.encode();
                cases.run_under(12, &table, &record);
                // A schedule that fits the open road.
                cases.judge_under(&own_rows(12, &[], &record), &table, &record);
            }
        }
    }
    // The document's run under tables that close nothing.
    for lanes in [1, 0x80, 0x55, 0xFF] {
        all_ways(cases, &samples::printed(), &all_open(2, 3, lanes));
    }
}

/// Empty and full roads whose middle cell closes for a while and opens again.
fn reopened(cases: &mut Cases) {
    for (held, gate) in [(0, 9_000), (8_000, 9_000), (3_000, 0)] {
        let mut draft = samples::even(5, 12);
        draft.gate_queue = gate;
        draft.cells.iter_mut().for_each(|cell| cell.held = held);
        draft.cells[3] = with_ramp(draft.cells[3], 700);
        for (cell, built, open) in [(2, 7, 3), (2, 7, 0), (4, 1, 0), (3, 15, 1)] {
            let mut table = all_open(5, 12, 7);
            for row in 0..13 {
                let closed = (4..9).contains(&row);
                table[5 * row + cell] = if closed { open } else { built };
            }
            all_ways(cases, &draft, &table);
        }
    }
}

/// Lanes of every cell, few or many.
fn random_lanes(n: usize, dice: &mut Dice) -> Vec<u8> {
    let few = dice.one_in(2);
    let one = |dice: &mut Dice| {
        if few {
            dice.pick(&[1, 3, 7, 15])
        } else {
            dice.between(1, 255) as u8
        }
    };
    (0..n).map(|_| one(dice)).collect()
}

/// A table that closes lanes here and there, a stretch of steps at one cell,
/// or everything for a while.
pub fn random_table(n: usize, steps: usize, dice: &mut Dice) -> Vec<u8> {
    let built = random_lanes(n, dice);
    let manner = dice.upto(4);
    let cell = dice.upto(n as u64 - 1) as usize;
    let (from, to) = (dice.upto(steps as u64), dice.upto(steps as u64));
    let mut table = built.clone();
    for t in 0..steps as u64 {
        let closing = (from.min(to)..=from.max(to)).contains(&t);
        for (i, &lanes) in built.iter().enumerate() {
            table.push(match manner {
                0 => lanes & dice.bits() as u8,
                1 if closing && i == cell => lanes & (lanes - 1),
                2 if closing && i == cell => 0,
                3 if closing => lanes & 0x55,
                4 if dice.one_in(5) => lanes & dice.bits() as u8,
                _ => lanes,
            });
        }
    }
    table
}

/// A road made for its table: run, and judged by turns.
fn random(cases: &mut Cases, k: usize, dice: &mut Dice) {
    let trial = random_trial(k, dice);
    cases.run_under(trial.table(), &trial.lanes, &trial.record);
    match k % 3 {
        0 => {
            let schedule = judged::schedule(k / 3, &trial, dice);
            cases.judge_under(&schedule, &trial.lanes, &trial.record);
        }
        // A schedule that fits only the open road, and another table.
        1 => {
            let rows = own_rows(trial.table(), &[], &trial.record);
            cases.judge_under(&rows, &trial.lanes, &trial.record);
        }
        _ => {
            let other = random_table(trial.n, trial.steps, dice);
            cases.run_under(trial.table(), &other, &trial.record);
            cases.judge_under(&trial.schedule, &[], &trial.record);
        }
    }
}

pub fn random_trial(k: usize, dice: &mut Dice) -> Trial {
    let style = STYLES[k % STYLES.len()];
    let n = 1 + dice.upto(8) as usize;
    let steps = 1 + dice.upto(11) as usize;
    let plan = Plan {
        style,
        steps,
        hold: roads::random_hold(steps, dice),
        fault: dice.one_in(8).then(|| roads::random_step(steps, dice)),
        lanes: random_table(n, steps, dice),
    };
    trial::make(style.road(n, dice), &plan, dice)
}

/// A record filled by laws under a table, seldom a spoilt one.
fn random_fill(cases: &mut Cases, k: usize, dice: &mut Dice) {
    let mut input = meters::random(k, meters::common_law, dice);
    let n = usize::from(input.record[5]);
    let steps = usize::from(input.record[7]);
    input.lanes = random_table(n, steps, dice);
    if dice.one_in(12) {
        let at = dice.upto(input.lanes.len() as u64 - 1) as usize;
        input.lanes[at] = dice.bits() as u8;
    }
    cases.fill(&input);
}

/// 64 cells, and as many steps as a record of few cells may have.
fn wide(cases: &mut Cases, dice: &mut Dice) {
    for k in 0..6 {
        let style = STYLES[k % STYLES.len()];
        let plan = Plan {
            style,
            steps: 4,
            hold: roads::random_hold(4, dice),
            fault: None,
            lanes: random_table(Road::MAX_CELLS, 4, dice),
        };
        let trial = trial::make(style.road(Road::MAX_CELLS, dice), &plan, dice);
        cases.run_under(trial.table(), &trial.lanes, &trial.record);
    }
    let draft = samples::even(1, 1_440);
    let table = random_table(1, 1_440, dice);
    cases.run_under(2_880, &table, &draft.encode());
    cases.run_under(2_880, &table[..1_440], &draft.encode());
}
