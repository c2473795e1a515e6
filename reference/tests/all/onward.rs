//! Going on from a state: a study in stretches is the whole study.

use crate::random::{random_record, Dice};
use crate::support::*;
use reference::draft::Draft;
use reference::fill::{Last, Laws};
use reference::longest::{self, Queues};
use reference::meter::Law;
use reference::model::{Road, State};
use reference::onward::{fill_on, history_on, judge_on, run_on, FilledOn, Lists, Progress, RanOn};
use reference::record::read;
use reference::weigh::{self, Weights};
use reference::{fill, judge};

const ONES: Weights = Weights {
    places: [1; Road::MAX_CELLS + 1],
    ramps: [1; Road::MAX_CELLS],
};

/// A study and where it is cut: the rows of each stretch, one after the other.
struct Study {
    draft: Draft,
    table: Vec<u8>,
    cuts: Vec<std::ops::Range<usize>>,
}

impl Study {
    /// Of two stretches or three, each of at least one step.
    fn random(dice: &mut Dice) -> Study {
        let draft = loop {
            let draft = random_record(dice);
            if draft.rows.len() > 2 {
                break draft;
            }
        };
        let (n, steps) = (draft.cells.len(), draft.rows.len());
        let first = 1 + dice.upto(steps as u64 - 2) as usize;
        let second = first + 1 + dice.upto((steps - first - 1) as u64) as usize;
        let cuts = [0, first, second, steps];
        let cuts = cuts.windows(2).map(|pair| pair[0]..pair[1]);
        Study {
            table: random_table(n, steps, dice),
            draft,
            cuts: cuts.filter(|rows| !rows.is_empty()).collect(),
        }
    }

    fn width(&self) -> usize {
        self.draft.cells.len() + 1
    }

    fn record(&self) -> Vec<u8> {
        self.draft.encode()
    }

    fn list(&self) -> Vec<u32> {
        vec![LENT; self.draft.rows.len() * self.width()]
    }

    /// The record of a stretch. Its own start is another.
    fn stretch(&self, rows: &std::ops::Range<usize>) -> Vec<u8> {
        let mut draft = self.draft.clone();
        draft.rows = self.draft.rows[rows.clone()].to_vec();
        draft.steps = rows.len() as u16;
        draft.gate_queue = 77;
        for cell in &mut draft.cells {
            (cell.held, cell.queue) = (cell.jam / 3, u32::from(cell.ramp) * 5);
        }
        draft.encode()
    }

    /// The table of a stretch: the lanes built, and its rows.
    fn lanes(&self, rows: &std::ops::Range<usize>) -> Vec<u8> {
        let n = self.draft.cells.len();
        match self.table.is_empty() {
            true => vec![],
            false => [
                &self.table[..n],
                &self.table[n * (rows.start + 1)..n * (rows.end + 1)],
            ]
            .concat(),
        }
    }

    fn places(&self, rows: &std::ops::Range<usize>) -> std::ops::Range<usize> {
        rows.start * self.width()..rows.end * self.width()
    }

    /// The verdict of a stretch with its step counted in the whole study.
    fn verdict(
        &self,
        answer: &reference::answer::Answer,
        rows: &std::ops::Range<usize>,
    ) -> (u32, usize, usize) {
        let (number, step, place) = verdict(answer);
        match number {
            0 => (0, 0, 0),
            _ => (number, step + rows.start, place),
        }
    }
}

/// Empty, or a table that closes some lanes.
fn random_table(n: usize, steps: usize, dice: &mut Dice) -> Vec<u8> {
    if dice.upto(2) == 0 {
        return vec![];
    }
    let mut table: Vec<u8> = (0..n).map(|_| 1 + dice.upto(254) as u8).collect();
    for _ in 0..steps {
        for cell in 0..n {
            let closed = match dice.upto(5) {
                0 => dice.upto(255) as u8,
                _ => 0,
            };
            table.push(table[cell] & !closed);
        }
    }
    table
}

fn random_weights(dice: &mut Dice) -> Weights {
    Weights {
        places: [(); Road::MAX_CELLS + 1].map(|()| dice.upto(255) as u8),
        ramps: [(); Road::MAX_CELLS].map(|()| dice.upto(255) as u8),
    }
}

fn random_laws(draft: &Draft, dice: &mut Dice) -> Laws {
    let mut laws = [Law::Fixed { rate: f64::NAN }; Road::MAX_CELLS];
    for (law, cell) in laws.iter_mut().zip(&draft.cells) {
        let mut upto = |most: u32| dice.upto(7 * u64::from(most)) as f64 / 7.0;
        let (capacity, jam) = (upto(cell.capacity), upto(cell.jam));
        let least = upto(cell.capacity / 4);
        *law = match (cell.ramp, dice.upto(2)) {
            (0, _) => continue,
            (_, 0) => Law::Fixed { rate: capacity },
            (_, 1) => Law::Alinea {
                gain: [0.01, 0.1, 0.5, 1.9][dice.upto(3) as usize],
                target: jam,
            },
            (_, _) => Law::DemandCapacity {
                capacity: capacity + least,
                critical: jam,
                least,
            },
        };
    }
    laws
}

fn greater(a: Queues, b: Queues) -> Queues {
    let mut both = a;
    both.gate = a.gate.max(b.gate);
    both.waiting = a.waiting.max(b.waiting);
    for (ramp, &other) in both.ramps.iter_mut().zip(&b.ramps) {
        *ramp = (*ramp).max(other);
    }
    both
}

const NO_QUEUES: Queues = Queues {
    gate: 0,
    waiting: 0,
    ramps: [0; Road::MAX_CELLS],
};

#[test]
fn a_run_in_stretches_is_the_whole_run() {
    let mut dice = Dice(101);
    let mut seen = [0; 11];
    for _ in 0..400 {
        let study = Study::random(&mut dice);
        let weights = random_weights(&mut dice);
        let (mut whole, mut list) = (study.list(), study.list());
        let (record, table) = (study.record(), &study.table);
        let (answer, queues) = longest::run(&record, table, &mut whole);
        let weighted = weigh::run(&record, table, &weights, &mut whole).1;
        seen[answer.number as usize] += 1;
        let mut state = read(&record).state;
        let (mut greatest, mut sum) = (NO_QUEUES, 0);
        for rows in &study.cuts {
            let part = &mut list[study.places(rows)];
            let (bytes, lanes) = (study.stretch(rows), study.lanes(rows));
            let on = run_on(&bytes, &lanes, &weights, state, part);
            greatest = greater(greatest, on.queues);
            sum += on.weighted;
            state = on.answer.state;
            assert_eq!(on.answer.road, answer.road);
            if on.answer.number != 0 || rows.end == study.draft.rows.len() {
                assert_eq!(study.verdict(&on.answer, rows), verdict(&answer));
                break;
            }
        }
        assert_eq!((state, greatest, sum), (answer.state, queues, weighted));
        assert_eq!(list, whole);
    }
    assert!(seen[0] > 200 && seen[10] > 20, "{seen:?}");
}

#[test]
fn a_filling_in_stretches_is_the_whole_filling() {
    let mut dice = Dice(102);
    for _ in 0..400 {
        let study = Study::random(&mut dice);
        let laws = random_laws(&study.draft, &mut dice);
        let (mut whole, mut list) = (study.list(), study.list());
        let mut record = study.record();
        let state = read(&record).state;
        let (answer, queues) = longest::fill(&mut record, &laws, &study.table, &mut whole);
        assert_eq!(answer.number, 0);
        let mut from = Progress {
            state,
            last: Last::none(),
        };
        let (mut greatest, mut rows_filled) = (NO_QUEUES, Vec::new());
        for rows in &study.cuts {
            let part = &mut list[study.places(rows)];
            let (mut bytes, lanes) = (study.stretch(rows), study.lanes(rows));
            let on = fill_on(&mut bytes, &laws, &lanes, from, part);
            assert_eq!(
                (verdict(&on.answer), on.answer.road),
                ((0, 0, 0), answer.road)
            );
            greatest = greater(greatest, on.queues);
            from = Progress {
                state: on.answer.state,
                last: on.last,
            };
            let head = study.stretch(&(0..0)).len();
            assert_eq!(bytes[8..head], study.stretch(rows)[8..head]);
            rows_filled.extend(bytes.split_off(head));
        }
        assert_eq!((from.state, greatest), (answer.state, queues));
        assert_eq!(list, whole);
        let head = study.stretch(&(0..0)).len();
        assert_eq!(rows_filled, record[head..]);
    }
}

/// The last step's releases and entries: from the record that was filled and its outflows.
#[test]
fn filling_gives_the_last_step_s_releases_and_entries() {
    let mut dice = Dice(103);
    for _ in 0..200 {
        let study = Study::random(&mut dice);
        let laws = random_laws(&study.draft, &mut dice);
        let (mut record, mut list) = (study.record(), study.list());
        let state = read(&record).state;
        let n = study.draft.cells.len();
        let mut last = Last {
            release: [9; Road::MAX_CELLS],
            entered: [8; Road::MAX_CELLS],
        };
        for i in 0..n {
            last.entered[i] = state.held[i].min(8);
        }
        let from = Progress { state, last };
        let on = fill_on(&mut record, &laws, &study.table, from, &mut list);
        let steps = study.draft.rows.len();
        let row = reference::record::row(&record, n, steps - 1);
        // The state before the last step, by judging all steps but the last.
        let mut shorter = study.draft.clone();
        shorter.rows = (0..steps - 1)
            .map(|t| reference::record::row(&record, n, t))
            .collect();
        shorter.steps -= 1;
        let size = (steps - 1) * (n + 1);
        let all_but_last = match study.table.is_empty() {
            true => &[],
            false => &study.table[..n * steps],
        };
        let before = judge::judge(&shorter.encode(), all_but_last, &list[..size]);
        assert_eq!((before.number, before.state.steps), (0, steps - 1));
        for i in 0..Road::MAX_CELLS {
            let wanted = match i < n {
                true => {
                    let (was, is) = (before.state, on.answer.state);
                    let grown = is.held[i] + list[size + i + 1] - was.held[i] - row[2 * i + 2];
                    (row[2 * i + 2], grown)
                }
                false => (9, 8),
            };
            assert_eq!((on.last.release[i], on.last.entered[i]), wanted);
        }
    }
}

#[test]
fn a_schedule_judged_in_stretches_is_the_whole_schedule_judged() {
    let mut dice = Dice(104);
    let mut seen = [0; 15];
    for _ in 0..600 {
        let study = Study::random(&mut dice);
        let (record, table) = (study.record(), &study.table);
        let mut schedule = study.list();
        reference::run::run(&record, table, &mut schedule);
        match dice.upto(3) {
            0 => schedule.fill(0),
            1 => {
                let at = dice.upto(schedule.len() as u64 - 1) as usize;
                schedule[at] = schedule[at].wrapping_add(1);
            }
            _ => {}
        }
        let answer = judge::judge(&record, table, &schedule);
        seen[answer.number as usize] += 1;
        let mut whole = [study.list(), study.list()];
        let [held, queue] = &mut whole;
        let start = read(&record).state;
        let lists = Lists { held, queue };
        assert_eq!(history_on(&record, table, start, &schedule, lists), answer);
        let mut state = start;
        let mut parts = [study.list(), study.list()];
        for rows in &study.cuts {
            let (bytes, lanes) = (study.stretch(rows), study.lanes(rows));
            let part = &schedule[study.places(rows)];
            let judged = judge_on(&bytes, &lanes, state, part);
            let [held, queue] = parts.each_mut().map(|list| &mut list[study.places(rows)]);
            let lists = Lists { held, queue };
            assert_eq!(history_on(&bytes, &lanes, state, part, lists), judged);
            state = judged.state;
            if judged.number != 0 || rows.end == study.draft.rows.len() {
                assert_eq!(study.verdict(&judged, rows), verdict(&answer));
                break;
            }
        }
        assert_eq!(state, answer.state);
        assert_eq!(parts, whole);
    }
    assert!([0, 10, 13, 14].iter().all(|&k| seen[k] > 10), "{seen:?}");
}

#[test]
fn history_has_the_counts_of_each_step() {
    let record = record_of(EXAMPLE);
    let (answer, list) = run_text(EXAMPLE);
    let (mut held, mut queue) = ([LENT; 10], [LENT; 9]);
    let lists = Lists {
        held: &mut held,
        queue: &mut queue,
    };
    let start = read(&record).state;
    assert_eq!(history_on(&record, &[], start, &list, lists), answer);
    let wanted = [2500, 2566, 4000, 2142, 2991, 4000, 1890, 3309, 4000, LENT];
    assert_eq!(held, wanted);
    assert_eq!(queue, [0, 0, 1700, 0, 0, 1900, 0, 0, 2100]);
}

/// F of cell 1 is 934 after step 0, so that 933 leaves it in step 1. A record that began
/// with the counts alone would send 934.
#[test]
fn every_cumulative_outflow_goes_on() {
    let mut draft = example_draft();
    let (answer, list) = run_whole(&draft.encode());
    draft.rows.truncate(1);
    draft.steps = 1;
    let first = run_whole(&draft.encode()).0.state;
    assert_eq!((first.f[0], first.gate_f), (934, 1_500));
    draft.rows = vec![draft.rows[0].clone(); 2];
    draft.steps = 2;
    let mut rest = [0; 6];
    let on = run_on(&draft.encode(), &[], &ONES, first, &mut rest);
    assert_eq!((on.answer, rest[..].to_vec()), (answer, list[3..].to_vec()));
    assert_eq!(rest[1], 933);
    assert_eq!((on.queues.gate, on.queues.waiting), (2_142, 1_142));
    assert_eq!(on.queues.ramps[..3], [0, 2_100, 0]);
    assert_eq!(
        u128::from(on.weighted),
        answer.state.total() - first.total()
    );
    let start = State {
        steps: 0,
        gate_f: 0,
        f: [0; 64],
        gate_time: 0,
        road_time: 0,
        ramp_time: 0,
        ..first
    };
    run_on(&draft.encode(), &[], &ONES, start, &mut rest);
    assert_eq!(rest[1], 934);
}

#[test]
fn going_on_from_a_start_is_the_operation_itself() {
    let mut dice = Dice(105);
    for _ in 0..200 {
        let study = Study::random(&mut dice);
        let (record, table) = (study.record(), &study.table);
        let start = read(&record).state;
        let (mut one, mut other) = (study.list(), study.list());
        let (answer, queues) = longest::run(&record, table, &mut one);
        let on = run_on(&record, table, &ONES, start, &mut other);
        assert_eq!((on.answer, on.queues), (answer, queues));
        assert_eq!(u128::from(on.weighted), answer.state.total());
        assert_eq!(one, other);
        let laws = random_laws(&study.draft, &mut dice);
        let (mut record, mut again) = (record.clone(), record);
        let from = Progress {
            state: start,
            last: Last::none(),
        };
        let answer = fill::fill(&mut record, &laws, table, &mut one);
        let on = fill_on(&mut again, &laws, table, from, &mut other);
        assert_eq!((on.answer, again, other), (answer, record, one));
    }
}

/// A state after so many steps with every number at its limit, of a road with every
/// number at its own.
fn full(steps: usize) -> (Draft, State) {
    let cell = reference::draft::CellDraft {
        v: 1_000,
        w: 1_000,
        b: 0,
        ramp: 1,
        jam: 1_000_000,
        capacity: 1_000_000,
        held: 0,
        queue: 0,
    };
    let mut draft = Draft::new((1_000_000, 0), vec![cell; 3], vec![vec![1_000_000; 7]; 2]);
    draft.rows.iter_mut().for_each(|row| {
        (row[2], row[4], row[6]) = (0, 0, 0);
    });
    (draft.cells[0].b, draft.cells[1].b) = (1_000, 1_000);
    // Cell 3 has no ramp.
    draft.cells[2].ramp = 0;
    draft.rows.iter_mut().for_each(|row| row[5] = 0);
    let s = steps as u64;
    let queue = 1_000_000_000 + 1_000_000 * steps as u32;
    let mut state = State::empty();
    state.steps = steps;
    state.gate_time = 200_000_000_000 * s;
    state.gate_queue = queue;
    state.gate_f = 1_000_000 * steps as u32;
    state.held[..3].fill(1_000_000);
    state.queue[..2].fill(queue);
    state.f[..3].fill(1_000_000 * steps as u32);
    (draft, state)
}

fn numbers_of(draft: &Draft, state: State) -> [u32; 4] {
    let record = draft.encode();
    let size = draft.rows.len() * (draft.cells.len() + 1);
    let mut list = vec![0; size];
    let run = run_on(&record, &[], &ONES, state, &mut list);
    let laws = [Law::Fixed { rate: 1.0 }; Road::MAX_CELLS];
    let from = Progress {
        state,
        last: Last::none(),
    };
    let filled = fill_on(&mut record.clone(), &laws, &[], from, &mut list.clone());
    let zeros = vec![0; size];
    let judged = judge_on(&record, &[], state, &zeros);
    let (mut held, mut queue) = (zeros.clone(), zeros.clone());
    let lists = Lists {
        held: &mut held,
        queue: &mut queue,
    };
    let history = history_on(&record, &[], state, &zeros, lists);
    let numbers = [run.answer, filled.answer, judged, history].map(|answer| answer.number);
    if numbers[0] != 0 {
        assert_eq!(
            run,
            RanOn {
                answer: reference::answer::Answer::without_state(numbers[0], 0),
                queues: NO_QUEUES,
                weighted: 0,
            }
        );
        assert_eq!((filled.last, filled.queues), (Last::none(), NO_QUEUES));
        assert_eq!((list, held, queue), (zeros.clone(), zeros.clone(), zeros));
    }
    numbers
}

type Spoil = fn(&mut State);

#[test]
fn a_state_at_its_limits_passes_and_one_more_is_seven() {
    let spoils: [Spoil; 13] = [
        |x| x.gate_time += 1,
        |x| x.road_time += 1,
        |x| x.ramp_time = u64::MAX,
        |x| x.gate_queue += 1,
        |x| x.gate_f += 1,
        |x| x.held[0] += 1,
        |x| x.held[2] += 1,
        |x| x.queue[1] += 1,
        |x| x.queue[2] = 1,
        |x| x.f[0] += 1,
        |x| x.f[2] += 1,
        |x| x.steps = 1_441,
        |x| x.steps = usize::MAX,
    ];
    for steps in [0, 1, 934, 1_437, 1_438] {
        let (draft, state) = full(steps);
        assert_eq!(numbers_of(&draft, state), [0; 4], "{steps}");
        for (k, spoil) in spoils.iter().enumerate() {
            let mut spoilt = state;
            spoil(&mut spoilt);
            assert_eq!(numbers_of(&draft, spoilt), [7; 4], "{steps} {k}");
            // 7 comes before 8.
            if steps == 1_438 {
                let mut longer = draft.clone();
                longer.rows.push(longer.rows[0].clone());
                longer.steps += 1;
                assert_eq!(numbers_of(&longer, spoilt), [7; 4], "{k}");
            }
        }
        // Numbers past cell n are neither tested nor changed.
        let mut past = state;
        (past.held[3], past.queue[63], past.f[40]) = (u32::MAX, u32::MAX, u32::MAX);
        assert_eq!(numbers_of(&draft, past), [0; 4]);
        let end = run_on(&draft.encode(), &[], &ONES, past, &mut [0; 8]).answer;
        let same = run_on(&draft.encode(), &[], &ONES, state, &mut [0; 8]).answer;
        assert_eq!(end.state.held[3..], past.held[3..]);
        assert_eq!(end.state.queue[3..], past.queue[3..]);
        assert_eq!(end.state.f[3..], past.f[3..]);
        assert_eq!(end.state.held[..3], same.state.held[..3]);
        assert_eq!(end.state.total(), same.state.total());
    }
}

#[test]
fn steps_in_all_are_at_most_1440() {
    for (steps, number) in [(1_438, 0), (1_439, 8), (1_440, 8)] {
        let (draft, state) = full(steps);
        assert_eq!(numbers_of(&draft, state), [number; 4], "{steps}");
    }
    let (mut draft, state) = full(1_439);
    draft.rows.truncate(1);
    draft.steps = 1;
    assert_eq!(numbers_of(&draft, state), [0; 4]);
    let end = run_on(&draft.encode(), &[], &ONES, state, &mut [0; 4]);
    assert_eq!(end.answer.state.steps, 1_440);
}

/// Each refusal with all that come after it.
#[test]
fn refusals_come_in_their_order() {
    let draft = example_draft();
    let sound = draft.encode();
    let mut six = draft.clone();
    six.rows[2][0] = 1_000_001;
    let six = six.encode();
    let mut nine = draft.clone();
    nine.rows[1][4] = 900_000;
    let nine = nine.encode();
    let built = vec![1; 8];
    let mut eighteen = built.clone();
    eighteen[5] = 2;
    let start = read(&sound).state;
    let seven = State {
        gate_f: 1,
        steps: 0,
        ..start
    };
    let eight = State {
        steps: 1_438,
        ..start
    };
    let laws = [Law::Fixed { rate: f64::NAN }; Road::MAX_CELLS];
    let fine = [Law::Fixed { rate: 1.0 }; Road::MAX_CELLS];
    let ran = |record: &[u8], table: &[u8], from, length: usize| {
        let mut list = vec![LENT; length];
        let answer = run_on(record, table, &ONES, from, &mut list).answer;
        if answer.number != 9 {
            assert!(list.iter().all(|&number| number == LENT) || answer.number == 0);
        }
        verdict(&answer)
    };
    assert_eq!(ran(&six, &built[1..], seven, 8), (6, 0, 2));
    assert_eq!(ran(&nine, &built[1..], seven, 8), (17, 0, 0));
    assert_eq!(ran(&nine, &eighteen, seven, 8), (18, 0, 2));
    assert_eq!(ran(&nine, &built, seven, 8), (7, 0, 0));
    assert_eq!(ran(&nine, &built, eight, 8), (8, 0, 0));
    assert_eq!(ran(&nine, &built, start, 8), (11, 0, 0));
    assert_eq!(ran(&nine, &built, start, 9), (9, 1, 2));
    assert_eq!(ran(&sound, &built, start, 9), (0, 0, 0));
    let filled = |record: &[u8], laws: &Laws, table: &[u8], state, length: usize| {
        let (mut bytes, mut list) = (record.to_vec(), vec![LENT; length]);
        let from = Progress {
            state,
            last: Last {
                release: [3; 64],
                entered: [4; 64],
            },
        };
        let FilledOn { answer, last, .. } = fill_on(&mut bytes, laws, table, from, &mut list);
        if answer.number != 0 {
            assert_eq!((bytes, list), (record.to_vec(), vec![LENT; length]));
            assert_eq!(last, Last::none());
        }
        verdict(&answer)
    };
    assert_eq!(filled(&six, &laws, &built[1..], seven, 8), (6, 0, 2));
    assert_eq!(filled(&sound, &laws, &built[1..], seven, 8), (16, 0, 2));
    assert_eq!(filled(&sound, &fine, &built[1..], seven, 8), (17, 0, 0));
    assert_eq!(filled(&sound, &fine, &eighteen, seven, 8), (18, 0, 2));
    assert_eq!(filled(&sound, &fine, &built, seven, 8), (7, 0, 0));
    assert_eq!(filled(&sound, &fine, &built, eight, 8), (8, 0, 0));
    assert_eq!(filled(&sound, &fine, &built, start, 8), (11, 0, 0));
    assert_eq!(filled(&nine, &fine, &built, start, 9), (0, 0, 0));
    let history = |record: &[u8], table: &[u8], from, lengths: [usize; 3]| {
        let schedule = vec![0; lengths[0]];
        let judged = judge_on(record, table, from, &schedule);
        let [mut held, mut queue] = [lengths[1], lengths[2]].map(|length| vec![LENT; length]);
        let lists = Lists {
            held: &mut held,
            queue: &mut queue,
        };
        let answer = history_on(record, table, from, &schedule, lists);
        if answer.number != 11 {
            assert_eq!(answer, judged);
        }
        verdict(&answer)
    };
    assert_eq!(history(&six, &built[1..], seven, [8, 8, 8]), (6, 0, 2));
    assert_eq!(history(&nine, &built[1..], seven, [8, 8, 8]), (17, 0, 0));
    assert_eq!(history(&nine, &eighteen, seven, [8, 8, 8]), (18, 0, 2));
    assert_eq!(history(&nine, &built, seven, [8, 8, 8]), (7, 0, 0));
    assert_eq!(history(&nine, &built, eight, [8, 8, 8]), (8, 0, 0));
    assert_eq!(history(&nine, &built, start, [8, 8, 8]), (12, 0, 0));
    assert_eq!(history(&nine, &built, start, [10, 9, 9]), (12, 0, 0));
    assert_eq!(history(&nine, &built, start, [9, 8, 9]), (11, 0, 0));
    assert_eq!(history(&nine, &built, start, [9, 9, 8]), (11, 0, 0));
    assert_eq!(history(&nine, &built, start, [9, 9, 9]), (9, 1, 2));
}

/// The state is the same as stepping's, whatever is given.
#[test]
fn a_record_of_one_row_is_a_step() {
    let mut dice = Dice(106);
    let mut seen = [0; 11];
    for _ in 0..2_000 {
        let mut draft = random_record(&mut dice);
        let mut state = run_whole(&draft.encode()).0.state;
        let last = draft.rows.len() - 1;
        draft.rows = vec![draft.rows[last].clone()];
        draft.steps = 1;
        let i = dice.upto(draft.cells.len() as u64 - 1) as usize;
        let number = [0, 1, 1_000, 1_000_000, 1_000_000_000, u32::MAX][dice.upto(5) as usize];
        match dice.upto(7) {
            0 => state.held[i] = number,
            1 => state.queue[i] = number,
            2 => state.f[i] = number,
            3 => state.gate_queue = number,
            4 => state.gate_f = number,
            5 => state.ramp_time = u64::from(number) << dice.upto(32),
            6 => state.steps = [0, 1, 1_439, 1_440, 1_441][dice.upto(4) as usize],
            _ => {}
        }
        let record = draft.encode();
        let road = read(&record).road;
        let stepped = step(road, state, &draft.rows[0]);
        let mut list = vec![LENT; road.n + 1];
        let on = run_on(&record, &[], &ONES, state, &mut list).answer;
        seen[on.number as usize] += 1;
        let named = matches!(on.number, 0 | 9 | 10);
        let wanted = if named { stepped.state } else { State::empty() };
        assert_eq!(verdict(&on), (stepped.number, 0, stepped.place));
        assert_eq!(on.state, wanted);
    }
    assert!([0, 7, 8, 9, 10].iter().all(|&k| seen[k] > 3), "{seen:?}");
}

/// The last numbers are those that a wish takes: a release of any size, and an entry up
/// to what the cell holds. One more is refusal 7, with a ramp or without.
#[test]
fn the_last_release_may_be_any_number_and_an_entry_what_its_cell_holds() {
    let record = record_of(EXAMPLE);
    let state = read(&record).state;
    let filled = |law: Law, last: Last| {
        let (mut bytes, mut list) = (record.clone(), [LENT; 9]);
        let from = Progress { state, last };
        let on = fill_on(&mut bytes, &[law; 64], &[], from, &mut list);
        if on.answer.number != 0 {
            assert_eq!((&bytes, list, on.last), (&record, [LENT; 9], Last::none()));
        }
        let release = reference::record::row(&bytes, 2, 0)[4];
        (on.answer.number, release)
    };
    let first_release = |law: Law, last: Last| {
        let (number, release) = filled(law, last);
        assert_eq!(number, 0);
        release
    };
    let mut last = Last::none();
    let alinea = Law::Alinea {
        gain: 1.0,
        target: 3_950.0,
    };
    assert_eq!(first_release(alinea, last), 0);
    last.release[1] = 60;
    assert_eq!(first_release(alinea, last), 10);
    last.release[1] = u32::MAX;
    assert_eq!(first_release(alinea, last), 1_000);
    let by_demand = Law::DemandCapacity {
        capacity: 900.0,
        critical: 4_000.0,
        least: 5.0,
    };
    last.entered[1] = 200;
    assert_eq!(first_release(by_demand, last), 700);
    last.entered[1] = state.held[1];
    assert_eq!(first_release(by_demand, last), 0);
    // Those of cell 1, which has no ramp, and past cell n mean nothing.
    let mut elsewhere = Last {
        release: [500; 64],
        entered: [u32::MAX; 64],
    };
    elsewhere.entered[0] = state.held[0];
    (elsewhere.release[1], elsewhere.entered[1]) = (60, 200);
    assert_eq!(first_release(alinea, elsewhere), 10);
    assert_eq!(first_release(by_demand, elsewhere), 700);
    for i in 0..2 {
        let mut more = elsewhere;
        more.entered[i] = state.held[i] + 1;
        assert_eq!(filled(alinea, more).0, 7);
    }
}
