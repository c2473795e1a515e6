//! Weights: by hand, refusals, and what random roads must keep to. And roads
//! whose cells are raised.

use crate::random::{random_record, Dice};
use crate::support::*;
use reference::answer::Answer;
use reference::draft::Draft;
use reference::judge::judge as judge_under;
use reference::longest;
use reference::model::{Road, State};
use reference::record::{head_bytes, read, version_of};
use reference::run::run as run_under;
use reference::weigh::{self, after_steps, Weights};
use trials::cases::all_cases;
use trials::cases::case::Case;

/// The weights of gate, cell 1 and cell 2 and of their ramps, and 255 past them.
fn weights(places: [u8; 3], ramps: [u8; 2]) -> Weights {
    let mut all = same(255);
    all.places[..3].copy_from_slice(&places);
    all.ramps[..2].copy_from_slice(&ramps);
    all
}

fn same(weight: u8) -> Weights {
    Weights {
        places: [weight; 65],
        ramps: [weight; 64],
    }
}

/// A record weighed with a list of just the table's length.
fn weighed(record: &[u8], lanes: &[u8], weights: &Weights) -> (Answer, u64) {
    let reading = read(record);
    let mut list = vec![LENT; reading.steps * (reading.road.n + 1)];
    weigh::run(record, lanes, weights, &mut list)
}

/// The document's input weighed.
fn example(weights: &Weights) -> u64 {
    let (answer, sum) = weighed(&record_of(EXAMPLE), &[], weights);
    assert_eq!(answer.number, 0);
    sum
}

// After the steps of the document's run:
//
//   gate queue  2500  2142  1890   6532
//   cell 1      2566  2991  3309   8866
//   cell 2      4000  4000  4000  12000
//   ramp 2      1700  1900  2100   5700

#[test]
fn the_longest_queues_by_hand() {
    let record = record_of(EXAMPLE);
    let mut list = [LENT; 9];
    let (answer, queues) = longest::run(&record, &[], &mut list);
    assert_eq!(answer.number, 0);
    // 2500, 2142 and 1890 less the 1000 arrivals of each step; the 3000 of the start do not count.
    assert_eq!((queues.gate, queues.waiting), (2_500, 1_500));
    assert_eq!(queues.ramps[..3], [0, 2_100, 0]);
    // A list that is too short: no step.
    let (answer, queues) = longest::run(&record, &[], &mut list[..8]);
    assert_eq!((answer.number, queues.gate, queues.waiting), (11, 0, 0));
}

#[test]
fn the_printed_run_by_hand() {
    // 6532 + 8866 + 12000 + 5700.
    assert_eq!(example(&same(1)), 33_098);
    // 8866 + 12000 + 5700.
    assert_eq!(example(&weights([0, 1, 1], [1, 1])), 26_566);
    // 255 x 5700.
    assert_eq!(example(&weights([0, 0, 0], [255, 255])), 1_453_500);
    // 3 x 6532 + 2 x 8866 + 12000: 19596 + 17732 + 12000.
    assert_eq!(example(&weights([3, 2, 1], [0, 0])), 49_328);
    // 255 x 33098.
    assert_eq!(example(&same(255)), 8_439_990);
    assert_eq!(example(&same(0)), 0);
    // One place alone.
    assert_eq!(example(&weights([1, 0, 0], [0, 0])), 6_532);
    assert_eq!(example(&weights([0, 1, 0], [0, 0])), 8_866);
    assert_eq!(example(&weights([0, 0, 1], [0, 0])), 12_000);
    assert_eq!(example(&weights([0, 0, 0], [0, 1])), 5_700);
    // Cell 1 has no ramp.
    assert_eq!(example(&weights([0, 0, 0], [255, 0])), 0);
}

#[test]
fn weights_past_the_last_cell_are_not_read() {
    for past in [0, 1, 77, 255] {
        let mut all = weights([3, 2, 1], [9, 4]);
        all.places[3..].fill(past);
        all.ramps[2..].fill(past);
        // 49328 + 4 x 5700.
        assert_eq!(example(&all), 72_128);
    }
}

#[test]
fn version_and_seconds_do_not_weigh() {
    let record = example_draft().timed(900).encode();
    let (answer, sum) = weighed(&record, &[], &weights([3, 2, 1], [0, 0]));
    assert_eq!((answer.number, sum), (0, 49_328));
}

#[test]
fn lanes_closed_by_hand() {
    // Cell 2 at half its capacity in step 1. The gate's queue is 2500, 2142,
    // 2057: 6699. Cell 1 holds 2566, 2566 + 1358 - 267 = 3657 and 3657 + 1085
    // - 933 = 3809: 10032. Cell 2 holds 4000, the ramp 5700 in all as before.
    let lanes = [1, 3, 1, 3, 1, 2, 1, 3];
    let record = record_of(EXAMPLE);
    // 3 x 6699 + 2 x 10032 + 12000.
    let (answer, sum) = weighed(&record, &lanes, &weights([3, 2, 1], [0, 0]));
    assert_eq!((answer.number, sum), (0, 52_161));
    let (_, sum) = weighed(&record, &lanes, &weights([0, 0, 0], [0, 255]));
    assert_eq!(sum, 1_453_500);
    assert_eq!(
        weighed(&record, &lanes, &same(1)).1,
        6_699 + 10_032 + 17_700
    );
}

#[test]
fn answer_and_list_are_those_of_running() {
    for spare in [0, 1, 5] {
        let (mut own, mut plain) = (vec![LENT; 9 + spare], vec![LENT; 9 + spare]);
        let record = record_of(EXAMPLE);
        let (answer, _) = weigh::run(&record, &[], &same(7), &mut own);
        assert_eq!((answer, &own), (run(&record, &mut plain), &plain));
        assert_eq!(own[9..], vec![LENT; spare]);
    }
}

#[test]
fn refusals_that_name_no_state_give_0() {
    let refused = |draft: &Draft, lanes: &[u8], length: usize| {
        let mut list = vec![LENT; length];
        let (answer, sum) = weigh::run(&draft.encode(), lanes, &same(255), &mut list);
        assert_eq!(answer, Answer::without_state(answer.number, answer.place));
        assert_eq!((sum, list), (0, vec![LENT; length]));
        (answer.number, answer.place)
    };
    let with = |change: fn(&mut Draft)| {
        let mut draft = example_draft();
        change(&mut draft);
        refused(&draft, &[], 9)
    };
    assert_eq!(with(|d| d.length = Some(1)), (1, 0));
    assert_eq!(with(|d| d.cut = 200), (1, 0));
    assert_eq!(with(|d| d.version = 3), (2, 0));
    assert_eq!(with(|d| d.steps = 1_441), (3, 0));
    assert_eq!(with(|d| (d.version, d.seconds) = (2, Some(901))), (19, 0));
    assert_eq!(with(|d| d.extra = 1), (4, 0));
    assert_eq!(with(|d| d.cells[1].held = 8_001), (5, 2));
    assert_eq!(with(|d| d.rows[2][0] = 1_000_001), (6, 2));
    let draft = example_draft();
    assert_eq!(refused(&draft, &[1; 7], 8), (17, 0));
    assert_eq!(refused(&draft, &[1, 0, 1, 0, 1, 0, 1, 0], 8), (18, 2));
    assert_eq!(refused(&draft, &[1; 8], 8), (11, 0));
    assert_eq!(refused(&draft, &[], 0), (11, 0));
}

#[test]
fn after_9_or_10_the_steps_before_are_weighed() {
    // With all 1: 2500 + 2566 + 4000 + 1700 = 10766 after step 0, and 2142 +
    // 2991 + 4000 + 1900 = 11033 after step 1. With 3, 2, 1 and no ramps: 7500
    // + 5132 + 4000 = 16632 and 6426 + 5982 + 4000 = 16408.
    let plain = [0, 10_766, 21_799];
    let steep = [0, 16_632, 33_040];
    for step in 0..3 {
        // Supply 1000; queue and arrivals 2000, 2200 and 2400.
        for (release, number) in [(1_001, 10), (2_001 + 200 * step as u32, 9)] {
            let mut draft = example_draft();
            draft.rows[step][4] = release;
            let record = draft.encode();
            for (weights, sums) in [(same(1), plain), (weights([3, 2, 1], [0, 0]), steep)] {
                let (answer, sum) = weighed(&record, &[], &weights);
                assert_eq!(verdict(&answer), (number, step, 2));
                assert_eq!(sum, sums[step]);
            }
        }
    }
}

#[test]
fn the_present_of_any_state() {
    let mut road = Road::empty();
    let mut state = State::empty();
    state.gate_queue = u32::MAX;
    state.held.fill(u32::MAX);
    state.queue.fill(u32::MAX);
    // 129 places of 255 x 4294967295; 3 with one cell; the gate alone.
    for (n, wanted) in [
        (0, 1_095_216_660_225),
        (1, 3_285_649_980_675),
        (64, 141_282_949_169_025),
        (65, 141_282_949_169_025),
        (1_000, 141_282_949_169_025),
        (u32::MAX as usize, 141_282_949_169_025),
    ] {
        road.n = n;
        assert_eq!(weigh::present(&road, &state, &same(255)), wanted);
    }
    // Each place alone.
    road.n = 3;
    state.gate_queue = 10;
    state.held[..4].copy_from_slice(&[20, 30, 40, 50]);
    state.queue[..4].copy_from_slice(&[1, 2, 3, 4]);
    let mut all = same(0);
    all.places[..5].copy_from_slice(&[1, 2, 3, 4, 5]);
    all.ramps[..4].copy_from_slice(&[100, 200, 50, 250]);
    // 10 + 40 + 90 + 160, and 100 + 400 + 150.
    assert_eq!(weigh::present(&road, &state, &all), 950);
}

/// Any weights; falling from the gate on if asked.
fn random_weights(n: usize, falls: bool, dice: &mut Dice) -> Weights {
    let mut all = same(0);
    let most = [1, 3, 255][dice.upto(2) as usize];
    for weight in all.places.iter_mut().chain(&mut all.ramps) {
        *weight = dice.upto(most) as u8;
    }
    if falls {
        all.places[..=n].sort_unstable_by(|a, b| b.cmp(a));
    }
    all
}

#[test]
fn random_roads_weighed_step_by_step() {
    let mut dice = Dice(21);
    for _ in 0..200 {
        let draft = random_record(&mut dice);
        let record = draft.encode();
        let reading = read(&record);
        let n = reading.road.n;
        let all = random_weights(n, false, &mut dice);
        let mut state = reading.state;
        let mut wanted = 0;
        for row in &draft.rows {
            state = step(reading.road, state, row).state;
            wanted += u64::from(all.places[0]) * u64::from(state.gate_queue);
            let held = all.places[1..=n].iter().zip(&state.held);
            let queues = all.ramps[..n].iter().zip(&state.queue);
            for (&weight, &count) in held.chain(queues) {
                wanted += u64::from(weight) * u64::from(count);
            }
        }
        let (answer, sum) = weighed(&record, &[], &all);
        assert_eq!((answer.number, answer.state, sum), (0, state, wanted));
    }
}

#[test]
fn weights_of_1_are_the_times() {
    let mut dice = Dice(22);
    let (mut cells, mut ramps) = (same(0), same(0));
    cells.places[1..].fill(1);
    ramps.ramps.fill(1);
    let mut gate = same(0);
    gate.places[0] = 1;
    for _ in 0..200 {
        let record = random_record(&mut dice).encode();
        let (answer, total) = weighed(&record, &[], &same(1));
        assert_eq!(u128::from(total), answer.state.total());
        assert_eq!(weighed(&record, &[], &gate).1, answer.state.gate_time);
        assert_eq!(weighed(&record, &[], &cells).1, answer.state.road_time);
        assert_eq!(weighed(&record, &[], &ramps).1, answer.state.ramp_time);
    }
}

/// The steps of a schedule that is judged, where it comes to that.
fn reached(answer: &Answer) -> Option<usize> {
    let steps = answer.state.steps;
    matches!(answer.number, 0 | 9 | 10 | 13 | 14).then_some(steps)
}

#[test]
fn no_schedule_is_better_where_weights_fall() {
    let mut dice = Dice(23);
    let (mut compared, mut better, mut closed) = (0, 0, 0);
    for case in all_cases() {
        let Case::Judge {
            schedule,
            lanes,
            record,
        } = &case
        else {
            continue;
        };
        let Some(judged) = reached(&judge_under(record, lanes, schedule)) else {
            continue;
        };
        if record.len() > 3_000 {
            continue;
        }
        let mut list = vec![LENT; schedule.len()];
        let own = run_under(record, lanes, &mut list);
        let steps = judged.min(own.state.steps);
        for _ in 0..3 {
            let all = random_weights(own.road.n, true, &mut dice);
            let sums = [&list, schedule].map(|rows| after_steps(record, rows, steps, &all));
            let (mut engine, mut rival) = (0, 0);
            for (a, b) in sums[0].iter().zip(&sums[1]) {
                (engine, rival) = (engine + a, rival + b);
                assert!(engine <= rival, "{engine} {rival}");
                compared += 1;
            }
            better += usize::from(engine < rival);
            closed += usize::from(engine < rival && !lanes.is_empty());
        }
    }
    assert!(
        compared >= 5_000 && better >= 300 && closed >= 50,
        "{compared} {better} {closed}"
    );
}

#[test]
fn a_schedule_may_be_better_where_weights_rise() {
    // Nothing moves: the gate's queue is 4000, 5000, 6000, cell 1 holds 2000,
    // cell 2 4300, 4600, 4900.
    let record = record_of(EXAMPLE);
    assert_eq!(judge(&record, &[0; 9]).number, 0);
    let still = |all: &Weights| -> u64 { after_steps(&record, &[0; 9], 3, all).iter().sum() };
    assert_eq!(still(&same(1)), 40_500);
    // 3 x 15000 + 2 x 6000 + 13800.
    assert_eq!(still(&weights([3, 2, 1], [0, 0])), 70_800);
    let rises = weights([0, 1, 0], [0, 0]);
    assert_eq!((still(&rises), example(&rises)), (6_000, 8_866));
}

/// A number kept, one more, at its bound, or anywhere between.
fn raised(number: u32, bound: u32, dice: &mut Dice) -> u32 {
    let more = bound - number;
    number
        + match dice.upto(5) {
            0 => more,
            1 => more.min(1),
            2 => dice.upto(u64::from(more)) as u32,
            3 => dice.upto(u64::from(more.min(number / 4))) as u32,
            _ => 0,
        }
}

/// The record with v, w, J or C of some cells raised.
fn raised_record(record: &[u8], dice: &mut Dice) -> Vec<u8> {
    let mut bytes = record.to_vec();
    let head = head_bytes(version_of(record));
    let which = dice.upto(4);
    for i in 0..read(record).road.n {
        let at = head + 24 * i;
        // v and w have two bytes, J and C four.
        for (k, field) in [at, at + 2].into_iter().enumerate() {
            if which == 4 || which == k as u64 {
                let number = u16::from_be_bytes([bytes[field], bytes[field + 1]]);
                let number = raised(u32::from(number), 1_000, dice) as u16;
                bytes[field..field + 2].copy_from_slice(&number.to_be_bytes());
            }
        }
        for (k, field) in [at + 8, at + 12].into_iter().enumerate() {
            if which == 4 || which == 2 + k as u64 {
                let number = u32::from_be_bytes(bytes[field..field + 4].try_into().unwrap());
                let number = raised(number, 1_000_000, dice);
                bytes[field..field + 4].copy_from_slice(&number.to_be_bytes());
            }
        }
    }
    bytes
}

/// How often roads were compared over all steps, how often the raised one was
/// better, and how often it refused earlier.
#[derive(Default)]
struct Compared {
    whole: usize,
    better: usize,
    refused: usize,
}

impl Compared {
    /// A road that runs, compared with one that is raised.
    fn compare(&mut self, record: &[u8], lanes: &[u8], dice: &mut Dice) {
        let reading = read(record);
        let mut rows = vec![0; reading.steps * (reading.road.n + 1)];
        let plain = run_under(record, lanes, &mut rows);
        let better = raised_record(record, dice);
        // Its rows fit the raised road, as a schedule.
        let judged = judge_under(&better, lanes, &rows);
        assert!(judged.state.steps >= plain.state.steps);
        let mut other = vec![0; rows.len()];
        let found = run_under(&better, lanes, &mut other);
        let steps = plain.state.steps.min(found.state.steps);
        let (mut first, mut second) = (0, 0);
        let before = after_steps(record, &rows, steps, &same(1));
        let after = after_steps(&better, &other, steps, &same(1));
        for (a, b) in before.iter().zip(&after) {
            (first, second) = (first + a, second + b);
            assert!(second <= first, "{first} {second}");
        }
        if plain.number == 0 && found.number == 0 {
            assert!(found.state.total() <= plain.state.total());
            self.whole += 1;
            self.better += usize::from(second < first);
        }
        self.refused += usize::from(found.state.steps < plain.state.steps);
    }
}

#[test]
fn raised_cells_never_make_the_total_larger() {
    let mut dice = Dice(24);
    let (mut open, mut closed) = (Compared::default(), Compared::default());
    for case in all_cases() {
        let Case::Run { lanes, record, .. } = &case else {
            continue;
        };
        let mut list = vec![0; 9_000];
        let answer = run_under(record, lanes, &mut list);
        if !matches!(answer.number, 0 | 9 | 10) || record.len() > 3_000 {
            continue;
        }
        let compared = match lanes.is_empty() {
            true => &mut open,
            false => &mut closed,
        };
        for _ in 0..2 {
            compared.compare(record, lanes, &mut dice);
        }
    }
    for _ in 0..200 {
        let record = random_record(&mut dice).encode();
        open.compare(&record, &[], &mut dice);
    }
    // A raised road may also refuse a release: more has entered the cell.
    assert!(open.whole >= 500 && open.better >= 200 && open.refused >= 5);
    assert!(closed.whole >= 200 && closed.better >= 80 && closed.refused >= 2);
}

#[test]
fn every_refusal_is_weighed_in_the_trials() {
    let mut seen = std::collections::BTreeSet::new();
    for case in all_cases() {
        let Case::Weigh(input) = &case else { continue };
        let (mut list, mut weighed) = (vec![LENT; input.length], vec![LENT; input.length]);
        let answer = run_under(&input.record, &input.lanes, &mut list);
        let (same, weighted) =
            weigh::run(&input.record, &input.lanes, &input.weights, &mut weighed);
        assert!(answer == same && list == weighed);
        assert!(answer.state.steps > 0 || weighted == 0);
        seen.insert((answer.number, answer.step.min(3), input.lanes.is_empty()));
    }
    for number in (0..=6).chain([11, 19]) {
        assert!(seen.contains(&(number, 0, true)), "{number}");
    }
    for number in [0, 11, 17, 18] {
        assert!(seen.contains(&(number, 0, false)), "{number}");
    }
    for number in [9, 10] {
        for step in 0..=3 {
            assert!(seen.contains(&(number, step, true)), "{number} {step}");
        }
    }
}
