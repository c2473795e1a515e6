//! Pseudo-random roads: conservation, greatest outflows, running and judging.

use crate::support::*;
use reference::draft::{CellDraft, Draft};
use reference::model::*;
use reference::record::read;
use reference::step::{advance, greatest_outflows, room};

/// A linear congruential generator (Knuth's 64-bit one); the upper half is used.
pub struct Dice(pub u64);

impl Dice {
    /// A number from 0 to `most`.
    pub fn upto(&mut self, most: u64) -> u64 {
        self.0 = self
            .0
            .wrapping_mul(6_364_136_223_846_793_005)
            .wrapping_add(1_442_695_040_888_963_407);
        (self.0 >> 32) % (most + 1)
    }

    /// A number up to `most` of any size, often one of the bounds.
    fn any_size(&mut self, most: u64) -> u32 {
        let bits = self.upto(33);
        match bits {
            0 => 0,
            33 => most as u32,
            _ => {
                let bound = most.min((1 << (bits - 1)) - 1);
                self.upto(bound) as u32
            }
        }
    }
}

fn random_cell(dice: &mut Dice, last: bool) -> CellDraft {
    let ramp = dice.upto(1) as u16;
    let jam = dice.any_size(1_000_000);
    CellDraft {
        v: dice.upto(1_000) as u16,
        w: dice.upto(1_000) as u16,
        b: match dice.upto(4) {
            _ if last => 0,
            0 => 1_000,
            1 => 0,
            _ => dice.upto(1_000) as u16,
        },
        ramp,
        jam,
        capacity: dice.any_size(1_000_000),
        held: dice.upto(u64::from(jam)) as u32,
        queue: match ramp {
            1 => dice.any_size(1_000_000_000),
            _ => 0,
        },
    }
}

/// A road without rows.
fn random_road(dice: &mut Dice) -> Draft {
    let n = match dice.upto(9) {
        0 => 64,
        1 => 1,
        _ => 1 + dice.upto(7),
    };
    let cells = (1..=n).map(|cell| random_cell(dice, cell == n)).collect();
    let gate = (dice.any_size(1_000_000), dice.any_size(1_000_000_000));
    Draft::new(gate, cells, vec![])
}

/// A row whose releases fit this state.
fn fitting_row(dice: &mut Dice, road: &Road, state: &State) -> Vec<u32> {
    let mut row = vec![dice.any_size(1_000_000)];
    for cell in 1..=road.n {
        let with_ramp = road.ramp[cell - 1] == 1;
        let arriving = if with_ramp {
            dice.any_size(1_000_000)
        } else {
            0
        };
        row.push(arriving);
        let waiting = u64::from(state.queue[cell - 1]) + u64::from(arriving);
        let most = supply(road, state, cell).min(waiting);
        row.push(match (with_ramp, dice.upto(3)) {
            (false, _) => 0,
            (true, 0) => most as u32,
            (true, _) => dice.upto(most) as u32,
        });
    }
    row
}

/// A record that runs to its end, made by stepping along.
pub fn random_record(dice: &mut Dice) -> Draft {
    let mut draft = random_road(dice);
    draft.rows = vec![vec![0; 1 + 2 * draft.cells.len()]];
    draft.steps = 1;
    let reading = read(&draft.encode());
    assert_eq!(reading.number, 0);
    let (road, mut state) = (reading.road, reading.state);
    draft.rows.clear();
    draft.steps = 1 + dice.upto(29) as u16;
    for _ in 0..draft.steps {
        let row = fitting_row(dice, &road, &state);
        let stepped = step(road, state, &row);
        assert_eq!(stepped.number, 0);
        state = stepped.state;
        draft.rows.push(row);
    }
    draft
}

/// Present at the start, from the record's values.
fn start_of(draft: &Draft) -> u64 {
    let cells = draft.cells.iter();
    u64::from(draft.gate_queue)
        + cells
            .map(|cell| u64::from(cell.held) + u64::from(cell.queue))
            .sum::<u64>()
}

fn arrivals_of(row: &[u32]) -> u64 {
    let ramps = row[1..].iter().step_by(2);
    u64::from(row[0]) + ramps.map(|&number| u64::from(number)).sum::<u64>()
}

#[test]
fn start_and_arrivals_are_present_and_exits() {
    let mut dice = Dice(1);
    for _ in 0..300 {
        let draft = random_record(&mut dice);
        let reading = read(&draft.encode());
        let (road, mut state) = (reading.road, reading.state);
        let mut arrived = start_of(&draft);
        let mut times = [0; 3];
        for row in &draft.rows {
            state = step(road, state, row).state;
            arrived += arrivals_of(row);
            assert_eq!(arrived, present(&road, &state) + exits(&road, &state));
            times[0] += u64::from(state.gate_queue);
            times[1] += all_held(&road, &state);
            times[2] += all_queues(&road, &state);
            assert_eq!([state.gate_time, state.road_time, state.ramp_time], times);
        }
    }
}

#[test]
fn one_part_more_never_obeys_the_rules() {
    let mut dice = Dice(2);
    for _ in 0..200 {
        let draft = random_record(&mut dice);
        let reading = read(&draft.encode());
        let (road, mut state) = (reading.road, reading.state);
        for row in &draft.rows {
            let outflows = greatest_outflows(&road, &state, row);
            for (place, &outflow) in outflows.iter().enumerate() {
                let fits = |outflow: u64| {
                    let f = state.cumulative(place);
                    outflow <= demand(&road, &state, place)
                        && (place == road.n
                            || entering(road.share(place), f, outflow)
                                <= room(&road, &state, row, place + 1))
                };
                assert!(fits(u64::from(outflow)));
                assert!(!fits(u64::from(outflow) + 1));
            }
            state = advance(&road, &state, row, &outflows);
        }
    }
}

#[test]
fn the_search_finds_the_greatest_outflow_that_trying_all_finds() {
    let mut dice = Dice(3);
    for _ in 0..3_000 {
        let share = match dice.upto(3) {
            0 => dice.upto(5),
            1 => 1_000 - dice.upto(5),
            _ => dice.upto(1_000),
        };
        let (f, demand, room) = (dice.upto(5_000), dice.upto(300), dice.upto(300));
        let tried = (0..=demand).rfind(|&q| entering(share, f, q) <= room);
        assert_eq!(Some(greatest_outflow(share, f, demand, room)), tried);
    }
}

#[test]
fn judging_accepts_the_run_s_own_rows_with_the_same_state() {
    let mut dice = Dice(4);
    for _ in 0..300 {
        let record = random_record(&mut dice).encode();
        let (answer, list) = run_whole(&record);
        assert_eq!(answer.number, 0);
        assert_eq!(judge(&record, &list), answer);
    }
}

#[test]
fn judging_refuses_one_part_more_just_there() {
    let mut dice = Dice(5);
    for _ in 0..300 {
        let record = random_record(&mut dice).encode();
        let (answer, mut list) = run_whole(&record);
        let k = dice.upto(list.len() as u64 - 1) as usize;
        list[k] += 1;
        let judged = judge(&record, &list);
        let width = answer.road.n + 1;
        assert!(judged.number == 13 || judged.number == 14);
        assert_eq!((judged.step, judged.place), (k / width, k % width));
        assert_eq!((judged.road, judged.state.steps), (answer.road, k / width));
    }
}

#[test]
fn stepping_and_running_agree_also_where_they_refuse() {
    let mut dice = Dice(6);
    for _ in 0..300 {
        let mut draft = random_record(&mut dice);
        // Any releases at the ramps: soon one is too much.
        for row in &mut draft.rows {
            for (i, cell) in draft.cells.iter().enumerate() {
                if cell.ramp == 1 && dice.upto(20) == 0 {
                    row[2 * i + 2] = dice.any_size(1_000_000);
                }
            }
        }
        let reading = read(&draft.encode());
        let mut state = reading.state;
        let mut wanted = (0, 0, 0);
        for (t, row) in draft.rows.iter().enumerate() {
            let stepped = step(reading.road, state, row);
            state = stepped.state;
            if stepped.number != 0 {
                wanted = (stepped.number, t, stepped.place);
                break;
            }
        }
        let (answer, list) = run_whole(&draft.encode());
        assert_eq!((verdict(&answer), answer.state), (wanted, state));
        let written = state.steps * (reading.road.n + 1);
        assert!(list[..written].iter().all(|&number| number <= 1_000_000));
        assert!(list[written..].iter().all(|&number| number == LENT));
    }
}

/// Puts any number somewhere into a road, a state or a row.
fn spoil(dice: &mut Dice, road: &mut Road, state: &mut State, row: &mut Vec<u32>) {
    let i = dice.upto(63) as usize;
    let number = dice.any_size(u64::from(u32::MAX));
    match dice.upto(17) {
        0 => road.n = number as usize,
        1 => road.v[i] = number as u16,
        2 => road.w[i] = number as u16,
        3 => road.b[i] = number as u16,
        4 => road.ramp[i] = number as u16,
        5 => road.jam[i] = number,
        6 => road.capacity[i] = number,
        7 => state.held[i] = number,
        8 => state.queue[i] = number,
        9 => state.f[i] = number,
        10 => state.road_time = u64::from(number) << dice.upto(32),
        11 => state.steps = dice.upto(1_500) as usize,
        12 => row.truncate(number as usize),
        13 => road.gate_capacity = number,
        14 => state.gate_queue = number,
        15 => state.gate_f = number,
        _ => {
            let k = i % row.len();
            row[k] = number;
        }
    }
}

#[test]
fn stepping_takes_any_numbers() {
    let mut dice = Dice(7);
    let mut seen = [0; 11];
    for _ in 0..5_000 {
        let draft = random_record(&mut dice);
        let reading = read(&draft.encode());
        let (mut road, mut state) = (reading.road, reading.state);
        let mut row = draft.rows[0].clone();
        spoil(&mut dice, &mut road, &mut state, &mut row);
        let stepped = step(road, state, &row);
        seen[stepped.number as usize] += 1;
        if stepped.number == 0 {
            assert_eq!(stepped.state.steps, state.steps + 1);
        } else {
            assert_eq!(stepped.state, state);
        }
    }
    assert!(seen[0] > 0 && seen[7] > 0 && seen[9] > 0 && seen[10] > 0);
    assert_eq!(seen[1..7], [0; 6]);
}
