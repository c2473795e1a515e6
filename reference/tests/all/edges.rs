//! The edges that the document lists, and its printed run.

use crate::support::*;
use reference::model::*;
use reference::print::printed_run;
use reference::record::read;
use reference::step::greatest_outflows;

const PRINTED: &str = "\
step place outflow held queue
0 0 1500 2500 0
0 1 934 2566 0
0 2 1000 4000 1700
1 0 1358 2142 0
1 1 933 2991 0
1 2 1000 4000 1900
2 0 1252 1890 0
2 1 934 3309 0
2 2 1000 4000 2100
total 33098 gate 6532 road 20866 ramp 5700 exits 3701
";

#[test]
fn demand_rounds_down() {
    assert_eq!(cell_demand(500, 2000, 2566), 1283);
    assert_eq!(cell_demand(500, 2000, 2567), 1283);
    assert_eq!(cell_demand(1000, 2000, 2001), 2000);
}

#[test]
fn supply_rounds_down_and_ends_at_jam() {
    assert_eq!(cell_supply(250, 2000, 8000, 2566), 1358);
    assert_eq!(cell_supply(250, 2000, 8000, 8000), 0);
    assert_eq!(cell_supply(250, 2000, 8000, 8001), 0);
}

#[test]
fn what_enters_is_the_growth_of_the_onward_total() {
    assert_eq!(entering(750, 934, 933), 700);
    assert_eq!(entering(750, 934, 934), 701);
}

#[test]
fn a_share_below_one_may_send_though_nothing_may_enter() {
    assert_eq!(greatest_outflow(750, 0, 0, 0), 0);
    for demand in [1, 2, 1000] {
        assert_eq!(greatest_outflow(750, 0, demand, 0), 1);
    }
}

#[test]
fn with_share_0_supply_never_holds_the_outflow() {
    for demand in [0, 1, 1_000_000] {
        assert_eq!(greatest_outflow(0, 5, demand, 0), demand);
    }
}

#[test]
fn the_printed_run_is_exact() {
    let record = record_of(EXAMPLE);
    assert_eq!(record.len(), 124);
    assert_eq!(printed_run(&record), PRINTED);
}

#[test]
fn the_three_steps_one_by_one() {
    let reading = read(&record_of(EXAMPLE));
    let row = [1000, 0, 0, 500, 300];
    let wanted = [
        ([1500, 934, 1000], 2500, [2566, 4000], 1700),
        ([1358, 933, 1000], 2142, [2991, 4000], 1900),
        ([1252, 934, 1000], 1890, [3309, 4000], 2100),
    ];
    let mut state = reading.state;
    for (outflows, gate, held, queue) in wanted {
        assert_eq!(greatest_outflows(&reading.road, &state, &row), outflows);
        let stepped = step(reading.road, state, &row);
        assert_eq!((stepped.number, stepped.place), (0, 0));
        state = stepped.state;
        assert_eq!(state.gate_queue, gate);
        assert_eq!(state.held[..2], held);
        assert_eq!(state.queue[..2], [0, queue]);
    }
    assert_eq!((state.steps, state.total()), (3, 33098));
    let times = (state.gate_time, state.road_time, state.ramp_time);
    assert_eq!(times, (2500 + 2142 + 1890, 6566 + 6991 + 7309, 5700));
    assert_eq!((state.gate_f, &state.f[..2]), (4110, &[2801, 3000][..]));
}

#[test]
fn release_equal_to_queue_and_arrivals_passes_and_one_more_is_9() {
    let reading = read(&record_of(EXAMPLE));
    for queue in [0, 300] {
        let mut state = reading.state;
        state.queue[1] = queue;
        let passed = step(reading.road, state, &[0, 0, 0, 500, queue + 500]);
        assert_eq!((passed.number, passed.state.queue[1]), (0, 0));
        let over = step(reading.road, state, &[0, 0, 0, 500, queue + 501]);
        assert_eq!((over.number, over.place, over.state), (9, 2, state));
    }
}

#[test]
fn release_equal_to_supply_passes_and_one_more_is_10() {
    // Supply of cell 2 is min(1000, 250 * 4000 / 1000) = 1000.
    let reading = read(&record_of(EXAMPLE));
    let state = reading.state;
    assert_eq!(step(reading.road, state, &[0, 0, 0, 0, 1000]).number, 0);
    let over = step(reading.road, state, &[0, 0, 0, 0, 1001]);
    assert_eq!((over.number, over.place, over.state), (10, 2, state));
}

#[test]
fn judging_one_part_too_much_at_step_1() {
    let record = record_of(EXAMPLE);
    let (_, mut schedule) = run_whole(&record);
    schedule[4] = 934;
    let answer = judge(&record, &schedule);
    assert_eq!(verdict(&answer), (14, 1, 1));
    let reading = read(&record);
    let before = step(reading.road, reading.state, &[1000, 0, 0, 500, 300]).state;
    assert_eq!((answer.road, answer.state), (reading.road, before));
}

#[test]
fn judging_all_zeros() {
    let answer = judge(&record_of(EXAMPLE), &[0; 9]);
    assert_eq!(verdict(&answer), (0, 0, 0));
    assert_eq!(sums(&answer), (40500, 0));
}

#[test]
fn three_ways_to_spoil_a_study_would_show() {
    let record = record_of(EXAMPLE);
    let (answer, list) = run_whole(&record);
    // Rounding each step's share alone: floor(0.75 * 934) = 700 fits.
    assert_eq!((list[4], 750 * 934 / 1000), (933, 700));
    // The ramp queues are 1700, 1900 and 2100 of the total.
    assert_eq!(answer.state.ramp_time, 1700 + 1900 + 2100);
    assert_eq!(answer.state.gate_time + answer.state.road_time, 27398);
}
