//! Refusals 7 to 10 of stepping, for any numbers.

use crate::support::*;
use reference::model::{Road, State};
use reference::record::read;

/// A road, a state and a row, to be changed.
#[derive(Clone)]
struct Input {
    road: Road,
    state: State,
    row: Vec<u32>,
}

/// The example with a ramp at both cells and one step done.
fn sound() -> Input {
    let reading = read(&record_of(EXAMPLE));
    let row = vec![1000, 0, 0, 500, 300];
    let mut state = step(reading.road, reading.state, &row).state;
    let mut road = reading.road;
    road.ramp[0] = 1;
    state.queue[0] = 10;
    Input { road, state, row }
}

/// Number and place; a refused step must give the state back.
fn with(change: impl Fn(&mut Input)) -> (u32, usize) {
    let mut input = sound();
    change(&mut input);
    let stepped = step(input.road, input.state, &input.row);
    if stepped.number == 0 {
        assert_eq!(stepped.state.steps, input.state.steps + 1);
    } else {
        assert_eq!(stepped.state, input.state);
    }
    (stepped.number, stepped.place)
}

type Change = fn(&mut Input);

/// Gate, road and ramp time.
fn set_times(input: &mut Input, times: [u64; 3]) {
    let state = &mut input.state;
    [state.gate_time, state.road_time, state.ramp_time] = times;
}

#[test]
fn at_the_bounds_a_step_passes() {
    let passing: [Change; 17] = [
        |_| (),
        |x| x.row[0] = 1_000_000,
        |x| x.row[1] = 1_000_000,
        |x| x.road.gate_capacity = 1_000_000,
        |x| x.road.v[0] = 1_000,
        |x| x.road.w[0] = 1_000,
        |x| x.road.b[0] = 1_000,
        |x| x.road.jam[0] = 1_000_000,
        |x| x.road.capacity[0] = 1_000_000,
        |x| x.state.held[0] = 8_000,
        |x| x.state.gate_f = 1_000_000,
        |x| x.state.f[0] = 1_000_000,
        |x| x.state.f[1] = 1_000_000,
        |x| x.state.gate_queue = 1_001_000_000,
        |x| x.state.queue[0] = 1_001_000_000,
        |x| set_times(x, [200_000_000_000, 0, 0]),
        |x| x.state.steps = 1_439,
    ];
    for (k, change) in passing.into_iter().enumerate() {
        assert_eq!(with(change), (0, 0), "change {k}");
    }
}

#[test]
fn past_the_bounds_it_is_7() {
    let failing: [Change; 20] = [
        |x| x.row[0] = 1_000_001,
        |x| x.row[1] = 1_000_001,
        |x| x.row[4] = 1_000_001,
        |x| x.road.gate_capacity = 1_000_001,
        |x| x.road.v[0] = 1_001,
        |x| x.road.w[0] = 1_001,
        |x| x.road.b[0] = 1_001,
        |x| x.road.b[1] = 1,
        |x| x.road.ramp[0] = 2,
        |x| x.road.jam[0] = 1_000_001,
        |x| x.road.capacity[0] = 1_000_001,
        |x| x.state.held[0] = 8_001,
        |x| x.state.gate_f = 1_000_001,
        |x| x.state.f[0] = 1_000_001,
        |x| x.state.f[1] = 1_000_001,
        |x| x.state.gate_queue = 1_001_000_001,
        |x| x.state.queue[0] = 1_001_000_001,
        |x| set_times(x, [0, 200_000_000_001, 0]),
        |x| x.state.steps = 1_441,
        |x| x.state.steps = usize::MAX,
    ];
    for (k, change) in failing.into_iter().enumerate() {
        assert_eq!(with(change), (7, 0), "change {k}");
    }
}

#[test]
fn a_cell_without_a_ramp_has_no_queue_and_no_row() {
    let no_ramp: Change = |x| (x.road.ramp[0], x.state.queue[0]) = (0, 0);
    assert_eq!(with(no_ramp), (0, 0));
    let failing: [Change; 3] = [|x| x.state.queue[0] = 1, |x| x.row[1] = 1, |x| x.row[2] = 1];
    for change in failing {
        let both = |x: &mut Input| {
            no_ramp(x);
            change(x);
        };
        assert_eq!(with(both), (7, 0));
    }
}

#[test]
fn the_bounds_grow_with_the_steps_done() {
    // Before the first step every F and the total must be 0.
    let start: Change = |x| {
        (x.state.steps, x.state.gate_f) = (0, 0);
        set_times(x, [0; 3]);
        x.state.f = [0; 64];
    };
    assert_eq!(with(start), (0, 0));
    let failing: [Change; 4] = [
        |x| set_times(x, [0, 0, 1]),
        |x| x.state.gate_f = 1,
        |x| x.state.f[1] = 1,
        |x| x.state.gate_queue = 1_000_000_001,
    ];
    for change in failing {
        let both = |x: &mut Input| {
            start(x);
            change(x);
        };
        assert_eq!(with(both), (7, 0));
    }
    // The greatest state that can still be stepped.
    let greatest: Change = |x| {
        x.state.steps = 1_439;
        set_times(x, [200_000_000_000 * 1_400, 0, 200_000_000_000 * 39]);
        x.state.gate_f = 1_439_000_000;
        x.state.f = [1_439_000_000; 64];
        x.state.gate_queue = 2_439_000_000;
        x.state.queue = [2_439_000_000; 64];
        x.row = vec![1_000_000, 1_000_000, 0, 1_000_000, 0];
    };
    assert_eq!(with(greatest), (0, 0));
}

#[test]
fn the_three_times_are_bounded_together() {
    // After one step; no sum wraps.
    let bound = 200_000_000_000;
    let with_times = |times: [u64; 3]| with(|x| set_times(x, times));
    for times in [
        [bound, 0, 0],
        [0, bound, 0],
        [0, 0, bound],
        [1, 2, bound - 3],
    ] {
        assert_eq!(with_times(times), (0, 0));
    }
    for times in [
        [1, 2, bound - 2],
        [bound, 1, 0],
        [0, bound, 1],
        [bound, bound, bound],
        [u64::MAX, 1, 0],
        [1 << 63, 1 << 63, 0],
        [u64::MAX, u64::MAX, 2],
        [u64::MAX; 3],
    ] {
        assert_eq!(with_times(times), (7, 0), "{times:?}");
    }
}

#[test]
fn any_n_and_any_row_length() {
    for n in [0, 1, 3, 64, 65, 127, usize::MAX / 2, usize::MAX] {
        assert_eq!(with(|x| x.road.n = n), (7, 0), "n {n}");
    }
    for length in [0, 1, 4, 6, 129] {
        assert_eq!(with(|x| x.row = vec![0; length]), (7, 0));
    }
    // n 64 with a fitting row passes.
    let wide = Input {
        road: Road {
            n: 64,
            ..Road::empty()
        },
        state: State::empty(),
        row: vec![0; 129],
    };
    assert_eq!(with(|x| x.clone_from(&wide)), (0, 0));
    let too_wide = |x: &mut Input| {
        x.clone_from(&wide);
        x.road.n = 65;
        x.row = vec![0; 131];
    };
    assert_eq!(with(too_wide), (7, 0));
}

#[test]
fn refusal_8_after_7_and_before_9() {
    assert_eq!(with(|x| x.state.steps = 1_440), (8, 0));
    assert_eq!(
        with(|x| (x.state.steps, x.road.v[1]) = (1_440, 1_001)),
        (7, 0)
    );
    assert_eq!(with(|x| (x.state.steps, x.row[2]) = (1_440, 11)), (8, 0));
    let greatest: Change = |x| {
        x.state.steps = 1_440;
        set_times(x, [287_000_000_000_000, 0, 1_000_000_000_000]);
        x.state.gate_f = 1_440_000_000;
        x.state.gate_queue = 2_440_000_000;
    };
    assert_eq!(with(greatest), (8, 0));
    let past: [Change; 3] = [
        |x| x.state.road_time = 1,
        |x| x.state.gate_f = 1_440_000_001,
        |x| x.state.gate_queue = 2_440_000_001,
    ];
    for change in past {
        let both = |x: &mut Input| {
            greatest(x);
            change(x);
        };
        assert_eq!(with(both), (7, 0));
    }
}

#[test]
fn refusals_9_and_10_at_the_lowest_cell() {
    // Cell 1: queue 10, held 2566, supply 1358. Cell 2: queue 1700, supply 1000.
    assert_eq!(with(|x| x.row[2] = 10), (0, 0));
    assert_eq!(with(|x| x.row[2] = 11), (9, 1));
    assert_eq!(with(|x| x.row[4] = 1_000), (0, 0));
    assert_eq!(with(|x| x.row[4] = 1_001), (10, 2));
    // Above both, 500 arrive at cell 2: 9 comes first.
    assert_eq!(with(|x| x.row[4] = 2_200), (10, 2));
    assert_eq!(with(|x| x.row[4] = 2_201), (9, 2));
    // 10 at cell 1 comes before 9 at cell 2.
    let both = |x: &mut Input| {
        x.state.queue[0] = 5_000;
        x.row[2] = 1_359;
        x.row[4] = 2_201;
    };
    assert_eq!(with(both), (10, 1));
    // This step's arrivals may be released too, those of others may not.
    assert_eq!(with(|x| (x.row[1], x.row[2]) = (500, 510)), (0, 0));
    assert_eq!(with(|x| (x.row[1], x.row[2]) = (500, 511)), (9, 1));
}

#[test]
fn entries_past_the_last_cell_are_kept_and_not_looked_at() {
    let clean = sound();
    let mut dirty = clean.clone();
    for i in 2..64 {
        dirty.road.v[i] = u16::MAX;
        dirty.road.w[i] = u16::MAX;
        dirty.road.b[i] = u16::MAX;
        dirty.road.ramp[i] = u16::MAX;
        dirty.road.capacity[i] = u32::MAX;
        dirty.state.held[i] = u32::MAX - i as u32;
        dirty.state.queue[i] = u32::MAX;
        dirty.state.f[i] = u32::MAX;
    }
    let mut wanted = step(clean.road, clean.state, &clean.row);
    assert_eq!(wanted.number, 0);
    wanted.state.held[2..].copy_from_slice(&dirty.state.held[2..]);
    wanted.state.queue[2..].copy_from_slice(&dirty.state.queue[2..]);
    wanted.state.f[2..].copy_from_slice(&dirty.state.f[2..]);
    assert_eq!(step(dirty.road, dirty.state, &dirty.row), wanted);
}

#[test]
fn all_ones_everywhere_is_7() {
    let road = Road {
        n: 64,
        version: u8::MAX,
        seconds: u16::MAX,
        gate_capacity: u32::MAX,
        v: [u16::MAX; 64],
        w: [u16::MAX; 64],
        b: [u16::MAX; 64],
        ramp: [u16::MAX; 64],
        jam: [u32::MAX; 64],
        capacity: [u32::MAX; 64],
    };
    let state = State {
        steps: 1_440,
        gate_time: u64::MAX,
        road_time: u64::MAX,
        ramp_time: u64::MAX,
        gate_queue: u32::MAX,
        gate_f: u32::MAX,
        held: [u32::MAX; 64],
        queue: [u32::MAX; 64],
        f: [u32::MAX; 64],
    };
    let stepped = step(road, state, &[u32::MAX; 129]);
    assert_eq!(
        (stepped.number, stepped.place, stepped.state),
        (7, 0, state)
    );
}
