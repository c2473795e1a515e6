//! Refusals 1 to 6, at each bound and one past it.

use crate::support::*;
use reference::draft::{CellDraft, Draft};
use reference::model::{Road, State};
use reference::record::{read, size, Reading};

/// Number and place. A refusal must give nothing else.
fn outcome(record: &[u8]) -> (u32, usize) {
    let reading = read(record);
    if reading.number != 0 {
        let bare = Reading {
            number: reading.number,
            place: reading.place,
            road: Road::empty(),
            steps: 0,
            state: State::empty(),
        };
        assert_eq!(reading, bare);
    }
    (reading.number, reading.place)
}

fn with(change: impl FnOnce(&mut Draft)) -> (u32, usize) {
    let mut draft = example_draft();
    change(&mut draft);
    outcome(&draft.encode())
}

#[test]
fn the_example_is_read_whole() {
    let reading = read(&example_draft().encode());
    assert_eq!((reading.number, reading.place, reading.steps), (0, 0, 3));
    let (road, state) = (reading.road, reading.state);
    assert_eq!((road.n, road.gate_capacity), (2, 2000));
    assert_eq!(
        (road.v[..3].to_vec(), road.w[..3].to_vec()),
        (vec![500, 500, 0], vec![250, 250, 0])
    );
    assert_eq!(
        (road.b[..3].to_vec(), road.ramp[..3].to_vec()),
        (vec![750, 0, 0], vec![0, 1, 0])
    );
    assert_eq!(road.jam[..3], [8000, 8000, 0]);
    assert_eq!(road.capacity[..3], [2000, 1000, 0]);
    assert_eq!((state.steps, state.total(), state.gate_f), (0, 0, 0));
    assert_eq!(state.gate_queue, 3000);
    assert_eq!(state.held[..3], [2000, 4000, 0]);
    assert_eq!(state.queue[..3], [0, 1500, 0]);
    assert_eq!(state.f, [0; 64]);
    assert_eq!(
        (
            road.v[2..].iter().sum::<u16>(),
            state.held[2..].iter().sum::<u32>()
        ),
        (0, 0)
    );
}

#[test]
fn refusal_1_too_short() {
    assert_eq!(outcome(&[]), (1, 0));
    // 15 bytes with a true first field, then 16 (a good frame, but the size is 4).
    let mut bytes = example_draft().encode();
    bytes.truncate(15);
    bytes[3] = 11;
    assert_eq!(outcome(&bytes), (1, 0));
    bytes.push(0);
    bytes[3] = 12;
    assert_eq!(outcome(&bytes), (4, 0));
    assert_eq!(outcome(&[0; 16]), (1, 0));
}

#[test]
fn refusal_1_too_long() {
    // n 64 and T 124 make 16 + 1536 + 124 * 516 = 65,536 bytes.
    let cells = vec![CellDraft::default(); 64];
    let mut draft = Draft::new((0, 0), cells, vec![vec![0; 129]; 124]);
    assert_eq!(draft.encode().len(), 65_536);
    assert_eq!(outcome(&draft.encode()), (0, 0));
    draft.extra = 1;
    assert_eq!(outcome(&draft.encode()), (1, 0));
    draft.extra = 0;
    draft.rows.push(vec![0; 129]);
    draft.steps = 125;
    assert_eq!(outcome(&draft.encode()), (1, 0));
}

#[test]
fn refusal_1_first_field() {
    assert_eq!(with(|d| d.length = Some(120)), (0, 0));
    for length in [0, 119, 121, 124, u32::MAX] {
        assert_eq!(with(|d| d.length = Some(length)), (1, 0));
    }
}

#[test]
fn refusal_2() {
    for version in [0, 3, 255] {
        assert_eq!(with(|d| d.version = version), (2, 0));
    }
}

#[test]
fn refusal_3() {
    for n in [0, 65, 255] {
        assert_eq!(with(|d| d.n = n), (3, 0));
    }
    for steps in [0, 1_441, 65_535] {
        assert_eq!(with(|d| d.steps = steps), (3, 0));
    }
    // Within the limits, but the size is then another.
    assert_eq!(with(|d| d.n = 64), (4, 0));
    assert_eq!(with(|d| d.steps = 1_440), (4, 0));
    assert_eq!(with(|d| (d.n, d.steps) = (64, 1_440)), (4, 0));
    assert_eq!(with(|d| (d.n, d.steps) = (1, 1)), (4, 0));
}

#[test]
fn n_64_and_t_1440_can_be_read() {
    let wide = Draft::new((0, 0), vec![CellDraft::default(); 64], vec![vec![0; 129]]);
    assert_eq!(outcome(&wide.encode()), (0, 0));
    assert_eq!(read(&wide.encode()).road.n, 64);
    let long = Draft::new((0, 0), vec![CellDraft::default()], vec![vec![0; 3]; 1_440]);
    assert_eq!(outcome(&long.encode()), (0, 0));
    assert_eq!(read(&long.encode()).steps, 1_440);
    let longer = Draft::new((0, 0), vec![CellDraft::default()], vec![vec![0; 3]; 1_441]);
    assert_eq!(outcome(&longer.encode()), (3, 0));
    let wider = Draft::new((0, 0), vec![CellDraft::default(); 65], vec![vec![0; 131]]);
    assert_eq!(outcome(&wider.encode()), (3, 0));
}

#[test]
fn refusal_4() {
    assert_eq!(size(1, 2, 3), 124);
    assert_eq!(with(|d| d.cut = 1), (4, 0));
    assert_eq!(with(|d| d.extra = 1), (4, 0));
    assert_eq!(with(|d| d.rows.truncate(2)), (4, 0));
    assert_eq!(with(|d| d.rows[0].push(0)), (4, 0));
}

#[test]
fn refusal_5_at_the_gate() {
    assert_eq!(with(|d| d.gate_capacity = 1_000_000), (0, 0));
    assert_eq!(with(|d| d.gate_capacity = 1_000_001), (5, 0));
    assert_eq!(with(|d| d.gate_queue = 1_000_000_000), (0, 0));
    assert_eq!(with(|d| d.gate_queue = 1_000_000_001), (5, 0));
}

#[test]
fn refusal_5_in_a_cell() {
    type Change = fn(&mut Draft);
    let passing: [Change; 8] = [
        |d| d.cells[0].v = 1_000,
        |d| d.cells[0].w = 1_000,
        |d| d.cells[0].b = 1_000,
        |d| d.cells[0].ramp = 1,
        |d| d.cells[0].jam = 1_000_000,
        |d| d.cells[0].capacity = 1_000_000,
        |d| d.cells[0].held = 8_000,
        |d| (d.cells[0].ramp, d.cells[0].queue) = (1, 1_000_000_000),
    ];
    for change in passing {
        assert_eq!(with(change), (0, 0));
    }
    let failing: [Change; 9] = [
        |d| d.cells[0].v = 1_001,
        |d| d.cells[0].w = 1_001,
        |d| d.cells[0].b = 1_001,
        |d| d.cells[0].ramp = 2,
        |d| d.cells[0].jam = 1_000_001,
        |d| d.cells[0].capacity = 1_000_001,
        |d| d.cells[0].held = 8_001,
        |d| (d.cells[0].ramp, d.cells[0].queue) = (1, 1_000_000_001),
        |d| d.cells[0].queue = 1,
    ];
    for change in failing {
        assert_eq!(with(change), (5, 1));
    }
}

#[test]
fn refusal_5_last_share_and_lowest_place() {
    assert_eq!(with(|d| d.cells[1].b = 1), (5, 2));
    assert_eq!(with(|d| (d.cells[1].b, d.cells[0].v) = (1, 1_001)), (5, 1));
    assert_eq!(
        with(|d| (d.gate_queue, d.cells[0].v) = (u32::MAX, 1_001)),
        (5, 0)
    );
}

#[test]
fn refusal_6() {
    // Row: gate arrivals; cell 1 (no ramp); cell 2 (ramp) arrivals, release.
    for k in [0, 3, 4] {
        assert_eq!(with(|d| d.rows[2][k] = 1_000_000), (0, 0));
        assert_eq!(with(|d| d.rows[2][k] = 1_000_001), (6, 2));
    }
    for k in [1, 2] {
        assert_eq!(with(|d| d.rows[1][k] = 1), (6, 1));
    }
    // The first step is named; its number is the place.
    assert_eq!(
        with(|d| (d.rows[2][0], d.rows[0][1]) = (u32::MAX, 7)),
        (6, 0)
    );
}
