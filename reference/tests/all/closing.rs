//! Lanes closed: capacities, refusals 17 and 18, and runs by hand.

use crate::support::{example_draft, record_of, run_whole, verdict, EXAMPLE, LENT, ONE_LANE};
use reference::answer::Answer;
use reference::fill::fill;
use reference::judge::judge;
use reference::lanes::open_capacity;
use reference::lanes_text::table_of;
use reference::meter::Law;
use reference::record::{read, row};
use reference::run::run;
use reference::step::step;

/// Cell 1 with one lane, cell 2 with two, of which one is closed in step 1.
const HALF_IN_STEP_1: [u8; 8] = [1, 3, 1, 3, 1, 2, 1, 3];

/// A run under a table, with a list of nine.
fn run_under(record: &[u8], table: &[u8]) -> (Answer, [u32; 9]) {
    let mut list = [LENT; 9];
    (run(record, table, &mut list), list)
}

#[test]
fn capacities_by_hand() {
    assert_eq!(open_capacity(2_000, 0b111, 0b011), 1_333);
    assert_eq!(open_capacity(2_000, 0b111, 0b100), 666);
    assert_eq!(open_capacity(1_000, 0xFF, 0xFE), 875);
    assert_eq!(open_capacity(999, 1, 1), 999);
    assert_eq!(open_capacity(999, 0x80, 0), 0);
    assert_eq!(open_capacity(1_000_000, 0, 0xFF), 0);
    assert_eq!(open_capacity(10, 1, 3), 20);
    assert_eq!(open_capacity(u32::MAX, 1, 3), u32::MAX);
}

#[test]
fn half_of_the_capacity_for_a_step() {
    // Step 1: cell 2 takes 500, 300 of it from the ramp, so cell 1 may let 200
    // in: 1201 - 934 = 267. Step 2: 700 again, from F 1201.
    let (answer, list) = run_under(&record_of(EXAMPLE), &HALF_IN_STEP_1);
    assert_eq!(verdict(&answer), (0, 0, 0));
    assert_eq!(list, [1500, 934, 1000, 1358, 267, 500, 1085, 933, 1000]);
    assert_eq!(answer.state.gate_time, 2500 + 2142 + 2057);
    assert_eq!(answer.state.held[..2], [3809, 4000]);
    // The road returned is the record's.
    assert_eq!(answer.road, read(&record_of(EXAMPLE)).road);
}

#[test]
fn a_release_fits_the_lanes_left_open() {
    for (release, wanted) in [(500, (0, 0, 0)), (501, (10, 1, 2))] {
        let mut draft = example_draft();
        draft.rows[1][4] = release;
        let (answer, _) = run_under(&draft.encode(), &HALF_IN_STEP_1);
        assert_eq!(verdict(&answer), wanted);
    }
}

#[test]
fn with_no_lane_open_nothing_moves_there() {
    let closed = [1, 3, 1, 0, 1, 3, 1, 3];
    let mut draft = example_draft();
    let (answer, _) = run_under(&draft.encode(), &closed);
    assert_eq!(verdict(&answer), (10, 0, 2));
    draft.rows[0][4] = 0;
    let (answer, list) = run_under(&draft.encode(), &closed);
    // Cell 1 sends one part by its off-ramp: 750 of 1000 is rounded down.
    assert_eq!((answer.number, list[1], list[2]), (0, 1, 0));
}

#[test]
fn all_lanes_open_is_the_empty_table() {
    let record = record_of(EXAMPLE);
    for table in [[1; 8], [0xFF; 8], [1, 0xA5, 1, 0xA5, 1, 0xA5, 1, 0xA5]] {
        let (answer, list) = run_under(&record, &table);
        assert_eq!((answer, list.to_vec()), run_whole(&record));
    }
}

#[test]
fn a_schedule_that_fits_only_the_open_road() {
    let record = record_of(EXAMPLE);
    let (_, rows) = run_whole(&record);
    // 933 would let 700 in where 200 fit; 1001 is above any demand of cell 2.
    let answer = judge(&record, &HALF_IN_STEP_1, &rows);
    assert_eq!(verdict(&answer), (14, 1, 1));
    let (own, list) = run_under(&record, &HALF_IN_STEP_1);
    assert_eq!(judge(&record, &HALF_IN_STEP_1, &list), own);
    let mut more = list;
    more[5] = 501;
    let answer = judge(&record, &HALF_IN_STEP_1, &more);
    assert_eq!(verdict(&answer), (13, 1, 2));
    // The closed road's rows fit the open one.
    assert_eq!(judge(&record, &[], &list).number, 0);
}

#[test]
fn filling_sees_the_step_s_supply() {
    let mut record = record_of(EXAMPLE);
    let laws = [Law::Fixed { rate: 1e6 }; 64];
    let mut list = [LENT; 9];
    let answer = fill(&mut record, &laws, &HALF_IN_STEP_1, &mut list);
    assert_eq!(answer.number, 0);
    let releases = [0, 1, 2].map(|t| row(&record, 2, t)[4]);
    assert_eq!(releases, [1000, 500, 1000]);
    assert_eq!(run_under(&record, &HALF_IN_STEP_1), (answer, list));
    assert_eq!(
        verdict(&run_under(&record, &[1, 3, 1, 3, 1, 3, 1, 2]).0),
        (10, 2, 2)
    );
}

#[test]
fn refusals_17_and_18_of_a_table() {
    let record = record_of(EXAMPLE);
    let said = |table: &[u8]| {
        let (answer, list) = run_under(&record, table);
        assert_eq!(judge(&record, table, &[0; 9]).number, answer.number);
        assert_eq!(list, [LENT; 9]);
        assert_eq!(answer, Answer::without_state(answer.number, answer.place));
        (answer.number, answer.place)
    };
    for length in [1, 2, 6, 7, 9, 10, 12, 64] {
        assert_eq!(said(&vec![1; length]), (17, 0));
    }
    assert_eq!(said(&[0; 7]), (17, 0));
    assert_eq!(said(&[0; 8]), (18, 1));
    assert_eq!(said(&[1, 0, 1, 0, 1, 0, 1, 0]), (18, 2));
    assert_eq!(said(&[1, 3, 1, 3, 1, 3, 1, 7]), (18, 2));
    // Cell 2 in the first rows, cell 1 in the last.
    assert_eq!(said(&[1, 0, 1, 7, 1, 3, 2, 3]), (18, 1));
}

#[test]
fn refusals_17_and_18_in_order() {
    let record = record_of(EXAMPLE);
    let mut list = [LENT; 8];
    let nan = [Law::Fixed { rate: f64::NAN }; 64];
    let zero = [Law::Fixed { rate: 0.0 }; 64];
    let mut filled =
        |laws: &_, table: &[u8]| fill(&mut record.clone(), laws, table, &mut list).number;
    assert_eq!(filled(&nan, &[1; 7]), 16);
    assert_eq!(filled(&zero, &[1; 7]), 17);
    assert_eq!(filled(&zero, &[0; 8]), 18);
    assert_eq!(filled(&zero, &[1; 8]), 11);
    let mut list = [LENT; 8];
    assert_eq!(run(&record, &[1; 7], &mut list).number, 17);
    assert_eq!(run(&record, &[0; 8], &mut list).number, 18);
    assert_eq!(run(&record, &[1; 8], &mut list).number, 11);
    assert_eq!(judge(&record, &[1; 7], &list).number, 17);
    assert_eq!(judge(&record, &[0; 8], &list).number, 18);
    assert_eq!(judge(&record, &[1; 8], &list).number, 12);
    let mut draft = example_draft();
    draft.rows[2][1] = 1;
    assert_eq!(run(&draft.encode(), &[0; 7], &mut list).number, 6);
}

#[test]
fn a_step_meets_18_between_7_and_8() {
    let reading = read(&record_of(EXAMPLE));
    let row = [1000, 0, 0, 500, 300];
    let mut built = ONE_LANE;
    built[1] = 0;
    let mut state = reading.state;
    let stepped = step(reading.road, state, &row, &built, &ONE_LANE);
    assert_eq!(
        (stepped.number, stepped.place, stepped.state),
        (18, 2, state)
    );
    state.steps = 1_440;
    assert_eq!(
        step(reading.road, state, &row, &built, &ONE_LANE).number,
        18
    );
    assert_eq!(
        step(reading.road, state, &row, &ONE_LANE, &ONE_LANE).number,
        8
    );
    state.steps = 1_441;
    assert_eq!(step(reading.road, state, &row, &built, &ONE_LANE).number, 7);
    // 18 before 9; past cell n nothing is read.
    let over = [1000, 0, 0, 500, 2001];
    assert_eq!(
        step(reading.road, reading.state, &over, &built, &ONE_LANE).number,
        18
    );
    built[1] = 1;
    built[2..].fill(0);
    assert_eq!(
        step(reading.road, reading.state, &over, &built, &ONE_LANE).number,
        9
    );
    let mut open = ONE_LANE;
    open[0] = 2;
    let stepped = step(reading.road, reading.state, &row, &ONE_LANE, &open);
    assert_eq!((stepped.number, stepped.place), (18, 1));
}

#[test]
fn a_step_takes_the_capacity_of_its_lanes() {
    // Cell 2 at half: it sends 500 and takes 500, 300 of it from the ramp.
    let reading = read(&record_of(EXAMPLE));
    let (mut built, mut open) = (ONE_LANE, ONE_LANE);
    (built[1], open[1]) = (0xF0, 0x30);
    let row = [1000, 0, 0, 500, 300];
    let state = step(reading.road, reading.state, &row, &built, &open).state;
    // 200 enter: outflow 267 from F 0, and the held counts follow.
    assert_eq!(state.f[..2], [267, 500]);
    assert_eq!(state.held[..2], [2000 + 1500 - 267, 4000]);
    for (release, number) in [(500, 0), (501, 10)] {
        let row = [0, 0, 0, 500, release];
        let stepped = step(reading.road, reading.state, &row, &built, &open);
        assert_eq!(stepped.number, number);
    }
}

#[test]
fn a_table_as_text() {
    let text = "cells 2\nsteps 3\nbuilt 1\nbuilt 2 cell 2 # two\nclosed 1 cell 2 steps 1 to 1\n";
    assert_eq!(table_of(text).unwrap(), HALF_IN_STEP_1);
    let text = "cells 1\nsteps 2\nbuilt 8\n";
    assert_eq!(table_of(text).unwrap(), [255, 255, 255]);
    for (text, wanted) in [
        ("", "line 1: the text ends without 'cells'"),
        ("cells 2\nbuilt 1", "line 2: the text ends without 'steps'"),
        (
            "cells 2\nsteps 1",
            "line 2: the text ends with a cell that has no lanes",
        ),
        ("cells 0", "line 1: the cells: 0 is less than 1"),
        ("cells 65", "line 1: the cells: 65 is more than 64"),
        ("cells 2\ncells 2", "line 2: 'cells' is not allowed here"),
        ("cells 2\nbuilt 9", "line 2: the lanes: 9 is more than 8"),
        (
            "cells 2\nbuilt 1 cell 3",
            "line 2: the cell: 3 is more than 2",
        ),
        (
            "cells 2\nsteps 3\nbuilt 1\nclosed 2 cell 1 steps 0 to 2",
            "line 4: cell 1 has no lane 2",
        ),
        (
            "cells 2\nsteps 3\nbuilt 1\nclosed 1 cell 1 steps 0 to 3",
            "line 4: the last step: 3 is more than 2",
        ),
        (
            "cells 2\nsteps 3\nbuilt 1\nclosed 1 cell 1 steps 2 to 1",
            "line 4: the last step: 1 is less than 2",
        ),
    ] {
        assert_eq!(table_of(text).unwrap_err().to_string(), wanted);
    }
}
