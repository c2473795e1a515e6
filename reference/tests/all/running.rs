//! Running and judging: the list's length, what is written, what is returned.

use crate::support::*;
use reference::answer::Answer;
use reference::print::printed_run;
use reference::record::read;

const TABLE: [u32; 9] = [1500, 934, 1000, 1358, 933, 1000, 1252, 934, 1000];

#[test]
fn a_run_writes_its_table_and_nothing_beyond() {
    let record = record_of(EXAMPLE);
    for spare in [0, 1, 5] {
        let mut list = vec![LENT; 9 + spare];
        let answer = run(&record, &mut list);
        assert_eq!(verdict(&answer), (0, 0, 0));
        assert_eq!(answer.road, read(&record).road);
        assert_eq!(sums(&answer), (33098, 3701));
        assert_eq!(list[..9], TABLE);
        assert_eq!(list[9..], vec![LENT; spare]);
    }
}

#[test]
fn refusal_11_writes_nothing_and_names_no_state() {
    let record = record_of(EXAMPLE);
    for length in [0, 3, 8] {
        let mut list = vec![LENT; length];
        assert_eq!(run(&record, &mut list), Answer::without_state(11, 0));
        assert_eq!(list, vec![LENT; length]);
    }
}

#[test]
fn refusals_of_reading_write_nothing() {
    let mut draft = example_draft();
    draft.rows[2][0] = 1_000_001;
    let mut list = vec![LENT; 9];
    assert_eq!(run(&draft.encode(), &mut list), Answer::without_state(6, 2));
    assert_eq!(list, [LENT; 9]);
    draft.cells[1].v = 1_001;
    assert_eq!(run(&draft.encode(), &mut list), Answer::without_state(5, 2));
    assert_eq!(list, [LENT; 9]);
    assert_eq!(judge(&draft.encode(), &TABLE), Answer::without_state(5, 2));
}

#[test]
fn after_9_the_earlier_rows_stay() {
    // Ramp queue 1700 before step 1, 1900 before step 2; 500 arrive in each.
    for (refused_at, release) in [(0, 2001), (1, 2201), (2, 2401)] {
        let mut draft = example_draft();
        draft.rows[refused_at][4] = release;
        let record = draft.encode();
        let (answer, list) = run_whole(&record);
        assert_eq!(verdict(&answer), (9, refused_at, 2));
        let written = 3 * refused_at;
        assert_eq!(list[..written], TABLE[..written]);
        assert_eq!(list[written..], vec![LENT; 9 - written]);
        let reading = read(&record);
        let mut before = reading.state;
        for _ in 0..refused_at {
            before = step(reading.road, before, &[1000, 0, 0, 500, 300]).state;
        }
        assert_eq!((answer.road, answer.state), (reading.road, before));
        assert_eq!(judge(&record, &TABLE), answer);
    }
}

#[test]
fn after_10_as_well() {
    // The supply of cell 2 is 1000 in every state of the example.
    let mut draft = example_draft();
    draft.rows[2][4] = 1_001;
    let (answer, list) = run_whole(&draft.encode());
    assert_eq!(verdict(&answer), (10, 2, 2));
    assert_eq!(list[..6], TABLE[..6]);
    assert_eq!(list[6..], [LENT; 3]);
    // Present 2500 + 2566 + 4000 + 1700, then 2142 + 2991 + 4000 + 1900.
    assert_eq!(answer.state.total(), 10766 + 11033);
}

#[test]
fn refusal_lines() {
    let mut draft = example_draft();
    draft.rows[2][4] = 1_001;
    assert_eq!(printed_run(&draft.encode()), "refused 10 2 2\n");
    draft.rows[1][4] = 2_201;
    assert_eq!(printed_run(&draft.encode()), "refused 9 1 2\n");
    draft.rows[1][0] = 1_000_001;
    assert_eq!(printed_run(&draft.encode()), "refused 6 0 1\n");
    draft.cells[1].b = 5;
    assert_eq!(printed_run(&draft.encode()), "refused 5 0 2\n");
    assert_eq!(printed_run(b""), "refused 1 0 0\n");
}

#[test]
fn refusal_12_at_any_other_length() {
    let record = record_of(EXAMPLE);
    for length in [0, 8, 10] {
        assert_eq!(
            judge(&record, &vec![0; length]),
            Answer::without_state(12, 0)
        );
    }
    assert_eq!(judge(&record, &TABLE).number, 0);
}

#[test]
fn refusals_13_and_14_at_their_bounds() {
    let record = record_of(EXAMPLE);
    let changed = |k: usize, outflow: u32| {
        let mut schedule = TABLE;
        schedule[k] = outflow;
        verdict(&judge(&record, &schedule))
    };
    // Step 0: demands 2000, 1000, 1000; supply 1500 into cell 1, room 700 in cell 2.
    assert_eq!(changed(0, 1501), (14, 0, 0));
    assert_eq!(changed(0, 2000), (14, 0, 0));
    assert_eq!(changed(0, 2001), (13, 0, 0));
    assert_eq!(changed(1, 935), (14, 0, 1));
    assert_eq!(changed(1, 1001), (13, 0, 1));
    assert_eq!(changed(2, 1001), (13, 0, 2));
    assert_eq!(changed(2, u32::MAX), (13, 0, 2));
    // Step 1 after F 934: one part more would let 701 in.
    assert_eq!(changed(4, 934), (14, 1, 1));
}

#[test]
fn the_lowest_place_with_either_is_judged_first() {
    let record = record_of(EXAMPLE);
    let mut schedule = TABLE;
    (schedule[0], schedule[1]) = (1501, 1001);
    assert_eq!(verdict(&judge(&record, &schedule)), (14, 0, 0));
    (schedule[0], schedule[1], schedule[2]) = (1500, 1001, 1001);
    assert_eq!(verdict(&judge(&record, &schedule)), (13, 0, 1));
    // A later step's fault waits.
    schedule = [LENT; 9];
    schedule[..3].copy_from_slice(&TABLE[..3]);
    assert_eq!(verdict(&judge(&record, &schedule)), (13, 1, 0));
}

#[test]
fn a_release_is_judged_in_the_schedule_s_own_states() {
    // Sending nothing fills cell 2: held 4000 + 300 k. Supply 1000, 925, 850.
    let mut draft = example_draft();
    draft.rows[1][4] = 925;
    assert_eq!(verdict(&judge(&draft.encode(), &[0; 9])), (0, 0, 0));
    draft.rows[1][4] = 926;
    let answer = judge(&draft.encode(), &[0; 9]);
    assert_eq!(verdict(&answer), (10, 1, 2));
    assert_eq!((answer.state.steps, answer.state.total()), (1, 12000));
    // The engine empties the cell, and there the same release fits.
    assert_eq!(run_whole(&draft.encode()).0.number, 0);
}

#[test]
fn at_one_step_9_and_10_come_before_13_and_14() {
    let mut draft = example_draft();
    draft.rows[0][4] = 1_001;
    let answer = judge(&draft.encode(), &[LENT; 9]);
    assert_eq!(verdict(&answer), (10, 0, 2));
    assert_eq!(answer.state, read(&draft.encode()).state);
}
