//! Small cases worked out by hand.

use crate::support::*;

const ONE_CELL: &str = "
steps 3
gate capacity 10 queue 25
cell v 1000 w 1000 b 0 jam 100 capacity 8
repeat 3 row
";

#[test]
fn a_cell_s_capacity_holds_both_ways() {
    // Step 0: gate min(10, 25) = 10, supply min(8, 100) = 8: 8. Cell holds 0.
    //   Queue 17, held 8; present 25.
    // Step 1: gate min(10, 17) = 10, supply min(8, 92) = 8: 8. Cell min(8, 8) = 8.
    //   Queue 9, held 8; present 17.
    // Step 2: gate min(10, 9) = 9, supply 8: 8. Cell 8. Queue 1, held 8; present 9.
    // Total 25 + 17 + 9 = 51; exits 8 + 8 = 16.
    let (answer, list) = run_text(ONE_CELL);
    assert_eq!(list, [8, 0, 8, 8, 8, 8]);
    assert_eq!(sums(&answer), (51, 16));
}

#[test]
fn a_jammed_cell_takes_nothing_at_first() {
    // Step 0: held = J, supply 0: gate 0. Cell min(400, 0.3 * 1000) = 300.
    //   Queue 100, held 700; present 800.
    // Step 1: supply min(400, 0.5 * 300) = 150, gate min(100, 100): 100.
    //   Cell 0.3 * 700 = 210. Queue 0, held 700 + 100 - 210 = 590; present 590.
    // Total 1390; exits 510.
    let (answer, list) = run_text(
        "steps 2
         gate capacity 100 queue 100
         cell v 300 w 500 b 0 jam 1000 capacity 400 held 1000
         repeat 2 row",
    );
    assert_eq!(list, [0, 300, 100, 210]);
    assert_eq!(sums(&answer), (1390, 510));
}

#[test]
fn a_release_may_take_the_whole_supply() {
    // Supply min(60, 0.1 * 500) = 50, all of it released: room 0, gate 0.
    // Cell min(60, 0.1 * 500) = 50. Held 500 + 0 + 50 - 50 = 500, ramp queue
    // 70 + 7 - 50 = 27, gate queue 50 + 5 = 55. Present 582, exits 50.
    // Start 50 + 500 + 70 = 620, arrivals 12: 632 = 582 + 50.
    let (answer, list) = run_text(
        "steps 1
         gate capacity 50 queue 50
         cell v 100 w 100 b 0 ramp 1 jam 1000 capacity 60 held 500 queue 70
         row gate 5 ramp 1 arrivals 7 release 50",
    );
    assert_eq!(list, [0, 50]);
    assert_eq!(sums(&answer), (582, 50));
    assert_eq!((answer.state.gate_queue, answer.state.queue[0]), (55, 27));
}

#[test]
fn a_share_of_one_thousandth_lets_999_pass_a_full_cell() {
    // Cell 2 stays full, so nothing may enter: floor(F / 1000) must stay 0.
    // Step 0: demand min(600, 1000) = 600, F 600. Held 400; present 450.
    // Step 1: demand 400, but 600 + q <= 999: 399. Held 1; present 51.
    // Steps 2, 3: demand 1, F 999 + 1 would let one in: 0. Present 51, 51.
    // Total 450 + 51 + 51 + 51 = 603; exits 999.
    let (answer, list) = run_text(
        "steps 4
         gate capacity 0
         cell v 1000 w 0 b 1 jam 1000 capacity 600 held 1000
         cell v 0 w 1000 b 0 jam 50 capacity 50 held 50
         repeat 4 row",
    );
    assert_eq!(list, [0, 600, 0, 0, 399, 0, 0, 0, 0, 0, 0, 0]);
    assert_eq!(sums(&answer), (603, 999));
}

#[test]
fn a_share_of_a_third_carries_from_step_to_step() {
    // Cell 1 sends 1 a step. 0.333 * F rounded down for F = 1 to 7 is
    // 0 0 0 1 1 1 2, so F less that is 1 2 3 3 4 5 5.
    // Present is 10 less that: 9 8 7 7 6 5 5, together 47.
    let (answer, list) = run_text(
        "steps 7
         gate capacity 0
         cell v 1000 w 0 b 333 jam 10 capacity 1 held 10
         cell v 0 w 1000 b 0 jam 9 capacity 9
         repeat 7 row",
    );
    assert_eq!(list, [0, 1, 0].repeat(7));
    assert_eq!(sums(&answer), (47, 5));
    assert_eq!(answer.state.held[..2], [3, 2]);
}

#[test]
fn a_full_cell_that_empties_makes_no_room_in_the_same_step() {
    // Step 0: supplies 0 and 0: gate 0, cell 1 0; cell 2 sends 10. Held 10, 0.
    // Step 1: supplies 0 and 10: gate 0, cell 1 10, cell 2 0. Held 0, 10.
    // Step 2: supplies 10 and 0: gate 10, cell 1 0, cell 2 10. Held 10, 0.
    // Present 20, 20, 10: total 50; exits 20.
    let (answer, list) = run_text(
        "steps 3
         gate capacity 10 queue 10
         cell v 1000 w 1000 b 1000 jam 10 capacity 10 held 10
         cell v 1000 w 1000 b 0 jam 10 capacity 10 held 10
         repeat 3 row",
    );
    assert_eq!(list, [0, 0, 10, 0, 10, 0, 10, 0, 10]);
    assert_eq!(sums(&answer), (50, 20));
}

#[test]
fn what_arrives_can_leave_the_gate_from_the_next_step_on() {
    // Step 0: queues are 0: gate 0. Then gate 5, ramp 3, held 0; present 8.
    // Step 1: gate 5, room 100 - 3 = 97: 5. Cell 0. Held 5 + 3 = 8, gate 5,
    //   ramp 3 + 3 - 3 = 3; present 16. Total 24; exits 0.
    let (answer, list) = run_text(
        "steps 2
         gate capacity 100
         cell v 1000 w 1000 b 0 ramp 1 jam 100 capacity 100
         row gate 5 ramp 1 arrivals 3
         row gate 5 ramp 1 arrivals 3 release 3",
    );
    assert_eq!(list, [0, 0, 5, 0]);
    assert_eq!(sums(&answer), (24, 0));
}

#[test]
fn what_arrives_at_a_ramp_can_pass_in_the_same_step() {
    // Step 0: queue 0, arrivals 5, release 5: held 5, ramp 0; present 5.
    // Step 1: release 1 of 2: the cell sends 5 and holds 1, ramp 1; present 2.
    // Step 2: release 3 of 1 + 2: the cell sends 1 and holds 3, ramp 0;
    //   present 3. Total 10; exits 6.
    let (answer, list) = run_text(
        "steps 3
         gate capacity 100
         cell v 1000 w 1000 b 0 ramp 1 jam 100 capacity 100
         row ramp 1 arrivals 5 release 5
         row ramp 1 arrivals 2 release 1
         row ramp 1 arrivals 2 release 3",
    );
    assert_eq!(list, [0, 0, 0, 5, 0, 1]);
    assert_eq!(sums(&answer), (10, 6));
    assert_eq!((answer.state.queue[0], answer.state.held[0]), (0, 3));
}

#[test]
fn a_release_above_queue_and_arrivals_stops_the_run() {
    // Step 0: 3 <= 3 + 1, queue 3 + 1 - 3 = 1, held 3; the gate has nothing.
    // Step 1: 3 > 1 + 1: refusal 9. Present after step 0 is 1 + 3 = 4.
    let (answer, list) = run_text(
        "steps 2
         gate capacity 100
         cell v 1000 w 1000 b 0 ramp 1 jam 100 capacity 100 queue 3
         repeat 2 row ramp 1 arrivals 1 release 3",
    );
    assert_eq!(verdict(&answer), (9, 1, 1));
    assert_eq!(list, [0, 0, LENT, LENT]);
    assert_eq!((answer.state.steps, answer.state.total()), (1, 4));
    assert_eq!((answer.state.queue[0], answer.state.held[0]), (1, 3));
}

#[test]
fn a_release_above_the_supply_stops_the_run() {
    // Step 0: supply min(10, 10) = 10, room 6, gate min(3, 100) = 3.
    //   Held 3 + 4 = 7, gate 97, ramp 96; present 200.
    // Step 1: supply min(10, 10 - 7) = 3 < 4: refusal 10.
    let (answer, list) = run_text(
        "steps 3
         gate capacity 3 queue 100
         cell v 0 w 1000 b 0 ramp 1 jam 10 capacity 10 queue 100
         repeat 3 row ramp 1 release 4",
    );
    assert_eq!(verdict(&answer), (10, 1, 1));
    assert_eq!(list, [3, 0, LENT, LENT, LENT, LENT]);
    assert_eq!((answer.state.held[0], answer.state.total()), (7, 200));
}

#[test]
fn three_cells_with_ramp_and_off_ramps() {
    // Step 0. Gate min(5, 9) = 5, supply min(7, 0.4 * 9 = 3.6): 3.
    //   Cell 1 min(7, 6.6): 6; supply min(6, 5.1) = 5, room 3; floor(q / 2) <= 3
    //   leaves 6, entering 3. Cell 2 min(6, 9.1) = 6; supply min(4, 4) = 4;
    //   floor(0.9 * 5) = 4, floor(0.9 * 6) = 5: 5, entering 4. Cell 3 min(4, 5) = 4.
    //   Gate 8, held 8, 13 + 3 + 2 - 5 = 13, 5; ramp 4. Present 38.
    // Step 1. Gate 5, supply min(7, 4.8): 4. Cell 1 min(7, 4.8): 4; room 3;
    //   floor(10 / 2) - 3 = 2 enters. Cell 2 demand 6, F 5, onward 4, supply 4:
    //   floor(0.9 * (5 + q)) <= 8 means 5 + q <= 9: 4, entering 8 - 4 = 4. Cell 3 4.
    //   Gate 6, held 8, 13 + 2 + 2 - 4 = 13, 5; ramp 3. Present 35.
    // Total 73. Exits (10 - 5) + (9 - 8) + 8 = 14; start 43 + 6 = 49 = 35 + 14.
    let (answer, list) = run_text(
        "steps 2
         gate capacity 5 queue 9
         cell v 600 w 400 b 500 jam 20 capacity 7 held 11
         cell v 700 w 300 b 900 ramp 1 jam 30 capacity 6 held 13 queue 5
         cell v 1000 w 200 b 0 jam 25 capacity 4 held 5
         repeat 2 row gate 2 ramp 2 arrivals 1 release 2",
    );
    assert_eq!(list, [3, 6, 5, 4, 4, 4, 4, 4]);
    assert_eq!(sums(&answer), (73, 14));
    assert_eq!(answer.state.held[..3], [8, 13, 5]);
    assert_eq!(answer.state.gate_f, 7);
    assert_eq!(answer.state.f[..3], [10, 9, 8]);
}

#[test]
fn a_road_that_stands_still_still_spends_time() {
    // v 0: demand 0. w 0: supply 0. One part arrives a step: 12 + 13 + 14 = 39.
    let (answer, list) = run_text(
        "steps 3
         gate capacity 5 queue 7
         cell v 0 w 0 b 0 jam 10 capacity 10 held 4
         repeat 3 row gate 1",
    );
    assert_eq!(list, [0; 6]);
    assert_eq!(sums(&answer), (39, 0));
}

#[test]
fn a_share_of_999_lets_one_part_pass_a_full_cell() {
    // floor(0.999 * 1) = 0 enters; then floor(1.998) - 0 = 1 would. Exits 1 - 0.
    // Present 20 at the start, 19 after each step: total 38.
    let (answer, list) = run_text(
        "steps 2
         gate capacity 0
         cell v 1000 w 0 b 999 jam 10 capacity 10 held 10
         cell v 0 w 0 b 0 jam 10 capacity 10 held 10
         repeat 2 row",
    );
    assert_eq!(list, [0, 1, 0, 0, 0, 0]);
    assert_eq!(sums(&answer), (38, 1));
}

#[test]
fn the_lowest_cell_with_either_refusal_is_named() {
    // Cell 1: supply min(9, 1000 * 2 / 1000) = 2 < 3, queue 3: 10.
    // Cell 2: queue 1 < 2: 9. The lower cell comes first.
    let (answer, list) = run_text(
        "steps 1
         gate capacity 0
         cell v 0 w 1000 b 1000 ramp 1 jam 9 capacity 9 held 7 queue 3
         cell v 0 w 1000 b 0 ramp 1 jam 9 capacity 9 held 0 queue 1
         row ramp 1 release 3 ramp 2 release 2",
    );
    assert_eq!(verdict(&answer), (10, 0, 1));
    assert_eq!(list, [LENT; 3]);
}

#[test]
fn a_slower_schedule_is_accepted() {
    // Step 0: 5 <= 10 and 5 <= 8. Queue 20, held 5; present 25.
    // Step 1: 5, and 3 <= 5. Queue 15, held 7; present 22.
    // Step 2: 0, and 7 <= 7. Queue 15, held 0; present 15. Total 62; exits 10.
    let answer = judge(&record_of(ONE_CELL), &[5, 0, 5, 3, 0, 7]);
    assert_eq!(verdict(&answer), (0, 0, 0));
    assert_eq!(sums(&answer), (62, 10));
}

#[test]
fn too_fast_schedules_are_refused_where_they_break() {
    // Gate demand 10 and supply 8; the cell holds 8 after step 0.
    let record = record_of(ONE_CELL);
    let place_of = |schedule: &[u32]| verdict(&judge(&record, schedule));
    assert_eq!(place_of(&[8, 0, 9, 8, 0, 0]), (14, 1, 0));
    assert_eq!(place_of(&[8, 0, 11, 9, 0, 0]), (13, 1, 0));
    assert_eq!(place_of(&[8, 0, 8, 9, 0, 0]), (13, 1, 1));
    assert_eq!(place_of(&[8, 1, 9, 9, 9, 9]), (13, 0, 1));
    // After 8 + 8 + 0 the gate still has 9: 9 is its demand, 8 the supply.
    assert_eq!(place_of(&[8, 0, 8, 8, 9, 8]), (14, 2, 0));
}
