//! Meter laws and filling: wishes, releases, refusals, and runs by hand.

use crate::support::*;
use reference::answer::Answer;
use reference::fill::{fill as fill_under, Laws};
use reference::meter::{release, Law};
use reference::model::Road;
use reference::record::{read, row, size};
use reference::run::run as run_under;
use trials::cases::all_cases;
use trials::cases::case::Case;

const fn fixed(rate: f64) -> Law {
    Law::Fixed { rate }
}

const fn alinea(gain: f64, target: f64) -> Law {
    Law::Alinea { gain, target }
}

const fn demand_capacity(capacity: f64, critical: f64, least: f64) -> Law {
    Law::DemandCapacity {
        capacity,
        critical,
        least,
    }
}

/// The same law at every cell.
fn all(law: Law) -> Laws {
    [law; 64]
}

/// A record filled with a list of just the table's length.
fn filled(record: &[u8], laws: &Laws) -> (Answer, Vec<u8>, Vec<u32>) {
    let mut record = record.to_vec();
    let reading = read(&record);
    let mut list = vec![LENT; reading.steps * (reading.road.n + 1)];
    let answer = fill(&mut record, laws, &mut list);
    (answer, record, list)
}

/// A cell's releases, step by step.
fn releases(record: &[u8], cell: usize) -> Vec<u32> {
    let reading = read(record);
    let rows = (0..reading.steps).map(|t| row(record, reading.road.n, t));
    rows.map(|row| row[2 * cell]).collect()
}

#[test]
fn wishes_by_hand() {
    assert_eq!(fixed(299.5).wish(1, 2, 3), 299.5);
    // 0.1 x 3 is not 0.3; 0.1 x 10 is just 1, so that 1 less it is 0.
    assert_eq!(alinea(0.1, 3.0).wish(0, 9, 0), 0.30000000000000004);
    assert_eq!(alinea(0.1, 0.0).wish(1, 9, 10).to_bits(), 0);
    // The difference first: 0.1 - 1 is -0.9, and 3 times that -2.7.
    assert_eq!(alinea(3.0, 0.1).wish(3, 9, 1), 3.0 + -2.7);
    assert_eq!(alinea(0.5, 100.0).wish(70, 9, 140), 50.0);
    assert_eq!(alinea(1e300, 1e10).wish(0, 0, 0), f64::INFINITY);
    let law = demand_capacity(1_200.5, 500.0, 30.25);
    assert_eq!(law.wish(9, 700, 500), 500.5);
    assert_eq!(law.wish(9, 700, 501), 30.25);
    assert_eq!(law.wish(9, 1_300, 0), -99.5);
}

#[test]
fn a_release_is_the_whole_number_below_its_wish() {
    for (wish, wanted) in [
        (0.0, 0),
        (-0.0, 0),
        (-0.5, 0),
        (f64::NAN, 0),
        (f64::NEG_INFINITY, 0),
        (0.9999999999999999, 0),
        (1.0, 1),
        (2.9999999999999996, 2),
        (999.999, 999),
        (1000.0, 1000),
        (1000.5, 1000),
        (1e300, 1000),
        (f64::INFINITY, 1000),
    ] {
        assert_eq!(release(wish, 1_000), wanted, "{wish}");
    }
    assert_eq!(release(f64::INFINITY, 0), 0);
    assert_eq!(release(4_294_967_295.5, u32::MAX), u32::MAX);
    assert_eq!(release(4_294_967_294.5, u32::MAX), u32::MAX - 1);
}

#[test]
fn alinea_by_hand() {
    // Held before the steps 4000, 3800, 3800; wishes 50, 50 + 70, 120 + 70.
    let (answer, record, list) = filled(&record_of(EXAMPLE), &all(alinea(0.1, 4_500.0)));
    assert_eq!(verdict(&answer), (0, 0, 0));
    assert_eq!(releases(&record, 2), [50, 120, 190]);
    assert_eq!(releases(&record, 1), [0, 0, 0]);
    assert_eq!(list, [1500, 1000, 1000, 1375, 1174, 1000, 1324, 1080, 1000]);
    let state = answer.state;
    assert_eq!(state.gate_time, 2500 + 2125 + 1801);
    assert_eq!(state.road_time, 6300 + 6501 + 6745);
    assert_eq!(state.ramp_time, 1950 + 2330 + 2640);
}

#[test]
fn demand_capacity_by_hand() {
    // Cell 2 stays at 4000; 300, then 600 enter: 700, 700 - 300, 700 - 600.
    let law = demand_capacity(700.0, 4_000.0, 50.0);
    let (_, record, list) = filled(&record_of(EXAMPLE), &all(law));
    assert_eq!(releases(&record, 2), [700, 400, 100]);
    assert_eq!(list, [1500, 401, 1000, 1225, 800, 1000, 1119, 1200, 1000]);
    // Above the critical count the least rate.
    let law = demand_capacity(700.0, 3_999.0, 50.9);
    let (_, record, _) = filled(&record_of(EXAMPLE), &all(law));
    assert_eq!(releases(&record, 2)[0], 50);
}

#[test]
fn a_fixed_rate_by_hand() {
    // The example's own releases, and all that supply 1000 lets in.
    let example = record_of(EXAMPLE);
    let (answer, record, list) = filled(&example, &all(fixed(300.9)));
    assert_eq!(record, example);
    assert_eq!((answer, list), run_whole(&example));
    let (_, record, _) = filled(&example, &all(fixed(1e18)));
    // Queue 1500, then 1000, then 500, with 500 arriving in each step.
    assert_eq!(releases(&record, 2), [1000, 1000, 1000]);
    let (_, record, _) = filled(&example, &all(fixed(-1.0)));
    assert_eq!(releases(&record, 2), [0, 0, 0]);
}

#[test]
fn the_last_release_is_the_granted_one() {
    // Step 0 wishes 500 and 100 wait. Then held is 4000 + 750 + 100 - 1000.
    let mut draft = example_draft();
    draft.cells[1].queue = 100;
    draft.rows[0][3] = 0;
    draft.rows[1][3] = 5_000;
    let (_, record, _) = filled(&draft.encode(), &all(alinea(1.0, 4_500.0)));
    assert_eq!(releases(&record, 2)[..2], [100, 100 + 650]);
}

#[test]
fn arrivals_may_be_released_and_no_more() {
    let mut draft = example_draft();
    draft.cells[1].queue = 0;
    let (_, record, _) = filled(&draft.encode(), &all(fixed(1e6)));
    assert_eq!(releases(&record, 2), [500, 500, 500]);
}

#[test]
fn only_the_cells_with_a_ramp_are_asked_for_finite_numbers() {
    let example = record_of(EXAMPLE);
    for number in [f64::NAN, f64::INFINITY, f64::NEG_INFINITY] {
        for law in [
            fixed(number),
            alinea(number, 1.0),
            alinea(1.0, number),
            demand_capacity(number, 1.0, 1.0),
            demand_capacity(1.0, number, 1.0),
            demand_capacity(1.0, 1.0, number),
        ] {
            let (answer, record, list) = filled(&example, &all(law));
            assert_eq!(answer, Answer::without_state(16, 2));
            assert_eq!((record, list), (example.clone(), vec![LENT; 9]));
            let mut laws = all(law);
            laws[1] = fixed(1.0);
            assert_eq!(filled(&example, &laws).0.number, 0);
        }
    }
    assert_eq!(filled(&example, &all(alinea(f64::MAX, 1e308))).0.number, 0);
}

#[test]
fn filling_refuses_in_order_and_changes_nothing() {
    let mut draft = example_draft();
    (draft.length, draft.version) = (Some(7), 9);
    (draft.cells[1].b, draft.rows[1][4]) = (1, 1_000_001);
    let said = |draft: &_, laws: &Laws, length: usize| {
        let before = reference::draft::Draft::encode(draft);
        let (mut record, mut list) = (before.clone(), vec![LENT; length]);
        let answer = fill(&mut record, laws, &mut list);
        assert_eq!((record, list), (before, vec![LENT; length]));
        assert_eq!(answer, Answer::without_state(answer.number, answer.place));
        (answer.number, answer.place)
    };
    let spoilt = all(fixed(f64::NAN));
    assert_eq!(said(&draft, &spoilt, 8), (1, 0));
    draft.length = None;
    assert_eq!(said(&draft, &spoilt, 8), (2, 0));
    draft.version = 1;
    assert_eq!(said(&draft, &spoilt, 8), (5, 2));
    draft.cells[1].b = 0;
    assert_eq!(said(&draft, &spoilt, 8), (6, 1));
    draft.rows[1][4] = 1_000_000;
    assert_eq!(said(&draft, &spoilt, 8), (16, 2));
    assert_eq!(said(&draft, &all(fixed(1.0)), 8), (11, 0));
}

/// Whether a byte of a record belongs to a release.
fn in_release(road: &Road, at: usize) -> bool {
    let (n, start) = (road.n, size(road.version, road.n, 0));
    at >= start && {
        let slot = (at - start) / 4 % (1 + 2 * n);
        slot > 0 && slot % 2 == 0
    }
}

#[test]
fn a_filled_record_run_again_gives_the_same() {
    let mut whole = 0;
    for case in all_cases() {
        let Case::Fill(input) = case else { continue };
        let mut record = input.record.clone();
        let mut list = vec![LENT; input.length];
        let answer = fill_under(&mut record, &input.laws(), &input.lanes, &mut list);
        assert!(answer.number != 9 && answer.number != 10);
        if answer.number != 0 {
            assert_eq!(record, input.record);
            continue;
        }
        let mut again = vec![LENT; input.length];
        let rerun = run_under(&record, &input.lanes, &mut again);
        assert_eq!((rerun, again), (answer, list));
        for (at, (new, old)) in record.iter().zip(&input.record).enumerate() {
            assert!(new == old || in_release(&answer.road, at));
        }
        // The releases that were there before don't matter.
        let mut twice = record.clone();
        let mut list = vec![LENT; input.length];
        fill_under(&mut twice, &input.laws(), &input.lanes, &mut list);
        assert_eq!(twice, record);
        whole += 1;
    }
    assert!(whole >= 400);
}
