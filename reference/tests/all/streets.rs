//! Granting the releases of ramps on one street, and putting them into records.

use crate::support::*;
use reference::draft::{CellDraft, Draft};
use reference::put::{put, Put};
use reference::record::{read, row};
use reference::street::grant;
use trials::cases::dice::Dice;

/// The grants; none after refusal 24, which leaves the list unchanged.
fn granted(limit: u32, guarantees: &[u32], wishes: &[u32], length: usize) -> Option<Vec<u32>> {
    let mut grants = vec![LENT; length];
    match grant(limit, guarantees, wishes, &mut grants) {
        0 => Some(grants),
        number => {
            assert_eq!((number, grants), (24, vec![LENT; length]));
            None
        }
    }
}

fn grants<const N: usize>(limit: u32, guarantees: [u32; N], wishes: [u32; N]) -> Vec<u32> {
    granted(limit, &guarantees, &wishes, N).expect("not refused")
}

/// 3, 2 and 0 are sure and leave 5: 2 for the first, nothing for the second, 3 for the
/// third.
#[test]
fn what_remains_goes_in_order() {
    assert_eq!(grants(10, [3, 4, 0], [5, 2, 9]), [5, 2, 3]);
    assert_eq!(grants(6, [1, 2, 3], [9, 9, 9]), [1, 2, 3]);
    assert_eq!(grants(7, [1, 2, 3], [9, 9, 9]), [2, 2, 3]);
    assert_eq!(grants(100, [1, 2, 3], [9, 9, 9]), [9, 9, 9]);
    assert_eq!(grants(5, [0, 0, 5], [9, 9, 0]), [5, 0, 0]);
    assert_eq!(grants(0, [0, 0], [7, 8]), [0, 0]);
    assert_eq!(grants(4, [4], [0]), [0]);
    assert_eq!(grants(8, [1; 8], [2; 8]), [1; 8]);
    assert_eq!(grants(11, [1; 8], [2; 8]), [2, 2, 2, 1, 1, 1, 1, 1]);
}

#[test]
fn refusal_24() {
    let refused = |limit, guarantees: &[u32], wishes: &[u32], length| {
        granted(limit, guarantees, wishes, length).is_none()
    };
    for ramps in [1, 8] {
        assert!(!refused(9, &vec![1; ramps], &vec![1; ramps], ramps));
    }
    for ramps in [0, 9, 64] {
        assert!(refused(9, &vec![0; ramps], &vec![1; ramps], ramps));
    }
    for counts in [
        [1, 2, 2],
        [3, 2, 2],
        [2, 1, 2],
        [2, 3, 2],
        [2, 2, 1],
        [2, 2, 3],
    ] {
        let [a, b, c] = counts;
        assert!(refused(9, &vec![1; a], &vec![1; b], c));
    }
    let most = 1_000_000;
    assert!(!refused(most, &[most, 0], &[most, most], 2));
    assert!(refused(most + 1, &[most, 0], &[most, most], 2));
    assert!(refused(most, &[most + 1, 0], &[most, most], 2));
    assert!(refused(most, &[most, 0], &[most, most + 1], 2));
    // Together: equal to the limit, one more, and 2 to the 32nd.
    assert!(!refused(9, &[4, 5], &[0, 0], 2));
    assert!(refused(9, &[5, 5], &[0, 0], 2));
    assert!(refused(9, &[1 << 31, 1 << 31], &[0, 0], 2));
}

/// What the request says of grants that are not refused.
fn obeys(limit: u32, guarantees: &[u32], wishes: &[u32], grants: &[u32]) -> bool {
    let ramps = 0..grants.len();
    let sure = |i: usize| guarantees[i].min(wishes[i]);
    let total: u32 = grants.iter().sum();
    let within = ramps
        .clone()
        .all(|i| (sure(i)..=wishes[i]).contains(&grants[i]));
    let all_met = grants == wishes;
    // A ramp after one that lacks something has no more than what is sure.
    let lacks = ramps.clone().find(|&i| grants[i] < wishes[i]);
    let in_order = lacks.is_none_or(|first| (first + 1..ramps.end).all(|i| grants[i] == sure(i)));
    total <= limit && within && in_order && (total == limit || all_met)
}

/// Of all grants up to 4 for three ramps just one list obeys.
#[test]
fn the_grants_are_the_only_ones_that_obey() {
    let mut dice = Dice::new(11);
    for _ in 0..400 {
        let mut three = || [(); 3].map(|()| dice.between(0, 4));
        let (guarantees, wishes) = (three(), three());
        let limit = guarantees.iter().sum::<u32>() + dice.between(0, 6);
        let all = (0..125).map(|k| [k / 25, k / 5 % 5, k % 5]);
        let obeying: Vec<_> = all
            .filter(|x| obeys(limit, &guarantees, &wishes, x))
            .collect();
        assert_eq!(obeying.len(), 1);
        assert_eq!(grants(limit, guarantees, wishes), obeying[0]);
    }
}

#[test]
fn large_grants_obey() {
    let mut dice = Dice::new(12);
    for _ in 0..2_000 {
        let ramps = dice.between(1, 8);
        let mut some =
            |most: u32| -> Vec<u32> { (0..ramps).map(|_| dice.between(0, most)).collect() };
        let (guarantees, wishes) = (some(1_000_000 / ramps), some(300_000));
        let sum: u32 = guarantees.iter().sum();
        let limit = dice.between(sum, 1_000_000);
        let grants = granted(limit, &guarantees, &wishes, ramps as usize).unwrap();
        assert!(obeys(limit, &guarantees, &wishes, &grants));
    }
}

/// Number, place and the record after it, which a refusal leaves.
fn put_into(record: &[u8], step: usize, cell: usize, release: u32) -> (u32, usize, Vec<u8>) {
    let mut after = record.to_vec();
    let Put { number, place } = put(&mut after, step, cell, release);
    if number != 0 {
        assert_eq!(after, record);
    }
    (number, place, after)
}

/// Number and place.
fn answer(record: &[u8], step: usize, cell: usize, release: u32) -> (u32, usize) {
    let (number, place, _) = put_into(record, step, cell, release);
    (number, place)
}

/// The rows start at byte 64, each of 20 bytes; the second cell's release is the fifth
/// number: in step 1 bytes 100 to 103. In version 2 everything comes two bytes later.
#[test]
fn one_number_changes() {
    for (draft, at) in [(example_draft(), 100), (example_draft().timed(60), 102)] {
        let record = draft.encode();
        let (number, place, after) = put_into(&record, 1, 2, 0x0001_0203);
        assert_eq!((number, place), (0, 0));
        let mut wanted = record.clone();
        wanted[at..at + 4].copy_from_slice(&[0, 1, 2, 3]);
        assert_eq!(after, wanted);
        assert_eq!(read(&after), read(&record));
        assert_eq!(row(&after, 2, 1), [1_000, 0, 0, 500, 66_051]);
        assert_eq!(row(&after, 2, 0), row(&record, 2, 0));
    }
}

#[test]
fn refusals_5_and_6_of_putting() {
    let record = record_of(EXAMPLE);
    for cell in [0, 1, 3, 64, 65, 258, 1 << 32 | 2, usize::MAX] {
        assert_eq!(answer(&record, 0, cell, 300), (5, cell));
        // Before 6.
        assert_eq!(answer(&record, 3, cell, 1_000_001), (5, cell));
    }
    assert_eq!(answer(&record, 2, 2, 1_000_000), (0, 0));
    for step in [3, 4, 1_440, 1 << 32, usize::MAX] {
        assert_eq!(answer(&record, step, 2, 300), (6, step));
    }
    for release in [1_000_001, u32::MAX] {
        assert_eq!(answer(&record, 0, 2, release), (6, 0));
        assert_eq!(answer(&record, 2, 2, release), (6, 2));
    }
}

type Change = fn(&mut Draft);

/// They come first, with their own places.
#[test]
fn reading_s_refusals_of_putting() {
    let changes: [(Change, u32, usize); 7] = [
        (|d| d.length = Some(9), 1, 0),
        (|d| d.version = 3, 2, 0),
        (|d| d.n = 65, 3, 0),
        (|d| d.extra = 1, 4, 0),
        (|d| d.cells[1].b = 1, 5, 2),
        (|d| d.gate_queue = u32::MAX, 5, 0),
        (|d| d.rows[2][4] = 1_000_001, 6, 2),
    ];
    for (change, number, place) in changes {
        let mut draft = example_draft();
        change(&mut draft);
        // Also where the release asked would mend it.
        for (step, cell) in [(2, 2), (9, 9), (0, 0)] {
            assert_eq!(answer(&draft.encode(), step, cell, 1), (number, place));
        }
    }
    let late = example_draft().timed(901).encode();
    assert_eq!(answer(&late, 0, 2, 1), (19, 0));
    assert_eq!(answer(&[], 0, 1, 1), (1, 0));
}

/// Supply of the second cell is 1,000. Queue and arrivals are 2,000, or 800.
#[test]
fn a_run_still_checks_queue_and_supply() {
    let run_after = |queue: u32, release: u32| {
        let mut draft = example_draft();
        draft.cells[1].queue = queue;
        let (number, _, after) = put_into(&draft.encode(), 0, 2, release);
        assert_eq!(number, 0);
        verdict(&run_whole(&after).0)
    };
    assert_eq!(run_after(1_500, 1_000), (0, 0, 0));
    assert_eq!(run_after(1_500, 1_001), (10, 0, 2));
    assert_eq!(run_after(300, 801), (9, 0, 2));
    assert_eq!(run_after(300, 800), (0, 0, 0));
}

/// One cell with a ramp, for the second road of a street.
fn short_road() -> Draft {
    let cell = CellDraft {
        v: 500,
        w: 250,
        b: 0,
        ramp: 1,
        jam: 8_000,
        capacity: 1_000,
        held: 1_000,
        queue: 400,
    };
    Draft::new((500, 500), vec![cell], vec![vec![100, 200, 100]; 3])
}

/// Two roads, one street of 900 in step 1: 200 and 300 are sure, 400 remain, and the
/// first ramp wishes 600 more. The runs on paper.
///
/// First road. In step 1 room for 400 enters cell 2: F of cell 1 goes from 934 to 1,467,
/// by 533. After it 2,142 wait at the gate, 3,391 and 4,000 are held, 1,600 wait at the
/// ramp. In step 2 the gate sends 1,152 and cell 1 934; then 1,990, 3,609, 4,000, 1,800.
/// With 10,766 after step 0 the total is 10,766 + 11,133 + 11,399.
///
/// Second road. Present is 100 + 1,100 + 500, then 100 + 950 + 400, then 100 + 675 + 500.
#[test]
fn two_roads_feed_from_one_street() {
    let grants = grants(900, [200, 300], [800, 500]);
    assert_eq!(grants, [600, 300]);
    let roads = [(example_draft().encode(), 2), (short_road().encode(), 1)];
    let mut totals = vec![];
    for ((record, cell), release) in roads.into_iter().zip(grants) {
        let (number, _, after) = put_into(&record, 1, cell, release);
        assert_eq!(number, 0);
        let (answer, list) = run_whole(&after);
        assert_eq!(answer.number, 0);
        totals.push(sums(&answer).0);
        // A rival that waits from step 1 on is judged by the same record.
        let n = answer.road.n;
        let mut rival = list;
        rival[n + 1..].fill(0);
        let judged = judge(&after, &rival);
        assert_eq!(judged.number, 0);
        assert!(sums(&judged).0 > sums(&answer).0);
        assert!((0..n).all(|i| judged.state.f[i] <= answer.state.f[i]));
    }
    assert_eq!(totals, [33_298, 4_425]);
}
