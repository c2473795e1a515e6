//! Releases for a wanted queue.

use crate::support::*;
use reference::draft::{CellDraft, Draft};
use reference::wanted::{
    are_few, obeys, running_sums, searched, wanted, worked_out, Asked, Wanted,
};
use trials::cases::dice::Dice;

fn asked(numbers: [u32; 3], arrivals: &[u32]) -> Asked<'_> {
    let [start, ceiling, rate] = numbers;
    Asked {
        start,
        ceiling,
        rate,
        arrivals,
    }
}

/// The answer and the table after it, which was lent with this length.
fn lent(numbers: [u32; 3], arrivals: &[u32], length: usize) -> (Wanted, Vec<u32>) {
    let mut table = vec![LENT; length];
    let answer = wanted(asked(numbers, arrivals), &mut table);
    (answer, table)
}

/// The releases wanted by start, ceiling and rate, if any; else the table is unchanged.
fn releases(numbers: [u32; 3], arrivals: &[u32]) -> Option<Vec<u32>> {
    let (answer, table) = lent(numbers, arrivals, arrivals.len());
    match answer {
        Wanted::Found => Some(table),
        Wanted::NoTable => {
            assert_eq!(table, vec![LENT; arrivals.len()]);
            None
        }
        Wanted::Refused => panic!("refused"),
    }
}

fn refused(numbers: [u32; 3], arrivals: &[u32], length: usize) -> bool {
    let (answer, table) = lent(numbers, arrivals, length);
    match answer {
        Wanted::Refused => assert_eq!(table, vec![LENT; length]),
        _ => return false,
    }
    true
}

/// 3, 6, 15 and 15 have arrived. 0, 1, 10 and 10 are above the ceiling of 5. Of the 10
/// gone after step 2, 4 go in step 2, so 6 after step 1 and 2 after step 0. Releasing as
/// late as the ceiling allows, 0 and 1, would leave 10 after step 2.
#[test]
fn a_peak_is_made_room_for_in_time() {
    let found = releases([0, 5, 4], &[3, 3, 9, 0]);
    assert_eq!(found, Some(vec![2, 4, 4, 0]));
}

/// Queues 2, 3, 4, 4 and 4: nothing up to the ceiling of 4, then each arrival.
#[test]
fn nothing_is_released_before_it_must_be() {
    assert_eq!(
        releases([1, 4, 9], &[1, 1, 1, 2, 3]),
        Some(vec![0, 0, 0, 2, 3])
    );
    assert_eq!(releases([9, 4, 9], &[0, 0]), Some(vec![5, 0]));
    assert_eq!(releases([7, 4, 2], &[1, 0, 0]), None);
    assert_eq!(releases([5, 4, 2], &[1, 0, 0]), Some(vec![2, 0, 0]));
}

/// 3 wait in step 0 and can't be 8: after step 1 are 23 less 3 and 10.
#[test]
fn what_has_not_come_is_not_released() {
    assert_eq!(releases([0, 5, 10], &[3, 20]), None);
    assert_eq!(releases([0, 10, 10], &[3, 20]), Some(vec![3, 10]));
    assert_eq!(releases([5, 10, 10], &[3, 20]), Some(vec![8, 10]));
}

#[test]
fn a_ceiling_of_0_releases_all_at_once() {
    assert_eq!(releases([2, 0, 3], &[1, 0, 3]), Some(vec![3, 0, 3]));
    assert_eq!(releases([2, 0, 2], &[1, 0, 3]), None);
    assert_eq!(releases([0, 0, 0], &[0, 0]), Some(vec![0, 0]));
}

#[test]
fn a_rate_of_0_keeps_all_under_the_ceiling_or_finds_none() {
    assert_eq!(releases([4, 10, 0], &[1, 2, 3]), Some(vec![0, 0, 0]));
    assert_eq!(releases([5, 10, 0], &[1, 2, 3]), None);
}

/// 1,440 million arrive over a queue at its ceiling: a million a step. With one fewer
/// 1,440,000,000 - 1,439 x 999,999 = 1,001,439 would have to go in step 0.
#[test]
fn the_greatest_numbers() {
    let arrivals = vec![1_000_000; 1_440];
    let most = 1_000_000_000;
    let found = releases([most, most, 1_000_000], &arrivals);
    assert_eq!(found, Some(arrivals.clone()));
    assert_eq!(releases([most, most, 999_999], &arrivals), None);
    // 1,440 below the ceiling are room for one fewer in each step.
    let start = most - 1_440;
    let found = releases([start, most, 999_999], &arrivals);
    assert_eq!(found, Some(vec![999_999; 1_440]));
    assert_eq!(releases([start + 1, most, 999_999], &arrivals), None);
}

#[test]
fn refusal_23() {
    assert!(refused([0, 0, 0], &[], 0));
    assert!(!refused([0, 0, 0], &[0; 1_440], 1_440));
    assert!(refused([0, 0, 0], &[0; 1_441], 1_441));
    for length in [0, 1, 3] {
        assert!(refused([0, 9, 9], &[1, 1], length));
    }
    assert!(refused([0, 9, 9], &[], 2));
    let (most, rate) = (1_000_000_000, 1_000_000);
    assert!(!refused([most, most, rate], &[0, rate], 2));
    assert!(refused([most + 1, most, rate], &[0, rate], 2));
    assert!(refused([most, most + 1, rate], &[0, rate], 2));
    assert!(refused([most, most, rate + 1], &[0, rate], 2));
    assert!(refused([0, most, rate], &[0, rate + 1], 2));
    assert!(refused([0, most, rate], &[rate + 1, 0], 2));
}

/// Every start, ceiling and rate up to 3 and every arrivals of three steps up to 3.
#[test]
fn the_search_finds_what_is_worked_out() {
    let (mut found, mut none) = (0, 0);
    for k in 0..4_u32.pow(6) {
        let digit = |place: u32| k / 4_u32.pow(place) % 4;
        let arrivals = [digit(3), digit(4), digit(5)];
        let asked = asked([digit(0), digit(1), digit(2)], &arrivals);
        let table = searched(asked);
        assert_eq!(table, worked_out(asked), "{asked:?}");
        *if table.is_some() {
            &mut found
        } else {
            &mut none
        } += 1;
    }
    assert!(found > 1_000 && none > 1_000, "{found} {none}");
}

/// More steps, higher rates.
#[test]
fn the_search_finds_what_is_worked_out_of_random_numbers() {
    let mut dice = Dice::new(23);
    let (mut found, mut none) = (0, 0);
    while found + none < 2_000 {
        let steps = dice.between(1, 10) as usize;
        let most = dice.between(1, 12);
        let arrivals: Vec<u32> = (0..steps).map(|_| dice.between(0, most)).collect();
        let numbers = [(); 3].map(|()| dice.between(0, 2 * most));
        let asked = asked(numbers, &arrivals);
        if !are_few(asked) {
            continue;
        }
        let table = searched(asked);
        assert_eq!(table, worked_out(asked), "{asked:?}");
        *if table.is_some() {
            &mut found
        } else {
            &mut none
        } += 1;
    }
    assert!(found > 300 && none > 300, "{found} {none}");
}

/// A large table obeys, and no other table that obeys has a smaller sum
/// anywhere. Where there is none, no table that releases all it can obeys.
#[test]
fn large_tables_obey_and_are_the_least() {
    let mut dice = Dice::new(24);
    let (mut found, mut none) = (0, 0);
    for _ in 0..300 {
        let steps = dice.between(1, 1_440) as usize;
        let most = dice.between(1, 1_000_000);
        let arrivals: Vec<u32> = (0..steps).map(|_| dice.between(0, most)).collect();
        let ceiling = dice.any_size(1_000_000_000) as u32;
        let start = dice.between(0, ceiling);
        let asked = asked([start, ceiling, dice.between(most / 3, most)], &arrivals);
        let greedy = all_that_can_go(asked);
        match worked_out(asked) {
            None => {
                assert!(!obeys(asked, &greedy));
                none += 1;
            }
            Some(table) => {
                assert!(obeys(asked, &table) && obeys(asked, &greedy));
                let rival = between(&table, &greedy, &mut dice);
                assert!(obeys(asked, &rival));
                for other in [greedy, rival] {
                    let sums = running_sums(&other);
                    assert!(running_sums(&table).iter().zip(sums).all(|(a, b)| *a <= b));
                }
                found += 1;
            }
        }
    }
    assert!(found > 50 && none > 50, "{found} {none}");
}

/// As much as rate, queue and arrivals allow in every step: the greatest sums.
fn all_that_can_go(asked: Asked) -> Vec<u32> {
    let mut queue = u64::from(asked.start);
    let go = |&arrivals: &u32| {
        let waiting = queue + u64::from(arrivals);
        let release = waiting.min(u64::from(asked.rate));
        queue = waiting - release;
        release as u32
    };
    asked.arrivals.iter().map(go).collect()
}

/// By the greater of the least running sums, and the greatest less what they are more
/// after some step.
fn between(least: &[u32], greatest: &[u32], dice: &mut Dice) -> Vec<u32> {
    let late = dice.upto(least.len() as u64) as usize;
    let (a, b) = (running_sums(least), running_sums(greatest));
    let more = match late {
        0 => 0,
        t => b[t - 1] - a[t - 1],
    };
    let sums = a.iter().zip(b).map(|(&a, b)| a.max(b.saturating_sub(more)));
    let mut last = 0;
    sums.map(|sum| (sum - std::mem::replace(&mut last, sum)) as u32)
        .collect()
}

/// A ramp with that start queue and these arrivals releases what was found: running
/// never refuses it with 9. If supply suffices, running does not refuse it.
#[test]
fn running_takes_the_releases_found() {
    let mut dice = Dice::new(26);
    let mut held_up = 0;
    for _ in 0..300 {
        let steps = dice.between(1, 30) as usize;
        let arrivals: Vec<u32> = (0..steps).map(|_| dice.between(0, 9_000)).collect();
        let numbers = [30_000, 40_000, 12_000].map(|most| dice.between(0, most));
        let Some(table) = worked_out(asked(numbers, &arrivals)) else {
            continue;
        };
        let cell = CellDraft {
            v: 1_000,
            w: 1_000,
            b: 0,
            ramp: 1,
            jam: 1_000_000,
            capacity: dice.pick(&[1_000_000, 12_000, 5_000]),
            held: 0,
            queue: numbers[0],
        };
        let rows = arrivals.iter().zip(&table).map(|(&a, &r)| vec![0, a, r]);
        let record = Draft::new((0, 0), vec![cell], rows.collect()).encode();
        let (answer, _) = run_whole(&record);
        let enough = table.iter().all(|&release| release <= cell.capacity);
        assert_eq!(answer.number, if enough { 0 } else { 10 });
        held_up += usize::from(!enough);
    }
    assert!(held_up > 5);
}
