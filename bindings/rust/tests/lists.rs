//! Loading, a wanted queue, a street, putting a release and joining, by numbers worked out on paper.
use nobyaluk::{
    join, lent, put, read, row, rows, run, wish, wish_of_kind, Answer, Law, Refusable, Refusal,
};
use std::path::PathBuf;

fn printed_run() -> Vec<u8> {
    let folder = PathBuf::from(env!("CARGO_MANIFEST_DIR")).join("../../examples");
    std::fs::read(folder.join("printed-run.rec")).unwrap()
}

/// What an answer was refused by.
fn why<T: Refusable + std::fmt::Debug>(answer: Answer<T>) -> Refusal {
    answer.into_result().unwrap_err().refusal
}

#[test]
fn a_stated_load() {
    let mut list = [0; 10];
    let a = lent::load(0, 1000, &mut list);
    assert_eq!(a.into_result().unwrap().last, 2_498_801_434);
    assert_eq!(list, [236, 278, 820, 668, 384, 622, 344, 640, 508, 582]);
    let mut parts = [0; 10];
    let (first, second) = parts.split_at_mut(4);
    let half = lent::load(0, 1000, first).value;
    assert_eq!(lent::load(half.last as u32, 1000, second), a);
    assert_eq!(parts, list);
    assert_eq!(lent::load(42, 7, &mut []).value.last, 42);
    let refused = lent::load(42, 1_000_001, &mut list);
    assert_eq!((refused.value.last, list), (42, parts));
    assert_eq!(why(refused), Refusal::Peak);
}

#[test]
fn a_wanted_queue() {
    let mut table = [9; 3];
    let found = lent::wanted(4, 3, 2, &[0, 0, 3], &mut table).into_result();
    assert_eq!((found.unwrap().found, table), (1, [1, 1, 2]));
    let none = lent::wanted(4, 3, 2, &[0, 0, 6], &mut table).into_result();
    assert_eq!((none.unwrap().found, table), (0, [1, 1, 2]));
    let refused = lent::wanted(4, 3, 1_000_001, &[0, 0, 3], &mut table);
    assert_eq!((refused.value.found, table), (0, [1, 1, 2]));
    assert_eq!(why(refused), Refusal::WantedInput);
}

#[test]
fn a_street() {
    let mut grants = [8; 3];
    let granted = lent::grant(10, &[2, 3, 1], &[7, 1, 9], &mut grants);
    assert!(granted.into_result().is_ok());
    assert_eq!(grants, [7, 1, 2]);
    let refused = lent::grant(5, &[2, 3, 1], &[7, 1, 9], &mut grants);
    assert_eq!(why(refused), Refusal::StreetInput);
    assert_eq!(grants, [7, 1, 2]);
}

#[test]
fn a_release_put() {
    let old = printed_run();
    let mut record = old.clone();
    let refused = [
        (lent::put(&mut record, 0, 0, 7), Refusal::Limits, 0),
        (lent::put(&mut record, 0, 1, 7), Refusal::Limits, 1),
        (lent::put(&mut record, 0, 3, 7), Refusal::Limits, 3),
        (lent::put(&mut record, 3, 2, 7), Refusal::Rates, 3),
        (lent::put(&mut record, 1, 2, 1_000_001), Refusal::Rates, 1),
    ];
    for (answer, refusal, place) in refused {
        assert_eq!((why(answer), answer.value.place), (refusal, place));
    }
    assert_eq!(record, old);
    assert!(lent::put(&mut record, 1, 2, 7).into_result().is_ok());
    assert_eq!(read(&record), read(&old));
    let mut rows = [0; 15];
    lent::rows(&record, 2, 3, &mut rows);
    assert_eq!(rows[5..10], [1000, 0, 0, 500, 7]);
    assert_eq!(
        record.iter().zip(&old).filter(|(a, b)| a != b).count(),
        2,
        "300 and 7 differ in two bytes"
    );
    put(&mut record, 1, 2, 2201).unwrap();
    assert_eq!(
        run(&record, &[]).unwrap_err().refusal,
        Refusal::ReleaseAboveQueue,
        "1,700 wait after step 0 and 500 arrive"
    );
}

/// The printed run as it is and, for its downstream neighbour, without a gate queue and gate arrivals.
fn neighbours() -> (Vec<u8>, Vec<u8>) {
    let up = printed_run();
    let mut down = up.clone();
    for at in [12, 64, 84, 104] {
        down[at..at + 4].fill(0);
    }
    (up, down)
}

#[test]
fn two_roads_joined() {
    let (up, down) = neighbours();
    let mut target = [0xA5; 240];
    let answer = lent::join(&up, &down, 650, &mut target).into_result();
    let answer = answer.unwrap();
    assert_eq!((answer.place, answer.count), (0, 220));
    assert_eq!(target[220..], [0xA5; 20], "bytes beyond the record");
    let joined = read(&target[..220]).unwrap();
    assert_eq!((joined.steps, joined.road.n), (3, 4));
    assert_eq!(joined.road.share[..4], [750, 650, 750, 0]);
    assert_eq!(joined.road.gate_capacity, 2_000);
    assert_eq!(joined.state.gate_queue, 3_000);
    assert_eq!(joined.state.held[..4], [2_000, 4_000, 2_000, 4_000]);
    let row = [1_000, 0, 0, 500, 300, 0, 0, 500, 300];
    assert_eq!(rows(&target[..220]).unwrap(), row.repeat(3));
    assert_eq!(join(&up, &down, 650).unwrap(), target[..220]);
}

/// Each refusal of joining, in order; the target stays.
#[test]
fn roads_that_do_not_join() {
    let (up, down) = neighbours();
    let verdict = |up: &[u8], down: &[u8], share, room| {
        let mut target = vec![0xA5; room];
        let answer = lent::join(up, down, share, &mut target);
        assert!(answer.value.count == 0 && target.iter().all(|&byte| byte == 0xA5));
        (why(answer), answer.value.place)
    };
    let mut full = down.clone();
    full[32] = 1; // cell 1 holds more than its jam count
    let shorter = |record: &[u8]| {
        let mut record = record[..104].to_vec();
        (record[3], record[7]) = (100, 2);
        record
    };
    let (few, no_record) = (shorter(&down), &up[1..]);
    assert_eq!(verdict(no_record, &full, 1_001, 0), (Refusal::Length, 0));
    assert_eq!(verdict(&full, no_record, 1_001, 0), (Refusal::Limits, 1));
    assert_eq!(verdict(&up, &full, 1_001, 0), (Refusal::Limits, 1));
    assert_eq!(verdict(&up, &shorter(&up), 1_001, 0), (Refusal::Limits, 2));
    assert_eq!(
        verdict(&up, &shorter(&up), 650, 0),
        (Refusal::RoadsDiffer, 0)
    );
    assert_eq!(verdict(&up, &few, 650, 240), (Refusal::RoadsDiffer, 0));
    assert_eq!(verdict(&up, &up, 650, 0), (Refusal::SecondGate, 0));
    assert_eq!(verdict(&up, &down, 650, 219), (Refusal::TargetLength, 0));
    let twice = |road: Vec<u8>, _| join(&road, &road, 1_000).unwrap();
    let most = (0..5).fold(down, twice);
    assert_eq!(read(&most).unwrap().road.n, 64);
    assert_eq!(verdict(&up, &most, 0, 0), (Refusal::JoinedSize, 0));
}

/// Kinds from 3 on are fixed rates; numbers that a law doesn't use may be anything; past the ends of both lists the rate is 0.
#[test]
fn kinds_of_laws() {
    let old = printed_run();
    let filled = |kinds: &[u8], numbers: &[f64]| {
        let (mut record, mut list) = (old.clone(), [0; 9]);
        let ended = lent::fill_kinds(&mut record, kinds, numbers, &[], &mut list);
        (ended.into_result(), record, list)
    };
    let by_rate = filled(&[0, 0], &[0.0, 0.0, 0.0, 300.0, 0.0, 0.0]);
    assert!(by_rate.0.is_ok());
    assert_eq!(by_rate.1, old, "its releases are 300");
    for kind in 3..=255 {
        let unused = [f64::NAN, 0.0, 0.0, 300.0, f64::NAN, f64::INFINITY];
        assert_eq!(filled(&[kind, kind], &unused), by_rate, "{kind}");
        assert_eq!(wish_of_kind(kind, [12.5, f64::NAN, 0.0], 5, 6, 7), 12.5);
    }
    let none = filled(&[0, 0], &[0.0; 6]);
    for (kinds, numbers) in [
        (&[][..], &[][..]),
        (&[0], &[7.0, 7.0]),
        (&[1, 1], &[]),
        (&[0; 70], &[0.0; 6]),
    ] {
        assert_eq!(filled(kinds, numbers), none);
    }
    let alone = Law::Alinea {
        gain: 0.5,
        target: 4_400.0,
    };
    assert_eq!(
        wish_of_kind(1, [0.5, 4_400.0, f64::NAN], 9, 6, 4_000),
        209.0
    );
    assert_eq!(wish(alone, 9, 6, 4_000), 209.0);
}

/// One row is the last of the rows up to it, also of bytes that are no record.
#[test]
fn one_row() {
    let record = printed_run();
    let all = rows(&record).unwrap();
    for step in 0..3 {
        assert_eq!(row(&record, 2, step).unwrap(), all[5 * step..5 * step + 5]);
    }
    assert_eq!(row(&record, 2, 3), Some(vec![0; 5]), "past the last byte");
    assert_eq!(row(&[], 64, 1_439), Some(vec![0; 129]));
    assert_eq!((row(&record, 65, 0), row(&record, 2, 1_440)), (None, None));
    assert_eq!(row(&record, usize::MAX, usize::MAX), None);
    let refused = rows(&record[1..]).unwrap_err();
    assert_eq!(refused.refusal, Refusal::Length);
}
