//! A shared street from end to end: two roads, the releases granted for one step put into
//! both records, both run, each compared with a rival schedule.

use crate::by_engine::Engine;
use crate::by_reference::Reference;
use crate::freeway::{Ended, Freeway};
use reference::draft::{CellDraft, Draft};
use reference::put::Put;

/// The step that is granted.
const STEP: usize = 1;

/// Records with the cell whose ramp is on the street.
fn roads() -> [(Vec<u8>, usize); 2] {
    let first = CellDraft {
        v: 500,
        w: 250,
        b: 750,
        ramp: 0,
        jam: 8_000,
        capacity: 2_000,
        held: 2_000,
        queue: 0,
    };
    let with_ramp = CellDraft {
        b: 0,
        ramp: 1,
        capacity: 1_000,
        held: 4_000,
        queue: 1_500,
        ..first
    };
    let alone = CellDraft {
        held: 1_000,
        queue: 400,
        ..with_ramp
    };
    let long = vec![vec![1_000, 0, 0, 500, 300]; 3];
    let short = vec![vec![100, 200, 100]; 3];
    let long = Draft::new((2_000, 3_000), vec![first, with_ramp], long);
    let short = Draft::new((500, 500), vec![alone], short).timed(60);
    [(long.encode(), 2), (short.encode(), 1)]
}

/// A road after its grant: its record, its run with the outflows, and a rival judged.
struct Fed {
    record: Vec<u8>,
    run: Ended,
    outflows: Vec<u32>,
    rival: Ended,
}

/// Grants the step, puts each grant into its road's record and runs it. The rival sends
/// what the run sends before the step and nothing from it on.
fn fed(freeway: &impl Freeway, limit: u32, wishes: [u32; 2]) -> (Vec<u32>, Vec<Fed>) {
    let mut grants = vec![0; 2];
    assert_eq!(freeway.grant(limit, &[200, 300], &wishes, &mut grants), 0);
    let feed = |((mut record, cell), &release): ((Vec<u8>, usize), &u32)| {
        let put = freeway.put(&mut record, STEP, cell, release);
        assert_eq!((put.number, put.place), (0, 0));
        let reading = freeway.read(&record);
        let width = reading.road.n + 1;
        let mut outflows = vec![0; reading.steps * width];
        let run = freeway.run(&record, &[], &mut outflows);
        let mut rival = outflows.clone();
        rival[STEP * width..].fill(0);
        Fed {
            rival: freeway.judge(&record, &[], &rival),
            record,
            run,
            outflows,
        }
    };
    let fed = roads().into_iter().zip(&grants).map(feed).collect();
    (grants, fed)
}

/// 200 and 300 are sure; of the 400 that remain the first ramp takes all.
#[test]
fn two_roads_feed_from_one_street() {
    for (grants, fed) in [
        fed(&Engine, 900, [800, 500]),
        fed(&Reference, 900, [800, 500]),
    ] {
        assert_eq!(grants, [600, 300]);
        assert_eq!([fed[0].run.total, fed[1].run.total], [33_298, 4_425]);
        assert_eq!(fed[0].outflows[3..], [1_358, 533, 1_000, 1_152, 934, 1_000]);
        for Fed { run, rival, .. } in &fed {
            assert_eq!((run.answer.number, rival.answer.number), (0, 0));
            assert!(run.total < rival.total);
            let (ours, theirs) = (&run.answer.state, &rival.answer.state);
            assert!(ours.gate_f >= theirs.gate_f);
            assert!(ours
                .f
                .iter()
                .zip(theirs.f)
                .all(|(ours, theirs)| *ours >= theirs));
        }
    }
}

/// 1,200 are granted where cell 2's supply is 1,000: that road's run stops at the step,
/// the other's doesn't.
#[test]
fn a_run_still_checks_what_was_granted() {
    for (grants, fed) in [
        fed(&Engine, 1_600, [1_200, 500]),
        fed(&Reference, 1_600, [1_200, 500]),
    ] {
        assert_eq!(grants, [1_200, 400]);
        let verdicts = fed.iter().map(|road| &road.run.answer);
        let verdicts: Vec<_> = verdicts.map(|x| (x.number, x.step, x.place)).collect();
        assert_eq!(verdicts, [(10, STEP, 2), (0, 0, 0)]);
    }
}

/// Both implementations leave the same records, runs and rivals, for any wishes.
#[test]
fn both_feed_alike() {
    for limit in [500, 501, 777, 1_000, 1_600] {
        for wishes in [[0, 0], [100, 900], [900, 100], [700, 700], [2_000, 1]] {
            let (grants, ours) = fed(&Engine, limit, wishes);
            let (same, theirs) = fed(&Reference, limit, wishes);
            assert_eq!(grants, same);
            for (ours, theirs) in ours.iter().zip(&theirs) {
                assert_eq!(ours.record, theirs.record);
                assert_eq!(ours.outflows, theirs.outflows);
                assert_eq!(ours.run.answer, theirs.run.answer);
                assert_eq!(ours.rival.answer, theirs.rival.answer);
                assert_eq!(ours.run.total, theirs.run.total);
                assert_eq!(ours.rival.total, theirs.rival.total);
            }
        }
    }
}

/// Both refuse a ramp that does not exist, and the record is unchanged.
#[test]
fn no_ramp_no_release() {
    let [(record, _), _] = roads();
    for cell in [0, 1, 3] {
        let mut given = record.clone();
        let refused = Put {
            number: 5,
            place: cell,
        };
        assert_eq!(Engine.put(&mut given, STEP, cell, 600), refused);
        assert_eq!(Reference.put(&mut given, STEP, cell, 600), refused);
        assert_eq!(given, record);
    }
}
