//! Many studies: each entry is what the single call gives, with lanes and laws or without, and a refused study leaves the others alone.
use nobyaluk::{lent, Law, Longest, Refusal, Study};
use std::path::PathBuf;

const STUDIES: usize = 5;
const LAWS: [Law; 2] = [
    Law::Fixed { rate: 0.0 },
    Law::Alinea {
        gain: 0.1,
        target: 5_000.0,
    },
];

fn printed_run() -> Vec<u8> {
    let folder = PathBuf::from(env!("CARGO_MANIFEST_DIR")).join("../../examples");
    std::fs::read(folder.join("printed-run.rec")).unwrap()
}

/// Tables of arrivals, gate first, of T 3 and n 2; cell 1 has no ramp, and step 1 of study 2 is above the limits.
fn tables() -> Vec<u32> {
    let mut tables = vec![];
    for study in 1..=STUDIES as u32 {
        for step in 1..=3 {
            tables.extend([211 * study * step, 0, 97 * study * step]);
        }
    }
    tables[2 * 9 + 3] = 1_000_001;
    tables
}

/// The record with a table of arrivals; it need not read.
fn with(record: &[u8], table: &[u32]) -> Vec<u8> {
    let mut record = record.to_vec();
    for (step, row) in table.chunks(3).enumerate() {
        for (number, x) in [row[0], row[1], row[2]].into_iter().enumerate() {
            let at = 64 + 20 * step + [0, 4, 12][number];
            record[at..at + 4].copy_from_slice(&x.to_be_bytes());
        }
    }
    record
}

fn entry(single: Longest) -> Study {
    let state = single.ended.state;
    Study {
        number: single.ended.number,
        step: single.ended.step,
        place: single.ended.place,
        gate_time: state.gate_time,
        road_time: state.road_time,
        ramp_time: state.ramp_time,
        total: single.ended.total,
        exits: single.ended.exits,
        present: single.ended.present,
        gate: single.gate.into(),
        waiting: single.waiting.into(),
        ramps: single.ramps.map(u64::from),
    }
}

#[test]
fn entries_are_single_calls() {
    let given = printed_run();
    for lanes in [&[][..], &[3, 7, 3, 7, 1, 3, 3, 7][..]] {
        for laws in [false, true] {
            let (mut record, mut list) = (given.clone(), [0; 9]);
            let mut answers = [Study::EMPTY; STUDIES];
            let many = match laws {
                true => lent::fill_many(
                    &mut record,
                    &LAWS,
                    lanes,
                    &tables(),
                    &mut list,
                    &mut answers,
                ),
                false => lent::run_many(&mut record, lanes, &tables(), &mut list, &mut answers),
            };
            assert!(many.into_result().is_ok());
            for (study, table) in tables().chunks(9).enumerate() {
                let (mut single, mut rows) = (with(&given, table), [0; 9]);
                let answer = match laws {
                    true => lent::fill_longest(&mut single, &LAWS, lanes, &mut rows),
                    false => lent::run_longest(&single, lanes, &mut rows),
                };
                assert_eq!(answers[study], entry(answer.value), "study {study}");
                assert_eq!((answers[study].number != 0), study == 2);
                if study == STUDIES - 1 {
                    assert_eq!((&record, list), (&single, rows));
                }
            }
            assert_eq!(
                (answers[2].number, answers[2].place),
                (Refusal::Rates.number(), 1)
            );
        }
    }
}

#[test]
fn refusals_of_the_whole_change_nothing() {
    let given = printed_run();
    let mut answers = [Study::EMPTY; 1];
    for (arrivals, place) in [(&tables()[..8], 1), (&tables()[..18], 2)] {
        let (mut record, mut list) = (given.clone(), [7; 9]);
        let many = lent::run_many(&mut record, &[], arrivals, &mut list, &mut answers);
        let refused = many.into_result().unwrap_err();
        assert_eq!(
            (refused.refusal, refused.place),
            (Refusal::ManyLengths, place)
        );
        let filled = lent::fill_many(&mut record, &LAWS, &[], arrivals, &mut list, &mut answers);
        let filled = filled.into_result().unwrap_err();
        assert_eq!(
            (filled.refusal, filled.place),
            (Refusal::ManyLengths, place)
        );
        assert_eq!(
            (record, list, answers),
            (given.clone(), [7; 9], [Study::EMPTY])
        );
    }
    let mut record = given[..5].to_vec();
    let many = lent::run_many(&mut record, &[], &tables()[..9], &mut [0; 9], &mut answers);
    assert_eq!(many.into_result().unwrap_err().refusal, Refusal::Length);
    assert_eq!(answers, [Study::EMPTY]);
    let mut record = given.clone();
    assert!(lent::run_many(&mut record, &[], &[], &mut [], &mut [])
        .into_result()
        .is_ok());
    assert!(
        lent::run_many(&mut record, &[], &tables()[..9], &mut [0; 8], &mut answers)
            .into_result()
            .is_ok()
    );
    assert_eq!(answers[0].number, Refusal::ListLength.number());
}
