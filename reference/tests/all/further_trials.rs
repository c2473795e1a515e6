//! The cases of studies that go on and of many studies: what they hold.

use crate::support::*;
use reference::many::{fill_many, run_many, ENTRY};
use reference::onward::{fill_on, history_on, judge_on, run_on, Lists, Progress};
use std::collections::{BTreeMap, BTreeSet};
use trials::cases::batches::{self, Batch};
use trials::cases::dice::Dice;
use trials::cases::stretches::{self, Operation, Stretch};

/// How often each operation gives each number.
type Seen = BTreeMap<(&'static str, u32), usize>;

pub fn stretch_number(stretch: &Stretch) -> u32 {
    let Stretch {
        from,
        operation,
        lanes,
        record,
    } = stretch;
    match operation {
        Operation::Run { weights, length } => {
            let mut list = vec![LENT; *length];
            run_on(record, lanes, weights, *from, &mut list)
                .answer
                .number
        }
        Operation::Fill { laws, last, length } => {
            let (mut bytes, mut list) = (record.clone(), vec![LENT; *length]);
            let from = Progress {
                state: *from,
                last: **last,
            };
            let laws = laws.map(|law| law.law());
            fill_on(&mut bytes, &laws, lanes, from, &mut list)
                .answer
                .number
        }
        Operation::Judge { schedule } => {
            let judged = judge_on(record, lanes, *from, schedule);
            let (mut held, mut queue) = (vec![LENT; schedule.len()], vec![LENT; schedule.len()]);
            let lists = Lists {
                held: &mut held,
                queue: &mut queue,
            };
            assert_eq!(history_on(record, lanes, *from, schedule, lists), judged);
            judged.number
        }
    }
}

/// The whole call's number, and those of the entries.
pub fn batch_numbers(batch: &Batch) -> (u32, Vec<u32>) {
    let (mut record, mut list) = (batch.record.clone(), vec![LENT; batch.length]);
    let mut answers = vec![u64::MAX; batch.room];
    let number = match &batch.laws {
        None => run_many(
            &mut record,
            &batch.lanes,
            &batch.arrivals,
            &mut list,
            &mut answers,
        ),
        Some(laws) => fill_many(
            &mut record,
            &laws.map(|law| law.law()),
            &batch.lanes,
            &batch.arrivals,
            &mut list,
            &mut answers,
        ),
    };
    let written = answers.chunks(ENTRY).filter(|entry| entry[0] != u64::MAX);
    (number.0, written.map(|entry| entry[0] as u32).collect())
}

fn numbers(seen: &Seen, kind: &str) -> BTreeSet<u32> {
    let of_kind = seen.keys().filter(|(found, _)| *found == kind);
    of_kind.map(|(_, number)| *number).collect()
}

fn count_stretches(stretches: &[Stretch]) -> Seen {
    let mut seen = Seen::new();
    for stretch in stretches {
        *seen
            .entry((stretch.kind(), stretch_number(stretch)))
            .or_default() += 1;
    }
    seen
}

/// Numbers of the whole call, and of entries by a name of their own.
fn count_batches(batches: &[Batch]) -> Seen {
    let mut seen = Seen::new();
    for batch in batches {
        let (number, entries) = batch_numbers(batch);
        *seen.entry((batch.kind(), number)).or_default() += 1;
        let name = match batch.laws {
            None => "entry of a run",
            Some(_) => "entry of a filling",
        };
        for number in entries {
            *seen.entry((name, number)).or_default() += 1;
        }
    }
    seen
}

fn check_stretches(seen: &Seen) {
    let first: BTreeSet<u32> = (0..=8).chain(17..=19).collect();
    let with = |more: &[u32]| first.iter().chain(more).copied().collect::<BTreeSet<u32>>();
    assert_eq!(numbers(seen, "run-on"), with(&[9, 10, 11]));
    assert_eq!(numbers(seen, "fill-on"), with(&[11, 16]));
    assert_eq!(numbers(seen, "judge-on"), with(&[9, 10, 12, 13, 14]));
}

fn check_batches(seen: &Seen) {
    let whole: BTreeSet<u32> = (0..=6).chain([19, 27]).collect();
    assert_eq!(numbers(seen, "run-many"), whole);
    assert_eq!(numbers(seen, "fill-many"), whole);
    let of_runs = [0, 6, 9, 10, 11, 17, 18].into();
    assert_eq!(numbers(seen, "entry of a run"), of_runs);
    let of_fillings = [0, 6, 11, 16, 17, 18].into();
    assert_eq!(numbers(seen, "entry of a filling"), of_fillings);
}

#[test]
fn every_refusal_of_going_on_occurs() {
    let seen = count_stretches(&stretches::all());
    check_stretches(&seen);
    for kind in ["run-on", "fill-on", "judge-on"] {
        for (number, least) in [(0, 150), (7, 100), (8, 40)] {
            assert!(seen[&(kind, number)] >= least, "{kind} {number}: {seen:?}");
        }
    }
}

#[test]
fn every_refusal_of_many_studies_occurs() {
    let seen = count_batches(&batches::all());
    check_batches(&seen);
    for name in ["entry of a run", "entry of a filling"] {
        assert!(
            seen[&(name, 0)] >= 300 && seen[&(name, 6)] >= 40,
            "{seen:?}"
        );
    }
}

/// Random ones, and what altering makes of those and of the fixed ones.
#[test]
fn random_and_altered_cases_have_every_refusal() {
    let mut dice = Dice::new(33);
    let mut stretches: Vec<Stretch> = stretches::all()
        .into_iter()
        .filter(|stretch| stretch.record.len() < 1_500)
        .collect();
    stretches.extend((0..2_500).map(|k| stretches::random(k, &mut dice)));
    let mut batches: Vec<Batch> = batches::all()
        .into_iter()
        .filter(|batch| batch.record.len() < 1_500 && batch.arrivals.len() < 500)
        .collect();
    batches.extend((0..1_500).map(|k| batches::random(k, &mut dice)));
    for _ in 0..2 {
        stretches.iter_mut().for_each(|one| one.alter(&mut dice));
        batches.iter_mut().for_each(|one| one.alter(&mut dice));
    }
    check_stretches(&count_stretches(&stretches));
    check_batches(&count_batches(&batches));
}
