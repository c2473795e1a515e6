//! The trials: what the cases hold.

use crate::further_trials::{batch_numbers, stretch_number};
use crate::support::*;
use reference::join::join;
use reference::print::printed_schedule;
use reference::put::put;
use reference::record::{read, read_within};
use reference::street::grant;
use reference::text::schedule_of;
use reference::wanted::{wanted, Wanted};
use reference::{fill, judge, load, run, step, weigh, write};
use std::collections::BTreeSet;
use std::sync::OnceLock;
use trials::cases::all_cases;
use trials::cases::case::Case;
use trials::cases::source::Source;

/// All cases, made once for all tests.
fn made() -> &'static [Case] {
    static MADE: OnceLock<Vec<Case>> = OnceLock::new();
    MADE.get_or_init(all_cases)
}

/// An operation and the number that it answers.
type Answered = (&'static str, u32);

/// The answers to all cases, worked out once for all tests.
fn answers() -> &'static [Answered] {
    static ANSWERS: OnceLock<Vec<Answered>> = OnceLock::new();
    ANSWERS.get_or_init(|| made().iter().map(answered).collect())
}

/// A case's operation and the number that it answers, 0 for one that refuses
/// nothing.
fn answered(case: &Case) -> Answered {
    match case {
        Case::Read { record } => ("read", read(record).number),
        Case::Run {
            length,
            lanes,
            record,
        } => {
            let mut list = vec![LENT; *length];
            ("run", run::run(record, lanes, &mut list).number)
        }
        Case::Judge {
            schedule,
            lanes,
            record,
        } => ("judge", judge::judge(record, lanes, schedule).number),
        Case::Step(x) => {
            let stepped = step::step(x.road, x.state, &x.row, &x.built, &x.open);
            ("step", stepped.number)
        }
        Case::Write(x) => {
            let mut target = vec![0; x.length];
            let written = write::write(&x.road, x.steps, &x.start, &x.rows, &mut target);
            ("write", written.number)
        }
        Case::Fill(x) => {
            let (mut record, mut list) = (x.record.clone(), vec![LENT; x.length]);
            let answer = fill::fill(&mut record, &x.laws(), &x.lanes, &mut list);
            ("fill", answer.number)
        }
        Case::Weigh(x) => {
            let mut list = vec![LENT; x.length];
            let (answer, _) = weigh::run(&x.record, &x.lanes, &x.weights, &mut list);
            ("run weighted", answer.number)
        }
        Case::Present(_) => ("weighted", 0),
        Case::Row { .. } => ("row", 0),
        Case::Rows { .. } => ("rows", 0),
        Case::Leaf(_) => ("leaf", 0),
        Case::Capacity { .. } => ("capacity", 0),
        Case::Load(x) => {
            let mut list = vec![LENT; x.length];
            ("load", load::load(x.seed, x.peak, &mut list).number)
        }
        Case::Wanted(x) => match wanted(x.asked(), &mut vec![LENT; x.length]) {
            Wanted::Refused => ("wanted", 23),
            Wanted::NoTable => ("wanted, none", 0),
            Wanted::Found => ("wanted", 0),
        },
        Case::Grant(x) => {
            let mut grants = vec![LENT; x.length];
            let number = grant(x.limit, &x.guarantees, &x.wishes, &mut grants);
            ("grant", number)
        }
        Case::Put(x) => {
            let (mut record, step, cell) = (x.record.clone(), x.step as usize, x.cell as usize);
            ("put", put(&mut record, step, cell, x.release).number)
        }
        Case::Join(x) => {
            let mut target = vec![0; x.length];
            let written = join(&x.upstream, &x.downstream, x.share, &mut target);
            ("join", written.number)
        }
        Case::Within(x) => ("read within", read_within(&x.record, x.caller()).number),
        Case::On(x) => (x.kind(), stretch_number(x)),
        Case::Many(x) => (x.kind(), batch_numbers(x).0),
    }
}

/// How often an operation answers a number, or any.
fn count(answers: &[Answered], kind: &str, number: Option<u32>) -> usize {
    let found = |&&(k, x): &&Answered| k == kind && number.is_none_or(|number| x == number);
    answers.iter().filter(found).count()
}

/// Where group 4 starts: at the first run right after a step.
fn first_road(cases: &[Case]) -> usize {
    let last = cases
        .windows(2)
        .position(|pair| matches!(pair[0], Case::Step(_)) && matches!(pair[1], Case::Run { .. }));
    last.unwrap() + 1
}

#[test]
fn the_first_cases_are_those_of_the_printed_run() {
    let runs = [("run", 0), ("run", 11), ("run", 11), ("run", 0)];
    let judged = [0, 14, 0, 12, 12].map(|number| ("judge", number));
    assert_eq!(
        answers()[..10],
        [&[("read", 0)][..], &runs, &judged].concat()
    );
}

#[test]
fn there_are_enough_cases_of_each_kind() {
    let (cases, all) = (made(), answers());
    assert_eq!(cases.len(), 17_356);
    for (kind, least) in [
        ("read", 400),
        ("step", 400),
        ("write", 300),
        ("row", 80),
        ("rows", 60),
        ("leaf", 1_000),
        ("capacity", 900),
        ("run weighted", 300),
        ("weighted", 70),
        ("load", 200),
        ("wanted", 600),
        ("wanted, none", 600),
        ("grant", 800),
        ("put", 500),
        ("join", 700),
        ("read within", 1_500),
        ("run-on", 700),
        ("fill-on", 700),
        ("judge-on", 700),
        ("run-many", 250),
        ("fill-many", 250),
    ] {
        assert!(count(all, kind, None) >= least, "{kind}");
    }
    for (kind, least) in [("step", 200), ("write", 150), ("fill", 400)] {
        assert!(count(all, kind, Some(0)) >= least, "{kind}");
    }
    // From the random roads on.
    let roads = &all[first_road(cases)..];
    assert!(count(roads, "run", None) >= 400 && count(roads, "judge", None) >= 120);
    for (kind, number, least) in [
        ("run", 9, 10),
        ("run", 10, 10),
        ("run", 11, 10),
        ("judge", 0, 60),
        ("judge", 13, 30),
        ("judge", 14, 30),
    ] {
        assert!(count(roads, kind, Some(number)) >= least, "{kind} {number}");
    }
}

/// The numbers that an operation answers.
fn numbers(answers: &[Answered], kind: &str) -> BTreeSet<u32> {
    let of_kind = answers.iter().filter(|(k, _)| *k == kind);
    of_kind.map(|&(_, x)| x).collect()
}

fn every_refusal_occurs(answers: &[Answered]) {
    let found = |kind| numbers(answers, kind);
    assert_eq!(found("read"), (0..=6).chain([19]).collect());
    let run = (0..=6).chain(9..=11).chain(17..=19).collect();
    assert_eq!(found("run"), run);
    assert_eq!(found("run weighted"), run);
    let judge = (0..=6)
        .chain([9, 10])
        .chain(12..=14)
        .chain(17..=19)
        .collect();
    assert_eq!(found("judge"), judge);
    assert_eq!(found("step"), [0, 7, 8, 9, 10, 18].into());
    assert_eq!(found("write"), [0, 1, 2, 3, 4, 5, 6, 15, 19].into());
    let fill = (0..=6).chain([11]).chain(16..=19).collect();
    assert_eq!(found("fill"), fill);
    assert_eq!(found("load"), [0, 25].into());
    assert_eq!(found("wanted"), [0, 23].into());
    assert_eq!(found("grant"), [0, 24].into());
    assert_eq!(found("put"), (0..=6).chain([19]).collect());
    let join = (0..=6).chain([15]).chain(19..=22).collect();
    assert_eq!(found("join"), join);
    let within = (0..=6).chain([19, 26]).collect();
    assert_eq!(found("read within"), within);
    let on = (0..=11).chain(17..=19).collect();
    assert_eq!(found("run-on"), on);
    let on = (0..=8).chain([11]).chain(16..=19).collect();
    assert_eq!(found("fill-on"), on);
    let on = (0..=10).chain(12..=14).chain(17..=19).collect();
    assert_eq!(found("judge-on"), on);
    let many: BTreeSet<u32> = (0..=6).chain([19, 27]).collect();
    assert_eq!(
        [found("run-many"), found("fill-many")],
        [many.clone(), many]
    );
}

#[test]
fn every_refusal_of_every_operation_occurs() {
    every_refusal_occurs(answers());
}

#[test]
fn a_source_has_every_refusal_and_every_kind() {
    let source = Source::new(1);
    let of_source: Vec<Answered> = (0..20_000)
        .map(|number| answered(&source.case(number)))
        .collect();
    every_refusal_occurs(&of_source);
    let kinds = |answers: &[Answered]| answers.iter().map(|&(kind, _)| kind).collect();
    let (found, wanted): (BTreeSet<&str>, BTreeSet<&str>) = (kinds(&of_source), kinds(answers()));
    assert_eq!(found, wanted);
}

#[test]
fn a_source_s_case_comes_from_the_seed_and_its_number_alone() {
    let (one, same, other) = (Source::new(7), Source::new(7), Source::new(8));
    let numbers = (0..300).rev().step_by(7);
    assert!(numbers.clone().all(|k| one.case(k) == same.case(k)));
    assert!(numbers.filter(|&k| one.case(k) != other.case(k)).count() > 35);
}

/// Joined records of 65,536 bytes and of 64 cells, cuts in both versions, and each
/// refusal of joining several times.
#[test]
fn joins_are_at_every_bound() {
    let joins = made().iter().filter_map(|case| match case {
        Case::Join(input) => Some(input),
        _ => None,
    });
    let joined: Vec<Vec<u8>> = joins.filter_map(|input| input.joined()).collect();
    assert!(joined.iter().all(|record| read(record).number == 0));
    assert!(joined.iter().any(|record| record.len() == 65_536));
    for (version, n) in [(1, 64), (2, 64), (1, 2), (2, 2)] {
        let found = |record: &&Vec<u8>| (record[4], record[5]) == (version, n);
        assert!(joined.iter().filter(found).count() > 3, "{version} {n}");
    }
    for (number, least) in [(0, 250), (5, 60), (15, 30), (20, 60), (21, 40), (22, 25)] {
        let found = count(answers(), "join", Some(number));
        assert!(found >= least, "{number}: {found}");
    }
}

#[test]
fn random_roads_have_every_n_and_the_longest_table() {
    let mut sizes = BTreeSet::new();
    let mut longest = 0;
    for case in &made()[first_road(made())..] {
        let Case::Run { length, record, .. } = case else {
            continue;
        };
        if answered(case).1 == 0 {
            let (n, steps) = (record[5], [record[6], record[7]]);
            sizes.insert(n);
            let wanted = (6, 1_257_u16.to_be_bytes(), 8_799);
            longest += usize::from((n, steps, *length) == wanted && record[4] == 1);
        }
    }
    assert_eq!(sizes, (1..=64).collect());
    assert_eq!(longest, 1);
}

#[test]
fn the_run_s_own_rows_are_accepted_with_its_state() {
    let mut own = 0;
    for case in made() {
        let Case::Judge {
            schedule,
            lanes,
            record,
        } = case
        else {
            continue;
        };
        let mut list = vec![LENT; schedule.len()];
        let answer = run::run(record, lanes, &mut list);
        if answer.number == 0 && list == *schedule {
            assert_eq!(judge::judge(record, lanes, schedule), answer);
            own += 1;
        }
    }
    assert!(own >= 100);
}

#[test]
fn a_record_that_reads_is_written_again() {
    let mut again = 0;
    for case in made() {
        let Case::Run { record, .. } = case else {
            continue;
        };
        let reading = read(record);
        if reading.number != 0 {
            continue;
        }
        let mut rows = vec![0; reading.steps * (1 + 2 * reading.road.n)];
        reference::record::rows(record, reading.road.n, reading.steps, &mut rows);
        let mut target = vec![0; record.len()];
        let start = reading.state.start();
        write::write(&reading.road, reading.steps, &start, &rows, &mut target);
        assert_eq!(target, *record);
        again += 1;
    }
    assert!(again >= 500);
}

#[test]
fn the_run_s_own_rows_as_text() {
    let text = printed_schedule(&record_of(EXAMPLE)).unwrap();
    assert_eq!(text, "1500 934 1000\n1358 933 1000\n1252 934 1000\n");
    let list = run_text(EXAMPLE).1;
    assert_eq!(schedule_of(&text), Ok(list));
    let mut draft = example_draft();
    draft.rows[1][4] = 1_001;
    let refused = printed_schedule(&draft.encode()).unwrap_err();
    assert_eq!(verdict(&refused), (10, 1, 2));
}
