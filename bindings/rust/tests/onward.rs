//! Going on from a state: a study cut into two records gives the whole, with lanes and laws or without, and a refusal changes nothing.
use nobyaluk::{
    fill_longest, fill_on, history, history_on, judge_on, lent, read, rows, run, run_longest,
    run_on, run_weighted, write, Filled, Law, Longest, Progress, Refusal, Run, State, Weights,
    CELLS,
};
use std::path::PathBuf;

/// A study, and where it is cut.
struct Study {
    record: Vec<u8>,
    lanes: Vec<u8>,
    laws: Vec<Law>,
    cut: usize,
}

/// One of its two parts.
struct Part {
    record: Vec<u8>,
    lanes: Vec<u8>,
}

fn example(name: &str) -> Vec<u8> {
    let folder = PathBuf::from(env!("CARGO_MANIFEST_DIR")).join("../../examples");
    std::fs::read(folder.join(name)).unwrap()
}

/// Every third step closes a lane of every second cell.
fn some_lanes(n: usize, steps: usize) -> Vec<u8> {
    let open = |step, cell| {
        if step % 3 == 1 && cell % 2 == 1 {
            3
        } else {
            7
        }
    };
    let usable = (0..steps).flat_map(|step| (0..n).map(move |cell| open(step, cell)));
    std::iter::repeat_n(7, n).chain(usable).collect()
}

fn law(cell: usize) -> Law {
    match cell % 3 {
        0 => Law::Fixed { rate: 120.5 },
        1 => Law::Alinea {
            gain: 0.1,
            target: 5_000.0,
        },
        _ => Law::DemandCapacity {
            capacity: 900.0,
            critical: 4_000.0,
            least: 60.0,
        },
    }
}

/// Cut after one step and in the middle, with all lanes open and with some closed.
fn studies() -> Vec<Study> {
    let mut made = vec![];
    for name in ["printed-run.rec", "rocade-sud.rec"] {
        let record = example(name);
        let reading = read(&record).unwrap();
        let (n, steps) = (reading.road.n, reading.steps as usize);
        for cut in [1, steps.div_ceil(2)] {
            for lanes in [vec![], some_lanes(n, steps)] {
                made.push(Study {
                    record: record.clone(),
                    lanes,
                    laws: (0..n).map(law).collect(),
                    cut,
                });
            }
        }
    }
    made
}

impl Study {
    /// The rows before the cut and those from it on. The second record's own start is empty, and ignored.
    fn parts(&self) -> [Part; 2] {
        let reading = read(&self.record).unwrap();
        let (n, steps) = (reading.road.n, reading.steps as usize);
        let rows = rows(&self.record).unwrap();
        let part = |start, from: usize, to: usize| {
            let rows = &rows[from * (1 + 2 * n)..to * (1 + 2 * n)];
            let lanes = match self.lanes.split_at_checked(n) {
                Some((built, usable)) => [built, &usable[from * n..to * n]].concat(),
                None => vec![],
            };
            Part {
                record: write(reading.road, to - from, start, rows).unwrap(),
                lanes,
            }
        };
        [
            part(reading.state.start(), 0, self.cut),
            part(nobyaluk::Start::EMPTY, self.cut, steps),
        ]
    }

    fn start(&self) -> State {
        read(&self.record).unwrap().state
    }
}

/// The tables of two parts, one after the other, with the end of the second.
fn together(first: &Run, second: Run) -> Run {
    Run {
        ended: second.ended,
        outflow: [&first.outflow[..], &second.outflow].concat(),
        held: [&first.held[..], &second.held].concat(),
        queue: [&first.queue[..], &second.queue].concat(),
    }
}

/// The longest queues of two parts, with the end of the second.
fn longer(first: &Longest, second: &Longest) -> Longest {
    Longest {
        gate: first.gate.max(second.gate),
        waiting: first.waiting.max(second.waiting),
        ramps: std::array::from_fn(|i| first.ramps[i].max(second.ramps[i])),
        ended: second.ended,
    }
}

fn weights() -> Weights {
    let mut weights = Weights::EVEN;
    weights.places[0] = 9;
    weights.ramps[1] = 4;
    weights
}

#[test]
fn a_run_cut_in_two_is_the_run() {
    for study in studies() {
        let [first, second] = study.parts();
        let (half, tallied) =
            run_on(&first.record, &first.lanes, weights(), study.start()).unwrap();
        let (rest, more) =
            run_on(&second.record, &second.lanes, weights(), half.ended.state).unwrap();
        let (whole, weighted) = run_weighted(&study.record, &study.lanes, weights()).unwrap();
        assert_eq!(tallied.weighted + more.weighted, weighted);
        assert_eq!(
            longer(&tallied.longest, &more.longest),
            run_longest(&study.record, &study.lanes).unwrap()
        );
        assert_eq!(together(&half, rest), whole);
    }
}

#[test]
fn a_schedule_cut_in_two_is_judged_as_the_schedule() {
    for study in studies() {
        let [first, second] = study.parts();
        let whole = run(&study.record, &study.lanes).unwrap();
        let width = read(&study.record).unwrap().road.n + 1;
        let (left, right) = whole.outflow.split_at(study.cut * width);
        let half = history_on(&first.record, &first.lanes, study.start(), left).unwrap();
        assert_eq!(
            Ok(&half),
            history(&first.record, &first.lanes, left).as_ref()
        );
        let state = half.ended.state;
        let rest = history_on(&second.record, &second.lanes, state, right).unwrap();
        let judged = judge_on(&second.record, &second.lanes, state, right).unwrap();
        assert_eq!(judged, whole.ended);
        assert_eq!(together(&half, rest), whole);
    }
}

#[test]
fn a_filling_cut_in_two_is_the_filling() {
    for study in studies() {
        let [mut first, mut second] = study.parts();
        let start = Progress::start(study.start());
        let (half, filled) = fill_on(&mut first.record, &study.laws, &first.lanes, start).unwrap();
        let (rest, more) = fill_on(
            &mut second.record,
            &study.laws,
            &second.lanes,
            filled.progress(),
        )
        .unwrap();
        let mut record = study.record.clone();
        let longest = fill_longest(&mut record, &study.laws, &study.lanes).unwrap();
        assert_eq!(longer(&filled.longest, &more.longest), longest);
        let whole = run(&record, &study.lanes).unwrap();
        assert_eq!(together(&half, rest), whole);
        let releases = [rows(&first.record).unwrap(), rows(&second.record).unwrap()];
        assert_eq!(releases.concat(), rows(&record).unwrap());
    }
}

#[test]
fn a_refused_step_is_counted_in_its_record() {
    let record = example("refused-09-release-above-queue.rec");
    let reading = read(&record).unwrap();
    let (n, steps) = (reading.road.n, reading.steps as usize);
    let [mut list, mut whole] = [vec![7; steps * (n + 1)], vec![7; steps * (n + 1)]];
    let refused = lent::run(&record, &[], &mut whole).value;
    assert_eq!(refused.step, 1);
    let rows = rows(&record).unwrap();
    let [first, second] = [0..1, 1..steps].map(|part| {
        let rows = &rows[part.start * (1 + 2 * n)..part.end * (1 + 2 * n)];
        write(reading.road, part.len(), reading.state.start(), rows).unwrap()
    });
    let half = run(&first, &[]).unwrap().ended;
    let on = lent::run_on(&second, &[], Weights::EVEN, half.state, &mut list);
    let (longest, why) = (on.value.longest, on.into_result().unwrap_err());
    assert_eq!(
        (why.refusal, why.step),
        (Refusal::ReleaseAboveQueue, Some(0))
    );
    assert_eq!(longest.ended.state, refused.state);
    assert_eq!(
        (longest.gate, longest.waiting, longest.ramps),
        (0, 0, [0; CELLS])
    );
}

/// The refusal of a filling; then releases and entries are 0 and the lists are unchanged.
fn refused_filling(record: &[u8], from: Progress, list: &mut [u32]) -> Refusal {
    let (mut lent, given) = (record.to_vec(), list.to_vec());
    let answer = lent::fill_on(&mut lent, &[law(0), law(1)], &[], from, list);
    let Filled {
        releases, entries, ..
    } = answer.value;
    assert_eq!([releases, entries], [[0; CELLS]; 2]);
    assert!(lent == record && list == given);
    answer.into_result().unwrap_err().refusal
}

#[test]
fn refusals_change_nothing() {
    let record = example("printed-run.rec");
    let start = read(&record).unwrap();
    let late = State {
        done: 1_438,
        ..start.state
    };
    let mut full = start.state;
    full.held[0] = start.road.jam[0] + 1;
    for (state, wanted) in [(late, Refusal::StepsDone), (full, Refusal::StepInput)] {
        let mut list = [7; 9];
        let ran = lent::run_on(&record, &[], Weights::EVEN, state, &mut list);
        assert_eq!(ran.into_result().unwrap_err().refusal, wanted);
        assert_eq!(
            judge_on(&record, &[], state, &list).unwrap_err().refusal,
            wanted
        );
        assert_eq!(
            history_on(&record, &[], state, &list).unwrap_err().refusal,
            wanted
        );
        let filled = refused_filling(&record, Progress::start(state), &mut list);
        assert_eq!((filled, list), (wanted, [7; 9]));
    }
    let mut from = Progress::start(start.state);
    from.entries[1] = start.state.held[1] + 1;
    assert_eq!(
        refused_filling(&record, from, &mut [7; 9]),
        Refusal::StepInput
    );
    assert_eq!(
        refused_filling(&record, Progress::start(start.state), &mut [7; 8]),
        Refusal::ListLength
    );
    from.entries = [0; CELLS];
    from.entries[2] = u32::MAX; // of no cell
    assert!(fill_on(&mut record.clone(), &[law(0); 2], &[], from).is_ok());
}
