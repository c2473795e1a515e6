//! Many studies by one record: each entry is the answer to its own record.

use crate::random::{random_record, Dice};
use crate::support::*;
use reference::draft::Draft;
use reference::fill::Laws;
use reference::longest;
use reference::many::{fill_many, run_many, ENTRY};
use reference::meter::Law;
use reference::model::{present, Road};

const UNTOUCHED: u64 = u64::MAX;

/// A draft with other arrivals.
fn with_arrivals(draft: &Draft, table: &[u32]) -> Draft {
    let mut other = draft.clone();
    let width = draft.cells.len() + 1;
    for (row, arriving) in other.rows.iter_mut().zip(table.chunks(width)) {
        row[0] = arriving[0];
        for cell in 1..width {
            row[2 * cell - 1] = arriving[cell];
        }
    }
    other
}

fn table_of(draft: &Draft) -> Vec<u32> {
    let mut table = Vec::new();
    for row in &draft.rows {
        table.push(row[0]);
        table.extend(row[1..].iter().step_by(2));
    }
    table
}

/// A table like the draft's own: the same, more, less, or one that reading refuses.
fn random_table(draft: &Draft, dice: &mut Dice) -> Vec<u32> {
    let mut table = table_of(draft);
    let at = dice.upto(table.len() as u64 - 1) as usize;
    match dice.upto(5) {
        0 => {}
        1 => table[at] = 1_000_001 + dice.upto(4_000_000_000) as u32,
        2 => table[at] = dice.upto(1_000_000) as u32,
        3 => {
            let width = draft.cells.len() + 1;
            for (k, number) in table.iter_mut().enumerate() {
                let place = k % width;
                let open = place == 0 || draft.cells[place - 1].ramp == 1;
                *number = u32::from(open) * dice.upto(1_000_000) as u32;
            }
        }
        _ => table.iter_mut().for_each(|number| *number /= 2),
    }
    table
}

/// A study's entry from running or filling its own record.
fn entry((answer, queues): (reference::answer::Answer, longest::Queues)) -> Vec<u64> {
    let state = &answer.state;
    let (total, exits) = sums(&answer);
    let mut numbers = vec![
        u64::from(answer.number),
        answer.step as u64,
        answer.place as u64,
        state.gate_time,
        state.road_time,
        state.ramp_time,
        total,
        exits,
        present(&answer.road, state),
        u64::from(queues.gate),
        u64::from(queues.waiting),
    ];
    numbers.extend(queues.ramps.map(u64::from));
    numbers
}

fn lanes_for(draft: &Draft, dice: &mut Dice) -> Vec<u8> {
    let size = draft.cells.len() * (draft.rows.len() + 1);
    match dice.upto(5) {
        0 | 1 => vec![],
        2 => vec![0; size],
        3 => vec![1; size + 1],
        _ => vec![7; size],
    }
}

/// A list that is seldom too short.
fn list_for(draft: &Draft, dice: &mut Dice) -> Vec<u32> {
    let size = draft.rows.len() * (draft.cells.len() + 1);
    vec![LENT; size + 3 - 4 * usize::from(dice.upto(9) == 0)]
}

#[test]
fn each_entry_is_the_run_of_its_own_record() {
    let mut dice = Dice(201);
    let mut seen = [0; 19];
    for _ in 0..200 {
        let draft = random_record(&mut dice);
        let tables: Vec<_> = (0..dice.upto(5))
            .map(|_| random_table(&draft, &mut dice))
            .collect();
        let lanes = lanes_for(&draft, &mut dice);
        let mut list = list_for(&draft, &mut dice);
        let (mut record, mut wanted_list) = (draft.encode(), list.clone());
        let more = dice.upto(2) as usize;
        let mut answers = vec![UNTOUCHED; tables.len() * ENTRY + more];
        let number = run_many(
            &mut record,
            &lanes,
            &tables.concat(),
            &mut list,
            &mut answers,
        );
        assert_eq!(number, (0, 0));
        let (mut wanted, mut last) = (vec![], draft.encode());
        for table in &tables {
            last = with_arrivals(&draft, table).encode();
            let one = entry(longest::run(&last, &lanes, &mut wanted_list));
            seen[one[0] as usize] += 1;
            wanted.extend(one);
        }
        wanted.extend(vec![UNTOUCHED; more]);
        assert_eq!(answers, wanted);
        assert_eq!((record, list), (last, wanted_list));
    }
    let all = [0, 6, 9, 11, 17, 18];
    assert!(all.iter().all(|&k| seen[k] > 5), "{seen:?}");
}

fn laws(dice: &mut Dice) -> Laws {
    [(); Road::MAX_CELLS].map(|()| match dice.upto(9) {
        0 => Law::Fixed {
            rate: [f64::NAN, 500.0][dice.upto(1) as usize],
        },
        1..=4 => Law::Fixed { rate: 812.5 },
        5..=7 => Law::Alinea {
            gain: 0.3,
            target: 4_000.25,
        },
        _ => Law::DemandCapacity {
            capacity: 1_500.0,
            critical: 2_000.0,
            least: 30.0,
        },
    })
}

#[test]
fn each_entry_is_the_filling_of_its_own_record() {
    let mut dice = Dice(202);
    let mut seen = [0; 19];
    for _ in 0..200 {
        let draft = random_record(&mut dice);
        let laws = laws(&mut dice);
        let tables: Vec<_> = (0..dice.upto(5))
            .map(|_| random_table(&draft, &mut dice))
            .collect();
        let lanes = lanes_for(&draft, &mut dice);
        let mut list = list_for(&draft, &mut dice);
        let (mut record, mut wanted_list) = (draft.encode(), list.clone());
        let mut answers = vec![UNTOUCHED; tables.len() * ENTRY + 2];
        let given = tables.concat();
        let number = fill_many(&mut record, &laws, &lanes, &given, &mut list, &mut answers);
        assert_eq!(number, (0, 0));
        let (mut wanted, mut last) = (vec![], draft.clone());
        for table in &tables {
            // Fresh from the record as given: earlier releases change nothing.
            let mut bytes = with_arrivals(&draft, table).encode();
            let one = entry(longest::fill(&mut bytes, &laws, &lanes, &mut wanted_list));
            seen[one[0] as usize] += 1;
            last = with_arrivals(&last, table);
            if one[0] == 0 {
                let n = draft.cells.len();
                let rows = (0..draft.rows.len()).map(|t| reference::record::row(&bytes, n, t));
                last.rows = rows.collect();
            }
            wanted.extend(one);
        }
        wanted.extend([UNTOUCHED; 2]);
        assert_eq!(answers, wanted);
        assert_eq!((record, list), (last.encode(), wanted_list));
    }
    let all = [0, 6, 11, 16, 17, 18];
    assert!(all.iter().all(|&k| seen[k] > 3), "{seen:?}");
}

/// The document's run, the same with half the gate's arrivals, one that reading refuses,
/// and one with too few arrivals at the ramp.
#[test]
fn a_refused_study_leaves_the_others_alone() {
    let draft = example_draft();
    let own = [1_000, 0, 500].repeat(3);
    let less = [500, 0, 500].repeat(3);
    let mut refused = own.clone();
    refused[7] = 1;
    let mut few = draft.clone();
    few.cells[1].queue = 0;
    let none = [1_000, 0, 300, 1_000, 0, 299, 1_000, 0, 300];
    let arrivals = [&own[..], &refused, &less, &none].concat();
    let (mut record, mut list) = (draft.encode(), [LENT; 9]);
    let mut answers = [UNTOUCHED; 4 * ENTRY];
    let number = run_many(&mut record, &[], &arrivals, &mut list, &mut answers);
    assert_eq!(number, (0, 0));
    let entries: Vec<_> = answers.chunks(ENTRY).collect();
    let first = [
        0, 0, 0, 6_532, 20_866, 5_700, 33_098, 3_701, 11_299, 2_500, 1_500, 0, 2_100, 0,
    ];
    assert_eq!(entries[0][..14], first);
    assert_eq!(entries[1][..4], [6, 0, 2, 0]);
    assert!(entries[1][3..].iter().all(|&number| number == 0));
    assert_eq!(entries[2][..3], [0, 0, 0]);
    assert!(entries[2][3] < 6_532 && entries[2][5] == 5_700);
    assert_eq!(entries[3][..3], [0, 0, 0]);
    assert_eq!(record, with_arrivals(&draft, &none).encode());
    let (mut record, mut list) = (few.encode(), [LENT; 9]);
    run_many(&mut record, &[], &arrivals, &mut list, &mut answers);
    let entries: Vec<_> = answers.chunks(ENTRY).collect();
    assert_eq!(entries[0][..3], [0, 0, 0]);
    // Step 1 has 299 waiting and would release 300; the state is that after step 0.
    assert_eq!(entries[3][..3], [9, 1, 2]);
    assert_eq!(entries[3][3..6], [2_500, 6_566, 0]);
    // Of 9,000 at the start and 1,300 that arrived, 1,234 have left.
    assert_eq!(entries[3][6..9], [9_066, 1_000 + 234, 9_066]);
    assert_eq!(entries[3][9..11], [2_500, 1_500]);
}

#[test]
fn refusals_of_the_whole_call_change_nothing() {
    let draft = example_draft();
    let mut six = draft.clone();
    six.rows[1][4] = 1_000_001;
    let mut five = draft.clone();
    five.cells[1].b = 1;
    let own = table_of(&draft).repeat(3);
    let fine = [Law::Fixed { rate: 1.0 }; Road::MAX_CELLS];
    for (draft, arrivals, room, wanted) in [
        (&six, 26, 0, (6, 1)),
        (&five, 26, 0, (5, 2)),
        (&draft, 26, 0, (27, 1)),
        (&draft, 1, 0, (27, 1)),
        (&draft, 10, 3 * ENTRY, (27, 1)),
        (&draft, 27, 3 * ENTRY - 1, (27, 2)),
        (&draft, 9, 0, (27, 2)),
        (&draft, 9, ENTRY - 1, (27, 2)),
        (&draft, 9, ENTRY, (0, 0)),
        (&draft, 27, 3 * ENTRY, (0, 0)),
        (&draft, 0, 0, (0, 0)),
    ] {
        let arrivals = &own[..arrivals];
        for filling in [false, true] {
            let (mut record, mut list) = (draft.encode(), [LENT; 9]);
            let mut answers = vec![UNTOUCHED; room];
            let found = match filling {
                true => fill_many(&mut record, &fine, &[], arrivals, &mut list, &mut answers),
                false => run_many(&mut record, &[], arrivals, &mut list, &mut answers),
            };
            assert_eq!(found, wanted);
            if wanted.0 != 0 || arrivals.is_empty() {
                assert_eq!((record, list), (draft.encode(), [LENT; 9]));
                assert!(answers.iter().all(|&number| number == UNTOUCHED));
            }
        }
    }
}

/// A record refused as given, even where every table would make it sound.
#[test]
fn the_record_as_given_is_read_first() {
    let mut draft = example_draft();
    let own = table_of(&draft);
    draft.rows[1][0] = 1_000_001;
    let mut record = draft.encode();
    let number = run_many(&mut record, &[], &own, &mut [0; 9], &mut [0; ENTRY]);
    assert_eq!(number, (6, 1));
    assert_eq!(record, draft.encode());
}
