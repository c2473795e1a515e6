//! Reading and printing for a caller with its own limits, refusal 26.

use crate::support::*;
use reference::draft::{CellDraft, Draft};
use reference::print::{printed_run, printed_within};
use reference::record::{read, read_within, Caller, Reading};
use trials::compare::{compare, records, Named};

/// Number and place.
fn verdict_within(record: &[u8], cells: usize, bytes: usize) -> (u32, usize) {
    let Reading { number, place, .. } = read_within(record, Caller { cells, bytes });
    (number, place)
}

/// A road of n like cells and T like rows.
fn even(n: usize, steps: usize) -> Draft {
    let cell = CellDraft {
        v: 500,
        w: 250,
        b: 0,
        ramp: 1,
        jam: 8_000,
        capacity: 2_000,
        held: 2_000,
        queue: 0,
    };
    Draft::new((900, 50), vec![cell; n], vec![vec![5; 1 + 2 * n]; steps])
}

/// The example has 2 cells and 124 bytes, 126 in version 2.
#[test]
fn cells_and_bytes_at_their_bounds() {
    for (draft, bytes) in [(example_draft(), 124), (example_draft().timed(20), 126)] {
        let record = draft.encode();
        assert_eq!(record.len(), bytes);
        for (cells, most) in [(2, bytes), (3, bytes + 1), (8, 4_096), (64, 65_536)] {
            assert_eq!(verdict_within(&record, cells, most), (0, 0));
        }
        for (cells, most) in [
            (1, bytes),
            (2, bytes - 1),
            (1, bytes - 1),
            (0, usize::MAX),
            (usize::MAX, 0),
            (0, 0),
            (1, usize::MAX),
            (usize::MAX, bytes - 1),
        ] {
            assert_eq!(verdict_within(&record, cells, most), (26, 0));
        }
    }
}

#[test]
fn a_refusal_gives_an_all_zero_road_and_state() {
    let record = record_of(EXAMPLE);
    let refused = read_within(&record, Caller { cells: 1, bytes: 9 });
    let empty = read(&[]);
    assert_eq!(
        refused,
        Reading {
            number: 26,
            ..empty
        }
    );
}

/// 8 cells pass and 9 don't; 4,096 bytes are 1 cell and 338 steps, or 5 and 90.
#[test]
fn the_limits_of_an_exercise() {
    let of = |draft: &Draft| {
        let record = draft.encode();
        let reading = read_within(&record, Caller::EXERCISE);
        (record.len(), reading.number, reading.place)
    };
    assert_eq!(of(&even(8, 1)), (276, 0, 0));
    assert_eq!(of(&even(9, 1)), (308, 26, 0));
    assert_eq!(of(&even(64, 1)), (2_068, 26, 0));
    assert_eq!(of(&even(8, 57)), (4_084, 0, 0));
    assert_eq!(of(&even(8, 58)), (4_152, 26, 0));
    for (n, steps) in [(1, 338), (5, 90)] {
        assert_eq!(of(&even(n, steps)), (4_096, 0, 0));
        assert_eq!(of(&even(n, steps).timed(20)), (4_098, 26, 0));
    }
    assert_eq!(of(&even(2, 202)), (4_104, 26, 0));
    assert_eq!(of(&even(3, 143).timed(20)), (4_094, 0, 0));
    // Both at once, and the longest record.
    assert_eq!(of(&even(64, 124)), (65_536, 26, 0));
}

/// A caller's greater numbers change nothing, with every record of the trials.
#[test]
fn greater_limits_change_nothing() {
    for Named { record, .. } in records() {
        let full = read(&record);
        assert_ne!(full.number, 26);
        for (cells, bytes) in [
            (64, 65_536),
            (65, 65_537),
            (64, usize::MAX),
            (usize::MAX, 65_536),
            (usize::MAX, usize::MAX),
            (1 << 32, 1 << 32),
        ] {
            assert_eq!(read_within(&record, Caller { cells, bytes }), full);
        }
    }
}

/// A record within the limits is read as without them; a larger one is refused with 26 unless 1, 2, 3, 19 or 4 applies.
#[test]
fn other_limits_refuse_or_change_nothing() {
    let mut seen = [0; 3];
    for Named { record, .. } in records() {
        let full = read(&record);
        for (cells, bytes) in [(8, 4_096), (2, 130), (1, 65_536), (64, 172), (0, 0)] {
            let found = read_within(&record, Caller { cells, bytes });
            let framed = [1, 2, 3, 19, 4].contains(&full.number);
            if framed || (usize::from(record[5]) <= cells && record.len() <= bytes) {
                assert_eq!(found, full);
                seen[usize::from(framed)] += 1;
            } else {
                assert_eq!((found.number, found.place), (26, 0));
                seen[2] += 1;
            }
        }
    }
    assert!(seen.iter().all(|&count| count > 500), "{seen:?}");
}

type Mend = fn(&mut Draft);

/// All faults at once, mended one after another, for a caller of one cell and for one
/// of few bytes: 1, 2, 3, 19, 4, 26, and 5 and 6 where the limits allow the road.
#[test]
fn reading_within_refuses_in_order() {
    let mends: [(u32, Mend); 5] = [
        (1, |d| d.length = None),
        (2, |d| d.version = 2),
        (3, |d| d.n = 2),
        (19, |d| d.seconds = Some(900)),
        (4, |d| d.extra = 0),
    ];
    for (cells, bytes) in [(1, 65_536), (64, 125), (0, 0)] {
        let mut draft = example_draft().timed(901);
        (draft.length, draft.version, draft.n, draft.extra) = (Some(7), 3, 65, 1);
        draft.cells[1].b = 1;
        draft.rows[1][0] = 1_000_001;
        for (number, mend) in mends {
            assert_eq!(verdict_within(&draft.encode(), cells, bytes), (number, 0));
            mend(&mut draft);
        }
        let record = draft.encode();
        assert_eq!(verdict_within(&record, cells, bytes), (26, 0));
        assert_eq!(verdict_within(&record, 2, 126), (5, 2));
        draft.cells[1].b = 0;
        let record = draft.encode();
        assert_eq!(verdict_within(&record, cells, bytes), (26, 0));
        assert_eq!(verdict_within(&record, 2, 126), (6, 1));
        draft.rows[1][0] = 1_000_000;
        let record = draft.encode();
        assert_eq!(verdict_within(&record, cells, bytes), (26, 0));
        assert_eq!(verdict_within(&record, 2, 126), (0, 0));
    }
}

/// An exercise prints the same lines, or its refusal alone. Refusals of the run are
/// printed as before.
#[test]
fn an_exercise_prints_what_the_full_program_prints() {
    let printed = |record: &[u8]| printed_within(record, Caller::EXERCISE);
    for draft in [example_draft(), example_draft().timed(20)] {
        let record = draft.encode();
        assert_eq!(printed(&record), printed_run(&record));
        assert!(printed(&record).starts_with("step place outflow held queue\n0 0 1500 2500 0\n"));
    }
    let mut draft = example_draft();
    draft.rows[1][4] = 1_001;
    assert_eq!(printed(&draft.encode()), "refused 10 1 2\n");
    draft.cells[0].v = 1_001;
    assert_eq!(printed(&draft.encode()), "refused 5 0 1\n");
    assert_eq!(printed(&even(9, 1).encode()), "refused 26 0 0\n");
    assert_eq!(printed(&even(1, 339).encode()), "refused 26 0 0\n");
    assert_eq!(printed(&vec![0; 65_537]), "refused 1 0 0\n");
    for Named { record, .. } in records() {
        match read_within(&record, Caller::EXERCISE).number {
            26 => assert_eq!(printed(&record), "refused 26 0 0\n"),
            _ => assert_eq!(printed(&record), printed_run(&record)),
        }
    }
}

/// `cat` prints its input: the line that the exercise program should print is no record.
#[test]
fn a_program_compared_as_the_exercise_program() {
    let named = |record: &[u8]| {
        let (name, record) = ("some".to_string(), record.to_vec());
        [Named { name, record }]
    };
    let wide = named(&even(9, 1).encode());
    let said = compare("cat", Caller::EXERCISE, &wide).unwrap_err();
    assert!(said.ends_with(r"not 'refused 26 0 0\n'"), "{said}");
    let said = compare("cat", Caller::FULL, &wide).unwrap_err();
    assert!(said.ends_with(r"not 'step place outflow held queue\n'"));
    assert!(compare("cat", Caller::EXERCISE, &named(b"refused 1 0 0\n")).is_ok());
}
