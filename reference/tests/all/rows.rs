//! All rows of a record in one list.

use crate::support::*;
use reference::record::{read, row, rows};
use trials::compare;

/// The count, and a lent list of this length as it is left.
fn listed(bytes: &[u8], n: usize, steps: usize, length: usize) -> (usize, Vec<u32>) {
    let mut list = vec![LENT; length];
    let count = rows(bytes, n, steps, &mut list);
    (count, list)
}

/// The count is 0 and the list is unchanged.
fn nothing(bytes: &[u8], n: usize, steps: usize, length: usize) {
    let wanted = (0, vec![LENT; length]);
    assert!(listed(bytes, n, steps, length) == wanted, "{n} {steps}");
}

/// One cell and two steps in bytes; the rows start at byte 40.
fn one_cell() -> Vec<u8> {
    let mut bytes = vec![0, 0, 0, 60, 1, 1, 0, 2, 0, 0, 0, 9, 0, 0, 0, 8];
    bytes.extend([0, 7, 0, 6, 0, 0, 0, 1, 0, 0, 0, 5]);
    bytes.extend([0, 0, 0, 4, 0, 0, 0, 3, 0, 0, 0, 2]);
    bytes.extend([0, 0, 0, 10, 0, 0, 1, 0, 0, 1, 0, 0]);
    bytes.extend([0, 0, 0, 20, 0, 0, 2, 1, 0, 15, 66, 64]);
    bytes
}

#[test]
fn rows_by_hand() {
    let wanted = vec![10, 256, 65_536, 20, 513, 1_000_000];
    assert_eq!(listed(&one_cell(), 1, 2, 6), (6, wanted.clone()));
    assert_eq!(
        listed(&one_cell(), 1, 1, 4),
        (3, vec![10, 256, 65_536, LENT])
    );
    // A third row isn't there.
    let more = [wanted, vec![0; 3]].concat();
    assert_eq!(listed(&one_cell(), 1, 3, 9), (9, more));
    // Rows of no cells are the numbers from byte 16 on.
    let cell = vec![(7 << 16) + 6, 1, 5, 4];
    assert_eq!(listed(&one_cell(), 0, 4, 4), (4, cell));
}

#[test]
fn lists_short_exact_and_longer() {
    let record = record_of(EXAMPLE);
    let wanted = [1000, 0, 0, 500, 300].repeat(3);
    assert_eq!(listed(&record, 2, 3, 15), (15, wanted.clone()));
    for length in [16, 40] {
        let (count, list) = listed(&record, 2, 3, length);
        assert_eq!((count, &list[..15]), (15, &wanted[..]));
        assert_eq!(list[15..], vec![LENT; length - 15]);
    }
    for length in [0, 1, 5, 14] {
        nothing(&record, 2, 3, length);
    }
}

#[test]
fn n_at_its_limit_and_past_it() {
    // 16 + 24 x 64 is 1552; of the first row two numbers are there.
    let mut bytes = vec![0; 1_560];
    (bytes[1_555], bytes[1_558]) = (5, 1);
    let mut wanted = vec![0; 129];
    (wanted[0], wanted[1]) = (5, 256);
    assert_eq!(listed(&bytes, 64, 1, 129), (129, wanted));
    nothing(&bytes, 64, 1, 128);
    for n in [65, 1_000, 1 << 31, usize::MAX] {
        nothing(&bytes, n, 1, 200);
        nothing(&bytes, n, 0, 200);
    }
}

#[test]
fn t_at_its_limits_and_past_them() {
    for n in [0, 2, 64] {
        nothing(&one_cell(), n, 0, 0);
        nothing(&one_cell(), n, 0, 7);
    }
    // The row of step t starts at 40 + 12t.
    let mut bytes = one_cell();
    bytes.resize(40 + 12 * 1_441, 0);
    bytes[40 + 12 * 1_440 - 1] = 77;
    bytes[40 + 12 * 1_440 + 3] = 88;
    let (count, list) = listed(&bytes, 1, 1_440, 4_321);
    assert_eq!((count, &list[4_317..]), (4_320, &[0, 0, 77, LENT][..]));
    assert_eq!(list[..3], [10, 256, 65_536]);
    nothing(&bytes, 1, 1_440, 4_319);
    for steps in [1_441, 100_000, usize::MAX] {
        nothing(&bytes, 1, steps, 5_000);
        nothing(&bytes, 0, steps, 5_000);
    }
    // The greatest count of all.
    let (count, list) = listed(&[], 64, 1_440, 185_761);
    assert_eq!(count, 185_760);
    assert!(list[..count] == vec![0; count] && list[count] == LENT);
    nothing(&[], 64, 1_440, 185_759);
}

#[test]
fn bytes_that_end_in_a_row() {
    // In the last number, before it, in the second row's first, in the head.
    for (count, numbers) in [
        (63, [10, 256, 65_536, 20, 513, 0]),
        (60, [10, 256, 65_536, 20, 513, 0]),
        (55, [10, 256, 65_536, 0, 0, 0]),
        (47, [10, 0, 0, 0, 0, 0]),
        (15, [0; 6]),
        (0, [0; 6]),
    ] {
        let (said, list) = listed(&one_cell()[..count], 1, 2, 7);
        assert_eq!((said, &list[..6], list[6]), (6, &numbers[..], LENT));
    }
}

#[test]
fn rows_of_version_2() {
    let record = example_draft().timed(20).encode();
    let wanted = [1000, 0, 0, 500, 300].repeat(3);
    assert_eq!(listed(&record, 2, 3, 15), (15, wanted.clone()));
    nothing(&record, 2, 3, 14);
    // The last number lacks a byte.
    let mut cut = wanted;
    cut[14] = 0;
    assert_eq!(listed(&record[..125], 2, 3, 15), (15, cut));
    // As another version each number is read two bytes earlier: the lower half
    // of the one before it, the first of them the queue 1500, then two zeros.
    let mut other = record;
    other[4] = 3;
    let (_, list) = listed(&other, 2, 3, 15);
    assert_eq!(list[..5], [1_500 << 16, 1_000 << 16, 0, 0, 500 << 16]);
}

#[test]
fn bytes_that_are_no_record() {
    // Every number is there, whatever reading says.
    assert_eq!(listed(&[1; 64], 1, 2, 6), (6, vec![0x0101_0101; 6]));
    // Byte 4 says 2, so that the last number lacks two bytes.
    let mut wanted = vec![0x0202_0202; 6];
    wanted[5] = 0;
    assert_eq!(listed(&[2; 64], 1, 2, 6), (6, wanted));
    let mut draft = example_draft();
    (draft.n, draft.length) = (65, Some(0));
    draft.rows[2][4] = u32::MAX - 1;
    let mut wanted = [1000, 0, 0, 500, 300].repeat(3);
    wanted[14] = u32::MAX - 1;
    assert_eq!(read(&draft.encode()).number, 1);
    assert_eq!(listed(&draft.encode(), 2, 3, 15), (15, wanted));
}

#[test]
fn rows_are_those_of_the_steps() {
    let mut whole = 0;
    for compare::Named { name, record } in compare::records() {
        let reading = read(&record);
        if reading.number != 0 {
            continue;
        }
        let (n, steps) = (reading.road.n, reading.steps);
        let each: Vec<_> = (0..steps).map(|t| row(&record, n, t)).collect();
        let wanted = [each.concat(), vec![LENT]].concat();
        let count = steps * (1 + 2 * n);
        let found = listed(&record, n, steps, count + 1);
        assert!(found == (count, wanted), "{name}");
        whole += 1;
    }
    assert!(whole > 400);
}
