//! Refusals 1 to 4: the record's frame.

use crate::cases::list::Cases;
use crate::cases::samples;
use reference::draft::Draft;

pub fn add(cases: &mut Cases) {
    short(cases);
    long(cases);
    first_field(cases);
    ends(cases);
    versions(cases);
    counts(cases);
    wrong_counts(cases);
    overflowing_size(cases);
}

/// The printed record with one change, in all ways.
fn with(cases: &mut Cases, change: impl FnOnce(&mut Draft)) {
    let mut draft = samples::printed();
    change(&mut draft);
    cases.draft(&draft);
}

/// Cut to this many bytes, with a true first field if there is room for it.
/// From 16 bytes on the frame passes 1.
fn short(cases: &mut Cases) {
    for count in [0, 1, 3, 4, 15, 16, 17] {
        with(cases, |d| d.cut = 124 - count);
    }
    // 16 bytes of which the first field is untrue.
    cases.all_ways(9, &[0; 16]);
}

/// 65,536 bytes pass, 65,537 don't.
fn long(cases: &mut Cases) {
    let mut draft = samples::even(64, 124);
    cases.draft(&draft);
    draft.extra = 1;
    cases.draft(&draft);
    // The longest record of a frame.
    draft.extra = 4;
    cases.read(&draft.encode());
    // 65,536 bytes of two cells and three steps: 4.
    let mut draft = samples::printed();
    draft.extra = 65_412;
    cases.read(&draft.encode());
}

/// One off both ways, and numbers that agree in part of their bytes.
fn first_field(cases: &mut Cases) {
    let wrong = [
        119,
        121,
        0,
        124,
        128,
        120 << 24,
        120 + (1 << 8),
        120 + (1 << 16),
        120 + (1 << 24),
        120 + (1 << 31),
        u32::MAX,
    ];
    for length in wrong {
        with(cases, |d| d.length = Some(length));
    }
}

/// Trailing bytes and missing bytes, with the first field of the whole record
/// and with a true one. A row has 20 bytes, a cell 24.
fn ends(cases: &mut Cases) {
    for length in [Some(120), None] {
        for count in [1, 4, 20, 24] {
            with(cases, |d| (d.length, d.extra) = (length, count));
            with(cases, |d| (d.length, d.cut) = (length, count));
        }
    }
}

fn versions(cases: &mut Cases) {
    for version in [0, 2, 3, 129, 255] {
        with(cases, |d| d.version = version);
    }
}

/// n or T beyond its limits, in a record of another size.
fn counts(cases: &mut Cases) {
    for n in [0, 65, 66, 128, 255] {
        with(cases, |d| d.n = n);
    }
    for steps in [0, 1_441, 32_771, 65_535] {
        with(cases, |d| d.steps = steps);
    }
}

/// n or T within its limits, but not those of the bytes.
fn wrong_counts(cases: &mut Cases) {
    for n in [1, 3, 64] {
        with(cases, |d| d.n = n);
    }
    for steps in [1, 2, 4, 259, 768, 1_440] {
        with(cases, |d| d.steps = steps);
    }
}

/// n 64 and T 1,440 make 744,592 bytes, in 16 bits 23,696. The record has
/// just so many.
fn overflowing_size(cases: &mut Cases) {
    with(cases, |d| {
        (d.n, d.steps) = (64, 1_440);
        d.extra = 23_696 - 124;
    });
}
