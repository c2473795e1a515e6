//! The text form: what it encodes, and its messages for faulty lines.

use crate::support::*;
use reference::print::printed_run;
use reference::text::{decoded, record_of as parse, schedule_fault, schedule_of};

#[test]
fn the_example_byte_by_byte() {
    let mut wanted = vec![0, 0, 0, 120, 1, 2, 0, 3, 0, 0, 0x07, 0xD0, 0, 0, 0x0B, 0xB8];
    // v 500, w 250, b 750, no ramp; J 8000, C 2000, held 2000, queue 0.
    wanted.extend([0x01, 0xF4, 0, 0xFA, 0x02, 0xEE, 0, 0]);
    wanted.extend([
        0, 0, 0x1F, 0x40, 0, 0, 0x07, 0xD0, 0, 0, 0x07, 0xD0, 0, 0, 0, 0,
    ]);
    // v 500, w 250, b 0, ramp; J 8000, C 1000, held 4000, queue 1500.
    wanted.extend([0x01, 0xF4, 0, 0xFA, 0, 0, 0, 1]);
    wanted.extend([
        0, 0, 0x1F, 0x40, 0, 0, 0x03, 0xE8, 0, 0, 0x0F, 0xA0, 0, 0, 0x05, 0xDC,
    ]);
    // 1000; 0, 0; 500, 300.
    for _ in 0..3 {
        wanted.extend([0, 0, 0x03, 0xE8, 0, 0, 0, 0, 0, 0, 0, 0]);
        wanted.extend([0, 0, 0x01, 0xF4, 0, 0, 0x01, 0x2C]);
    }
    assert_eq!(record_of(EXAMPLE), wanted);
    assert_eq!(example_draft().encode(), wanted);
}

#[test]
fn order_defaults_comments_and_plain_rows() {
    let same = "
        # the same in other words
        gate queue 3000 capacity 2000   # any order
        cell capacity 2000 jam 8000 held 2000 b 750 w 250 v 500
        cell v 500 w 250 b 0 ramp 1 jam 8000 capacity 1000 held 4000 queue 1500
        row 1000 0 0 500 300
        repeat 1 row ramp 2 release 300 arrivals 500 gate 1000
        row gate 1000 ramp 1 release 0 ramp 2 release 300 ramp 2 arrivals 500
        steps 3";
    assert_eq!(record_of(same), record_of(EXAMPLE));
}

#[test]
fn cells_and_rows_can_be_repeated() {
    let text = "
        steps 1440
        gate capacity 0
        repeat 4 cell v 1 w 2 b 3 jam 4 capacity 5
        cell v 1 w 2 b 0 jam 4 capacity 5
        repeat 1440 row";
    assert_eq!(record_of(text).len(), 16 + 24 * 5 + 1440 * 44);
    assert!(printed_run(&record_of(text))
        .ends_with("1439 5 0 0 0\ntotal 0 gate 0 road 0 ramp 0 exits 0\n"));
}

#[test]
fn damaged_records_can_be_written() {
    let refused = [
        ("damage length 119", 1),
        ("damage cut 109", 1),
        ("damage cut 124", 1),
        ("damage extra 65412", 4),
        ("damage extra 65413", 1),
        ("damage version 0", 2),
        ("damage cells 65", 3),
        ("damage steps 1441", 3),
        ("damage cut 108", 4),
        ("damage byte 12 255", 5),
    ];
    for (damage, number) in refused {
        let text = format!("{EXAMPLE}\n{damage}\n");
        let record = record_of(&format!("refused {number}\n{text}"));
        assert_eq!(printed_run(&record), format!("refused {number} 0 0\n"));
        let said = format!(
            "line 8: reading refuses the damaged record with {number}; \
             a text that is meant so begins with 'refused {number}'"
        );
        assert_eq!(parse(&text).unwrap_err().to_string(), said);
    }
    let sound = record_of(&format!("{EXAMPLE}\ndamage byte 123 45\n"));
    assert_eq!(printed_run(&sound), printed_with_release_301());
}

/// Byte 123 is the last of the last release: 300 is 1 * 256 + 44.
fn printed_with_release_301() -> String {
    let mut draft = example_draft();
    draft.rows[2][4] = 301;
    printed_run(&draft.encode())
}

#[test]
fn numbers_past_the_limits_are_kept_where_that_is_meant() {
    let text = "
        refused 5
        steps 1
        gate capacity 4294967295 queue 4294967295
        cell v 65535 w 65535 b 65535 ramp 65535 jam 4294967295 capacity 4294967295
        row 4294967295 4294967295 4294967295";
    let record = record_of(text);
    assert_eq!(record.len(), 52);
    assert_eq!(record[8..16], [255; 8]);
    assert_eq!(record[16..32], [255; 16]);
    assert_eq!(record[40..], [255; 12]);
    assert_eq!(printed_run(&record), "refused 5 0 0\n");
}

/// Lines 1 to 3 of a sound text without its row.
const HEAD: &str = "steps 1\ngate capacity 1\ncell v 1 w 1 b 0 jam 1 capacity 1\n";

/// What follows the head, and its message.
const FAULTY: [(&str, &str); 48] = [
    ("lane 3", "line 4: unknown statement 'lane'"),
    ("row\nsteps 1", "line 5: 'steps' is given twice"),
    ("gate capacity 1", "line 4: 'gate' is given twice"),
    ("row gate", "line 4: gate is missing at the end of the line"),
    (
        "row gate x",
        "line 4: gate should be a whole number, in thousandths of a vehicle, not 'x'",
    ),
    (
        "row gate -1",
        "line 4: gate should be a whole number, in thousandths of a vehicle, not '-1'",
    ),
    (
        "row gate 1000001",
        "line 4: gate: 1000001 is more than 1000000",
    ),
    (
        "row 1000001 0 0",
        "line 4: a number of the row: 1000001 is more than 1000000",
    ),
    ("row ramp 2", "line 4: there is no cell 2, only 1 to 1"),
    (
        "row release 1",
        "line 4: 'release' should come after 'ramp' and a cell",
    ),
    (
        "row gate 1 gate 2",
        "line 4: 'gate' is given twice for the same place",
    ),
    (
        "row 1 gate",
        "line 4: a number of the row should be a whole number, \
         in thousandths of a vehicle, not 'gate'",
    ),
    ("cell v 1", "line 4: 'w' is missing"),
    ("cell v 1 v 1", "line 4: 'v' is given twice"),
    ("cell speed 1", "line 4: unknown keyword 'speed'"),
    ("cell v 1001", "line 4: v: 1001 is more than 1000"),
    (
        "cell v 0.5",
        "line 4: v should be a whole number, in thousandths, not '0.5'",
    ),
    ("cell v 1 w 1 b 1001", "line 4: b: 1001 is more than 1000"),
    ("cell ramp 2", "line 4: ramp: 2 is more than 1"),
    (
        "cell jam 1000001",
        "line 4: jam: 1000001 is more than 1000000",
    ),
    (
        "cell queue 1000000001",
        "line 4: queue: 1000000001 is more than 1000000000",
    ),
    (
        "cell v 1 w 1 b 0 jam 5 capacity 1 held 6",
        "line 4: held: 6 is more than jam, 5",
    ),
    (
        "cell v 1 w 1 b 0 jam 5 capacity 1 queue 6",
        "line 4: queue: 6, but the cell has no ramp (ramp 1 gives it one)",
    ),
    (
        "cell v 1 w 1 b 7 jam 5 capacity 1\nrow",
        "line 4: b of the last cell is 7, where it must be 0: all that leaves it leaves the road",
    ),
    (
        "repeat 64 cell v 1 w 1 b 0 jam 5 capacity 1",
        "line 4: a record has at most 64 cells",
    ),
    ("repeat 1441 row", "line 4: a record has at most 1440 steps"),
    (
        "refused 5",
        "line 4: 'refused' must come before all other statements",
    ),
    ("row\ncell v 1", "line 5: cells must come before the rows"),
    ("repeat 2 steps 3", "line 4: 'steps' can't be repeated"),
    ("damage road 3", "line 4: unknown damage 'road'"),
    ("version 3", "line 4: version: 3 is more than 2"),
    ("version 0", "line 4: there is no version 0, only 1 and 2"),
    ("version 1\nversion 1", "line 5: 'version' is given twice"),
    ("seconds 1\nseconds 1", "line 5: 'seconds' is given twice"),
    ("seconds 901", "line 4: seconds: 901 is more than 900"),
    ("seconds 0", "line 4: seconds: 0 is less than 1"),
    ("seconds 20\nrow", "line 4: only version 2 has seconds"),
    (
        "version 1\nseconds 20\nrow",
        "line 5: only version 2 has seconds",
    ),
    ("version 2\nrow", "line 5: the text ends without 'seconds'"),
    ("damage cut 1 2", "line 4: '2' is too much on this line"),
    (
        "row\ndamage byte 52 1",
        "line 5: there is no byte 52 in a record of 52",
    ),
    ("repeat 2 row", "line 1: steps is 1, but there are 2 rows"),
    ("row 5", WRONG_COUNT_1),
    ("repeat 1 row 5 0 0 0", WRONG_COUNT_4),
    (
        "row 5 7 0",
        "line 4: cell 1 has no ramp, but arrivals of 7 there",
    ),
    (
        "row 5 0 7",
        "line 4: cell 1 has no ramp, but release of 7 there",
    ),
    (
        "repeat 1 row ramp 1 release 7",
        "line 4: cell 1 has no ramp, but release of 7 there",
    ),
    (
        "\nrow ramp 1 arrivals 7 release 0",
        "line 5: cell 1 has no ramp, but arrivals of 7 there",
    ),
];

const WRONG_COUNT_1: &str = "line 4: a row has 3 numbers (the gate's arrivals, \
    then arrivals and release of each cell; cells: 1), not 1";
const WRONG_COUNT_4: &str = "line 4: a row has 3 numbers (the gate's arrivals, \
    then arrivals and release of each cell; cells: 1), not 4";

#[test]
fn faulty_lines_are_named() {
    for (rest, said) in FAULTY {
        let error = parse(&format!("{HEAD}{rest}")).unwrap_err();
        assert_eq!(error.to_string(), said);
    }
    let said = |text: &str| parse(text).unwrap_err().to_string();
    assert_eq!(said("steps 1\n\n"), "line 2: the text ends without 'gate'");
    assert_eq!(said("steps 0"), "line 1: steps: 0 is less than 1");
    assert_eq!(said("steps 1441"), "line 1: steps: 1441 is more than 1440");
    assert_eq!(
        said("gate capacity 1\nsteps 1\nrow"),
        "line 3: the text ends without 'cell'"
    );
}

#[test]
fn more_steps_than_the_bytes_allow_are_named() {
    let text = |version: &str, steps: usize| {
        format!(
            "{version}\nsteps {steps}\ngate capacity 1\n\
             repeat 64 cell v 1 w 1 b 0 jam 1 capacity 1\nrepeat {steps} row"
        )
    };
    assert_eq!(record_of(&text("", 124)).len(), 16 + 24 * 64 + 124 * 516);
    let said = |text: &str| parse(text).unwrap_err().to_string();
    assert_eq!(
        said(&text("", 125)),
        "line 2: steps: 125 with 64 cells take 66052 bytes, more than 65536; \
         64 cells leave room for 124 steps"
    );
    record_of(&text("version 2 # and\nseconds 1", 123));
    assert_eq!(
        said(&text("version 2 # and\nseconds 1", 124)),
        "line 3: steps: 124 with 64 cells take 65538 bytes, more than 65536; \
         64 cells leave room for 123 steps"
    );
}

#[test]
fn a_text_that_is_meant_to_be_refused_must_be() {
    let said = |first: &str| {
        parse(&format!("{first}\n{HEAD}row"))
            .unwrap_err()
            .to_string()
    };
    assert_eq!(
        said("refused 5"),
        "line 1: reading doesn't refuse this record"
    );
    assert_eq!(
        said("refused 2\nversion 2\nseconds 901"),
        "line 1: reading refuses this record with 19, not 2"
    );
    assert_eq!(
        said("refused 9"),
        "line 1: reading refuses with 1 to 6 or 19, not 9"
    );
    let long = format!("refused 1\n{HEAD}repeat 65535 row 1 2 3 4");
    assert_eq!(
        parse(&long).unwrap_err().to_string(),
        "line 5: the rows take more than 1000000 bytes"
    );
}

#[test]
fn rows_are_taken_as_they_are_where_that_is_meant() {
    let rows = [
        ("row 5", 4),
        ("row 5 0 0 0", 4),
        ("row 5 0 7", 6),
        ("repeat 1 row ramp 1 release 7", 6),
        ("row gate 1000001", 6),
    ];
    for (row, number) in rows {
        let record = record_of(&format!("refused {number}\n{HEAD}{row}"));
        assert_eq!(printed_run(&record), format!("refused {number} 0 0\n"));
    }
}

#[test]
fn a_byte_order_mark_is_skipped() {
    let marked = format!("\u{FEFF}{EXAMPLE}");
    assert_eq!(record_of(&marked), record_of(EXAMPLE));
    assert_eq!(schedule_of("\u{FEFF}1 2").unwrap(), [1, 2]);
    let error = parse("\u{FEFF}lane 3").unwrap_err();
    assert_eq!(error.to_string(), "line 1: unknown statement 'lane'");
}

#[test]
fn empty_texts_and_other_bytes_are_named_with_a_line() {
    let said = |text: &str| parse(text).unwrap_err().to_string();
    assert_eq!(said(""), "line 1: the text is empty");
    assert_eq!(said("\u{FEFF}"), "line 1: the text is empty");
    assert_eq!(
        said("# a comment\n\n# another"),
        "line 3: the text ends without 'gate'"
    );
    assert_eq!(decoded(EXAMPLE.as_bytes()), Ok(EXAMPLE));
    let error = decoded(b"steps 1\n# caf\xE9\n").unwrap_err();
    assert_eq!(error.to_string(), "line 2: byte 233 is not UTF-8 text here");
    let cut_short = decoded(b"\n\n\xC3").unwrap_err();
    assert_eq!(
        cut_short.to_string(),
        "line 3: byte 195 is not UTF-8 text here"
    );
}

#[test]
fn schedules_are_numbers_between_blanks() {
    assert_eq!(
        schedule_of("1 2 # gate, cell\n\n 3\t4").unwrap(),
        [1, 2, 3, 4]
    );
    assert_eq!(schedule_of("").unwrap(), []);
    assert_eq!(
        schedule_of("1\n2 x").unwrap_err().to_string(),
        "line 2: an outflow should be a whole number, in thousandths of a vehicle, not 'x'"
    );
}

#[test]
fn a_schedule_s_row_of_another_length_is_named() {
    let said = |text: &str| schedule_fault(text, 1, 2).map(|fault| fault.to_string());
    assert_eq!(said("1 2 # gate, cell\n\n 3\t4"), None);
    assert_eq!(
        said("# rows\n1 2\n3").unwrap(),
        "line 3: the row of step 1 should have 2 numbers, gate first, not 1"
    );
    assert_eq!(
        said("1 2\n3 4\n5 6\n").unwrap(),
        "line 3: the schedule has 3 rows, but the record 2 steps"
    );
    assert_eq!(
        said("").unwrap(),
        "line 1: the schedule has 0 rows, but the record 2 steps"
    );
}
