//! Records written as text, and back.

use crate::support::*;
use reference::as_text::text_of;
use reference::draft::Draft;
use reference::record::read;
use trials::compare;

/// Makes a record, writes it as text, and gives the text without its comments.
fn text_form(record: &[u8]) -> String {
    let text = text_of(record).unwrap_or_else(|reason| panic!("{reason}"));
    assert_eq!(record_of(&text), record, "{text}");
    without_comments(&text)
}

#[test]
fn the_example_with_comments() {
    let wanted = "\
steps 3
gate capacity 2000 queue 3000
cell v 500 w 250 b 750 jam 8000 capacity 2000 held 2000  # cell 1
cell v 500 w 250 b 0 ramp 1 jam 8000 capacity 1000 held 4000 queue 1500  # cell 2
repeat 3 row gate 1000 ramp 2 arrivals 500 release 300  # steps 0 to 2
";
    assert_eq!(text_of(&record_of(EXAMPLE)).unwrap(), wanted);
}

#[test]
fn canonical_texts_come_back() {
    let texts = [
        "refused 3\nsteps 0\ngate capacity 0\n",
        "refused 3\nsteps 1\ngate capacity 5 queue 6\nrow gate 7\n",
        "version 2\nseconds 20\nsteps 1\ngate capacity 5 queue 6\n\
         cell v 1 w 2 b 0 jam 4 capacity 5\nrow gate 7\n",
        "refused 5\nversion 2\nseconds 20\nsteps 1\ngate capacity 5 queue 6\n\
         cell v 1 w 2 b 3 jam 4 capacity 5\nrow gate 7\n",
        "refused 3\nversion 2\nseconds 0\nsteps 0\ngate capacity 5\ndamage cells 3\n",
        "refused 1\nversion 2\nseconds 65535\nsteps 1\ngate capacity 5\nrow gate 7\n\
         damage length 9\n",
        "steps 3\ngate capacity 1\ncell v 1 w 2 b 0 ramp 1 jam 4 capacity 5\n\
         row ramp 1 arrivals 2\nrow gate 1 ramp 1 release 3\nrow\n",
        "refused 4\nsteps 4\ngate capacity 1\ncell v 1 w 2 b 3 jam 4 capacity 5\n\
         repeat 2 row ramp 1 release 3\nrow\nrow 6\n",
        "refused 1\nsteps 0\ngate capacity 1\n\
         cell v 1 w 2 b 3 ramp 9 jam 4 capacity 5 held 6 queue 7\n\
         damage length 9\ndamage version 2\ndamage cells 3\ndamage steps 4\n",
    ];
    for text in texts {
        assert_eq!(text_form(&record_of(text)), text);
    }
}

#[test]
fn records_come_back_or_a_reason_is_given() {
    for compare::Named { name, record } in compare::records() {
        match text_of(&record) {
            Ok(text) => assert_eq!(record_of(&text), record, "{name}"),
            // Its frame is refused: every record of a right size has a text.
            Err(_) => assert!([1, 2, 3, 4, 19].contains(&read(&record).number), "{name}"),
        }
    }
}

#[test]
fn what_cannot_be_told_has_its_reason() {
    let reason = |change: fn(&mut Draft)| {
        let mut draft = example_draft();
        change(&mut draft);
        text_of(&draft.encode()).unwrap_err()
    };
    let head = "a record of 15 bytes has no whole head, which takes 16";
    assert_eq!(reason(|d| d.cut = 109), head);
    let cell = "the record ends in the middle of cell 2";
    assert_eq!(reason(|d| d.cut = 124 - 41), cell);
    let number = "the record ends in the middle of a number, in the row of step 2";
    assert_eq!(reason(|d| d.cut = 1), number);
    let number = "the record ends in the middle of a number, in the row of step 3";
    assert_eq!(reason(|d| d.extra = 2), number);
    let head = "a record of 15 bytes has no whole head, which takes 18";
    let short = |d: &mut Draft| (d.version, d.seconds, d.cut) = (2, Some(20), 111);
    assert_eq!(reason(short), head);
    let long = "a record has at most 65536 bytes";
    assert_eq!(reason(|d| d.extra = 65_536 - 123), long);
}

#[test]
fn cuts_between_cells_and_numbers_are_told() {
    for count in [16, 40, 64, 68, 84, 120] {
        let mut draft = example_draft();
        draft.cut = 124 - count;
        text_form(&draft.encode());
    }
}
