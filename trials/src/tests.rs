//! Cases as bytes, guards, and differences that must be seen.

use crate::by_engine::Engine;
use crate::by_reference::Reference;
use crate::frame::{decode, encode};
use crate::lent;
use crate::options::Options;
use crate::show;
use crate::whole::{answer, Whole};
use trials::cases::all_cases;
use trials::cases::case::Case;
use trials::cases::source::Source;

fn encoded(case: &Case) -> Vec<u8> {
    let mut bytes = Vec::new();
    encode(case, &mut bytes);
    bytes
}

/// The first case of each kind.
fn samples() -> Vec<Case> {
    let mut found: Vec<Case> = Vec::new();
    for case in all_cases() {
        if found.iter().all(|old| show::kind(old) != show::kind(&case)) {
            found.push(case);
        }
    }
    assert_eq!(found.len(), 23);
    found
}

#[test]
fn every_case_comes_back_from_its_bytes() {
    let source = Source::new(3);
    let mut cases = all_cases();
    cases.extend((0..3_000).map(|number| source.case(number)));
    let bytes: Vec<u8> = cases.iter().flat_map(encoded).collect();
    assert!(decode(&bytes).unwrap() == cases);
}

#[test]
fn bytes_that_end_too_early_are_rejected() {
    for case in samples() {
        let bytes = encoded(&case);
        for length in 1..bytes.len() {
            let error = decode(&bytes[..length]).unwrap_err();
            let start = "frame 0 at byte 0: the input ends in the ";
            assert!(error.starts_with(start), "{length}: {error}");
        }
    }
    assert_eq!(decode(&[]), Ok(vec![]));
}

#[test]
fn lists_beyond_their_limits_are_rejected() {
    let error = |bytes: &[u8]| decode(bytes).unwrap_err();
    assert!(error(b"X").ends_with("88 is not a kind of frame"));
    assert!(error(&[b'R', 0, 1, 0, 5]).ends_with("65541 is more than 65540"));
    assert!(error(&[b'U', 0, 0, 0x23, 0x29]).ends_with("9001 is more than 9000"));
    assert!(error(&[b'J', 0, 0, 0x23, 0x29]).ends_with("9001 is more than 9000"));
    assert!(error(&[b'G', 0, 0, 0x23, 0x29]).ends_with("9001 is more than 9000"));
    let share = [b'I', 0, 0, 0, 0, 0, 0, 0, 0, 0, 1, 0, 0];
    assert!(error(&share).ends_with("65536 is more than 65535"));
    let within = [&[b'B'][..], &[0; 16], &[0, 1, 0, 5]].concat();
    assert!(error(&within).ends_with("65541 is more than 65540"));
    let rows = [b'T', 0, 0, 0, 2, 0, 0, 0, 1, 0, 0, 0x40, 0x81];
    assert!(error(&rows).ends_with("16513 is more than 16512"));
}

#[test]
fn every_kind_is_shown() {
    for case in samples() {
        assert!(!show::case(&case).is_empty(), "{}", show::kind(&case));
    }
}

#[test]
fn an_answer_is_whole() {
    let names = |whole: &Whole| whole.fields().map(|field| field.name).collect::<Vec<_>>();
    for case in samples() {
        let (engine, reference) = (answer(&Engine, &case), answer(&Reference, &case));
        assert_eq!(names(&engine), names(&reference));
        assert!(engine.differences(&reference).is_empty());
    }
}

#[test]
fn a_number_changed_anywhere_is_a_difference() {
    for case in samples() {
        let whole = answer(&Reference, &case);
        for (k, field) in whole.fields().enumerate() {
            for index in 0..field.numbers.len() {
                let found = whole.differences(&whole.with_one_more(k, index));
                assert_eq!(found.len(), 1);
                let (number, one) = (field.numbers[index], &found[0]);
                let wanted = (field.name, number, number.wrapping_add(1));
                assert_eq!((one.name, one.left, one.right), wanted);
            }
        }
    }
}

#[test]
fn a_difference_is_named_by_where_it_is() {
    let run = &samples()[1];
    let whole = answer(&Reference, run);
    let said = |name: &str, index: usize| {
        let k = whole.fields().position(|field| field.name == name).unwrap();
        whole.differences(&whole.with_one_more(k, index))[0].to_string()
    };
    assert_eq!(said("total", 0), "total: engine 33098, reference 33099");
    assert_eq!(
        said("outflows", 9),
        "outflows[1]: engine 934, reference 935"
    );
    let guard = "outflows[-1]: engine 4000000007, reference 4000000008";
    assert_eq!(said("outflows", 7), guard);
}

#[test]
fn guards_stand_around_what_is_lent() {
    let mut list = lent::numbers(3);
    list.list().fill(5);
    let all = list.all();
    assert_eq!(all.len(), 19);
    assert_eq!(all[8..11], [5; 3]);
    assert!(all[..8]
        .iter()
        .chain(&all[11..])
        .all(|&x| x >= 4_000_000_000));
    let mut record = lent::given(&[1, 2]);
    assert_eq!(record.list(), [1, 2]);
    assert_eq!(record.all().len(), 18);
}

#[test]
fn options_of_a_command_line() {
    let of = |line: &str| {
        let words: Vec<String> = line.split_whitespace().map(str::to_string).collect();
        Options::of(&words)
    };
    assert_eq!(of("--count 5"), Some(Options::All { count: 5 }));
    let both = Some(Options::Seed { seed: 3, count: 9 });
    assert_eq!(of("--seed 3 --count 9"), both);
    assert_eq!(of("--count 9 --seed 3"), both);
    for wrong in [
        "--seed",
        "--seed x",
        "--count -1",
        "x",
        "--replay",
        "--replay a b",
    ] {
        assert_eq!(of(wrong), None);
    }
}
