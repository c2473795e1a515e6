//! Cases as bytes, in words, and their whole answers by the reference.

use crate::by_reference::Reference;
use crate::frame::decode;
use crate::frame::onward::{put_batch, put_stretch};
use crate::show::onward::{batch_text, stretch_text};
use crate::whole::{onward, Whole};
use trials::cases::batches::{self, Batch};
use trials::cases::case::Case;
use trials::cases::dice::Dice;
use trials::cases::stretches::{self, Stretch};

fn stretch_bytes(stretch: &Stretch) -> Vec<u8> {
    let mut bytes = Vec::new();
    put_stretch(&mut bytes, stretch);
    bytes
}

fn batch_bytes(batch: &Batch) -> Vec<u8> {
    let mut bytes = Vec::new();
    put_batch(&mut bytes, batch);
    bytes
}

/// The first of each kind.
fn samples() -> (Vec<Stretch>, Vec<Batch>) {
    let all = stretches::all();
    let of = |kind: &str| all.iter().find(|x| x.kind() == kind).unwrap().clone();
    let found = ["run-on", "fill-on", "judge-on"].map(of).to_vec();
    let all = batches::all();
    let of = |kind: &str| {
        let mut of_kind = all.iter().filter(|x| x.kind() == kind);
        of_kind.find(|x| !x.arrivals.is_empty()).unwrap().clone()
    };
    (found, ["run-many", "fill-many"].map(of).to_vec())
}

#[test]
fn every_case_comes_back_from_its_bytes() {
    let mut dice = Dice::new(34);
    let mut all = stretches::all();
    all.extend((0..500).map(|k| stretches::random(k, &mut dice)));
    for stretch in all {
        let bytes = stretch_bytes(&stretch);
        assert!(decode(&bytes).unwrap() == [Case::On(Box::new(stretch))]);
    }
    let mut all = batches::all();
    all.extend((0..500).map(|k| batches::random(k, &mut dice)));
    for batch in all {
        let bytes = batch_bytes(&batch);
        assert!(decode(&bytes).unwrap() == [Case::Many(Box::new(batch))]);
    }
}

#[test]
fn bytes_that_end_too_early_are_rejected() {
    let (stretches, batches) = samples();
    let early = "frame 0 at byte 0: the input ends in the ";
    for stretch in &stretches {
        let bytes = stretch_bytes(stretch);
        for length in 1..bytes.len() {
            let error = decode(&bytes[..length]).unwrap_err();
            assert!(error.starts_with(early), "{length}: {error}");
        }
    }
    for batch in &batches {
        let bytes = batch_bytes(batch);
        for length in 1..bytes.len() {
            let error = decode(&bytes[..length]).unwrap_err();
            assert!(error.starts_with(early), "{length}: {error}");
        }
    }
}

#[test]
fn every_kind_is_shown() {
    let (stretches, batches) = samples();
    assert!(stretches.iter().all(|x| stretch_text(x).len() > 300));
    assert!(batches.iter().all(|x| batch_text(x).len() > 300));
}

fn answers() -> Vec<Whole> {
    let (stretches, batches) = samples();
    let mut all = Vec::new();
    for stretch in &stretches {
        let mut whole = Whole::default();
        onward::stretch(&Reference, stretch, &mut whole);
        all.push(whole);
    }
    for batch in &batches {
        let mut whole = Whole::default();
        onward::batch(&Reference, batch, &mut whole);
        all.push(whole);
    }
    all
}

#[test]
fn a_number_changed_anywhere_is_a_difference() {
    for whole in answers() {
        for (k, field) in whole.fields().enumerate() {
            for index in 0..field.numbers.len() {
                assert_eq!(
                    whole.differences(&whole.with_one_more(k, index)).len(),
                    1,
                    "{}",
                    field.name
                );
            }
        }
    }
}

#[test]
fn answers_are_whole() {
    let names = |whole: &Whole| whole.fields().map(|field| field.name).collect::<Vec<_>>();
    let all = answers();
    for part in ["weighted", "longest ramp queues", "outflows", "F"] {
        assert!(names(&all[0]).contains(&part), "{part}");
    }
    for part in ["last releases", "last entries", "outflows", "record"] {
        assert!(names(&all[1]).contains(&part), "{part}");
    }
    assert!(names(&all[2]).contains(&"queues after each step"));
    for many in &all[3..] {
        let wanted = ["number", "place", "answers", "outflows", "record"];
        assert_eq!(names(many), wanted);
    }
}
