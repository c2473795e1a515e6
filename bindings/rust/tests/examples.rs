//! Every example through the safe calls. `trials/` compares the same calls with the reference.
use nobyaluk::{join, judge, lent, put_wanted, run, version, Refusal, Run, VERSION};
use std::collections::BTreeMap;
use std::fs;
use std::path::PathBuf;

fn examples() -> Vec<(String, Vec<u8>)> {
    let folder = PathBuf::from(env!("CARGO_MANIFEST_DIR")).join("../../examples");
    let paths = fs::read_dir(folder)
        .unwrap()
        .map(|entry| entry.unwrap().path());
    paths
        .filter(|path| path.extension().is_some_and(|e| e == "rec"))
        .map(|path| {
            let name = path.file_stem().unwrap().to_string_lossy().into_owned();
            (name, fs::read(&path).unwrap())
        })
        .collect()
}

#[test]
fn a_run_s_own_rows_are_accepted_and_its_total_counts_everyone() {
    for (name, record) in examples() {
        let Ok(whole) = run(&record, &[]) else {
            assert!(name.starts_with("refused-"), "{name}");
            continue;
        };
        let judged = judge(&record, &[], &whole.outflow).unwrap();
        assert_eq!(judged.total, whole.ended.total, "{name}");
        let waits = whole.held.iter().chain(&whole.queue).map(|&x| u64::from(x));
        assert_eq!(waits.sum::<u64>(), whole.ended.total, "{name}");
    }
}

#[test]
fn the_library_has_the_structs_of_this_crate() {
    assert_eq!(version(), VERSION);
}

#[test]
fn a_refused_example_is_named_by_its_number() {
    for (name, record) in examples() {
        if let Some(rest) = name.strip_prefix("refused-") {
            let number: u64 = rest[..2].parse().unwrap();
            assert_eq!(run(&record, &[]).unwrap_err().number(), number, "{name}");
        }
    }
}

/// What examples/rocade-sud-ceiling.md says: made again from the ALINEA record by wanted and put; there is none one part lower.
#[test]
fn a_town_s_ceiling_on_rocade_sud() {
    let records: BTreeMap<String, Vec<u8>> = examples().into_iter().collect();
    let mut record = records["rocade-sud-alinea"].clone();
    assert_eq!(put_wanted(&mut record, 16, 44_999, 3_750), Ok(None));
    assert_eq!(
        put_wanted(&mut record, 15, 50_000, 3_750)
            .unwrap_err()
            .refusal,
        Refusal::Limits
    );
    assert!(record == records["rocade-sud-alinea"]);
    let table = put_wanted(&mut record, 16, 50_000, 3_750).unwrap().unwrap();
    assert_eq!((table.len(), table[53], table[54]), (378, 2_500, 3_750));
    assert!(
        record == records["rocade-sud-ceiling"],
        "the stored record is another"
    );
    let whole = run(&record, &[]).unwrap();
    let queue = whole.queue.iter().skip(16).step_by(22);
    assert_eq!(queue.max(), Some(&50_000));
    let road = &whole.ended.road;
    let supply = |&held| nobyaluk::supply(road.wave[15], road.capacity[15], road.jam[15], held);
    let least = whole.held.iter().skip(16).step_by(22).map(supply).min();
    assert_eq!(least, Some(23_333));
    let before = run(&records["rocade-sud-alinea"], &[]).unwrap();
    for (cell, at_ceiling, by_alinea) in [
        (14, Some(164), None),
        (11, Some(200), None),
        (16, Some(138), Some(134)),
        (3, Some(268), None),
        (7, Some(157), Some(157)),
        (2, None, None),
    ] {
        assert_eq!(first_held_back(&whole, cell), at_ceiling, "{cell}");
        assert_eq!(first_held_back(&before, cell), by_alinea, "{cell}");
    }
    assert_eq!(whole.ended.state.gate_time, before.ended.state.gate_time);
}

/// Rocade Sud, cut after cell 9 into two studies, is joined again byte for byte.
#[test]
fn two_stretches_of_rocade_sud_are_the_whole() {
    let records: BTreeMap<_, _> = examples().into_iter().collect();
    let [up, down, whole] =
        ["-upstream", "-downstream", ""].map(|part| &records[&format!("rocade-sud{part}")]);
    assert!(join(up, down, 890).unwrap() == *whole);
    assert!(join(up, down, 889).unwrap() != *whole);
}

/// The first step after step 0 in which a cell sends less than its demand.
fn first_held_back(run: &Run, cell: usize) -> Option<usize> {
    let (road, width) = (&run.ended.road, run.ended.road.n + 1);
    let held = run.held.chunks(width);
    let mut steps = held.zip(run.outflow.chunks(width).skip(1));
    let (speed, capacity) = (road.speed[cell - 1], road.capacity[cell - 1]);
    let less =
        |(held, sent): (&[u32], &[u32])| sent[cell] < nobyaluk::demand(speed, capacity, held[cell]);
    steps.position(less).map(|k| k + 1)
}

#[test]
fn a_caller_s_limits_refuse_larger_records_and_change_nothing_else() {
    const EARLY: [Refusal; 5] = [
        Refusal::Length,
        Refusal::Version,
        Refusal::Counts,
        Refusal::Seconds,
        Refusal::Size,
    ];
    for (name, record) in examples() {
        let within = |cells, bytes| lent::read_within(&record, cells, bytes);
        let over = |cells, bytes| {
            let refused = within(cells, bytes).into_result().unwrap_err();
            assert_eq!(
                (refused.refusal, refused.place),
                (Refusal::CallerLimits, 0),
                "{name}"
            );
        };
        let full = lent::read(&record).value;
        let early = EARLY.contains(&Refusal::from_number(full.number));
        if !early && (record[5] > 8 || record.len() > 4096) {
            over(8, 4096);
        } else {
            assert_eq!(within(8, 4096).value, full, "{name}");
        }
        let (cells, bytes) = (usize::from(record[5]), record.len());
        assert_eq!(within(cells, bytes).value, full, "{name}");
        assert_eq!(within(usize::MAX, usize::MAX).value, full, "{name}");
        if !early {
            over(cells - 1, bytes);
            over(cells, bytes - 1);
        }
    }
}
