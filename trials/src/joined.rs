//! Records cut in two and joined again, and two roads that run as one.

use crate::by_engine::Engine;
use crate::by_reference::Reference;
use crate::freeway::{Ended, Freeway};
use reference::write::Written;
use reference::{join, refusals};
use trials::cases::all_cases;
use trials::cases::case::Case;

/// Longer records are not cut.
const MAX_BYTES: usize = 6_000;
/// A byte that nobody wrote.
const KEPT: u8 = 0xA5;

/// The answer, and the target of this many bytes after it.
fn joined(
    freeway: &impl Freeway,
    roads: [&[u8]; 2],
    share: u16,
    length: usize,
) -> (Written, Vec<u8>) {
    let mut target = vec![KEPT; length];
    let [upstream, downstream] = roads;
    let written = freeway.join(upstream, downstream, share, &mut target);
    (written, target)
}

/// The records of the trials' runs that read and have several cells.
fn roads() -> impl Iterator<Item = (Vec<u8>, usize)> {
    let records = all_cases().into_iter().filter_map(|case| match case {
        Case::Run { record, .. } if record.len() <= MAX_BYTES => Some(record),
        _ => None,
    });
    records.filter_map(|record| {
        let reading = Reference.read(&record);
        let n = reading.road.n;
        (reading.number == 0 && n > 1).then_some((record, n))
    })
}

/// With the old share the same bytes come back, and no more are written.
fn comes_back(freeway: &impl Freeway, record: &[u8], cell: usize) {
    let (upstream, downstream, share) = join::cut(record, cell);
    let size = record.len();
    let pair = [&upstream[..], &downstream];
    let (written, target) = joined(freeway, pair, share, size + 5);
    let whole = Written {
        number: 0,
        place: 0,
        count: size,
    };
    assert_eq!(written, whole);
    assert_eq!((&target[..size], &target[size..]), (record, &[KEPT; 5][..]));
    // One byte too few.
    let (written, target) = joined(freeway, pair, share, size - 1);
    assert_eq!(written, Written::refused(refusals::TARGET_LENGTH, 0));
    assert!(target.iter().all(|&byte| byte == KEPT));
}

#[test]
fn a_record_cut_and_joined_is_the_same() {
    let mut count = 0;
    for (record, n) in roads() {
        for cell in [1, n / 2, n - 1] {
            comes_back(&Engine, &record, cell);
            comes_back(&Reference, &record, cell);
            count += 1;
        }
    }
    assert!(count > 1_000, "{count}");
}

/// A run with its outflows.
fn run(freeway: &impl Freeway, record: &[u8]) -> (Ended, Vec<u32>) {
    let reading = freeway.read(record);
    let mut outflows = vec![0; reading.steps * (reading.road.n + 1)];
    let ended = freeway.run(record, &[], &mut outflows);
    (ended, outflows)
}

/// With nothing onward, and no refusal in either, each road runs as it would alone.
fn runs_as_alone(freeway: &impl Freeway, record: &[u8], cell: usize) -> bool {
    let (upstream, downstream, _) = join::cut(record, cell);
    let (written, whole) = joined(freeway, [&upstream, &downstream], 0, record.len());
    assert_eq!((written.number, written.count), (0, record.len()));
    let ended = [&upstream, &downstream, &whole].map(|record| run(freeway, record));
    let [(first, flows), (second, later), (both, all)] = &ended;
    if ended.iter().any(|(ended, _)| ended.answer.number != 0) {
        return false;
    }
    assert_eq!(both.total, first.total + second.total);
    assert_eq!(both.exits, first.exits + second.exits);
    let n = both.answer.road.n;
    for (t, row) in all.chunks(n + 1).enumerate() {
        assert_eq!(row[..=cell], flows[t * (cell + 1)..(t + 1) * (cell + 1)]);
        let rest = n - cell;
        assert_eq!(row[cell + 1..], later[t * (rest + 1)..][1..=rest]);
    }
    true
}

#[test]
fn with_share_0_two_roads_run_as_alone() {
    let mut whole = 0;
    for (record, n) in roads() {
        let cell = n.div_ceil(2).min(n - 1);
        let alone = runs_as_alone(&Engine, &record, cell);
        assert_eq!(alone, runs_as_alone(&Reference, &record, cell));
        whole += u32::from(alone);
    }
    assert!(whole > 100, "{whole}");
}
