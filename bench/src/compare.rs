//! All programs on the same records: every field of the answers and the whole of the lent list.
use crate::load::{besides, closures, laws, record, record_under, road};
use crate::load::{Draws, LOADS, PEAK, SEED};
use crate::programs::{Answer, Besides, Program, Tally, ENGINE, OTHERS, VARIANTS};
use crate::timing::RECORDS;
use crate::{extended, SIZES};
use nobyaluk::{Weights, CELLS, STEPS};
use std::collections::BTreeMap;

pub const UNTOUCHED: u32 = 4_000_000_007;

/// How many records were compared, by the number of the refusal.
#[derive(Default)]
struct Refusals(BTreeMap<u64, u32>);

impl Refusals {
    fn count(&mut self, number: u64) {
        *self.0.entry(number).or_default() += 1;
    }

    /// Their counts in words; exactly these must have occurred.
    fn exactly(&self, wanted: &[u64]) -> Result<String, String> {
        let seen: Vec<u64> = self.0.keys().copied().collect();
        if seen != wanted {
            return Err(format!("not every refusal occurred: {seen:?}"));
        }
        let counts = |(number, count): (&u64, &u32)| format!("{number}: {count}");
        let counts: Vec<String> = self.0.iter().map(counts).collect();
        Ok(counts.join(", "))
    }
}

fn difference(engine: &Answer, name: &str, other: &Answer) -> String {
    format!(
        "a difference: engine {:?} {:?} {:?}, {name} {:?} {:?} {:?}",
        engine.refusal,
        engine.times,
        engine.total_present_exits,
        other.refusal,
        other.times,
        other.total_present_exits,
    )
}

/// The plain run by all programs; gives its refusal.
fn compare_runs(record: &[u8], length: usize) -> Result<u64, String> {
    let asked = |program: &Program| {
        let mut list = vec![UNTOUCHED; length];
        ((program.answer)(record, &mut list), list)
    };
    let (engine, outflows) = asked(&ENGINE);
    for program in &OTHERS {
        let (other, list) = asked(program);
        if (&other, &list) != (&engine, &outflows) {
            let pairs = list.iter().zip(&outflows);
            let first = pairs.take_while(|(a, b)| a == b).count();
            let said = difference(&engine, program.name, &other);
            return Err(format!(
                "{said}, lists alike up to number {first} of {length}"
            ));
        }
    }
    Ok(engine.refusal[0])
}

/// A record's cells and steps from its header, if they are within the limits.
fn size(record: &[u8]) -> Option<(usize, usize)> {
    let [_, _, _, _, _, n, high, low, ..] = *record else {
        return None;
    };
    let (n, steps) = (usize::from(n), usize::from(u16::from_be_bytes([high, low])));
    ((1..=CELLS).contains(&n) && (1..=STEPS).contains(&steps)).then_some((n, steps))
}

/// No table of lanes, one with some lanes closed, one of a wrong length, or one with a byte drawn again.
fn draw_lanes(record: &[u8], draws: &mut Draws) -> Vec<u8> {
    let (Some((n, steps)), kind @ 0..=6) = (size(record), draws.draw(9)) else {
        return vec![];
    };
    let mut lanes = closures(n, steps);
    let last = lanes.len() as u32 - 1;
    match kind {
        0 => lanes.truncate(draws.draw(last) as usize),
        1 => lanes.push(1),
        2 => lanes[draws.draw(last) as usize] = draws.draw(255) as u8,
        3 => lanes[n + draws.draw(last - n as u32) as usize] = draws.draw(7) as u8,
        _ => {}
    }
    lanes
}

/// What goes with a record: lanes and weights as drawn, and the laws of a road of this many cells.
fn draw_besides(record: &[u8], draws: &mut Draws) -> Besides {
    let lanes = draw_lanes(record, draws);
    let mut weight = |_| draws.draw(255) as u8;
    Besides {
        lanes,
        weights: Weights {
            places: std::array::from_fn(&mut weight),
            ramps: std::array::from_fn(&mut weight),
        },
        laws: laws(&road(size(record).map_or(0, |(n, _)| n))),
    }
}

/// The engine's runs and fillings with all further arguments and answers, and straightforward Rust; gives the run's refusal.
fn compare_besides(record: &[u8], length: usize, besides: &Besides) -> Result<u64, String> {
    let asked = |call: &dyn Fn(&mut [u8], &mut [u32]) -> Tally| {
        let (mut changed, mut list) = (record.to_vec(), vec![UNTOUCHED; length]);
        (call(&mut changed, &mut list), changed, list)
    };
    let run = asked(&|record, list| Tally::of_rust(extended::run(record, besides, list)));
    let fill = asked(&|record, list| Tally::of_rust(extended::fill(record, besides, list)));
    for variant in &VARIANTS {
        let (tally, changed, list) =
            asked(&|record, list| Tally::of_engine((variant.call)(record, besides, list)));
        let rust = if variant.fills { &fill } else { &run };
        if !tally.agrees(&rust.0) || (&changed, &list) != (&rust.1, &rust.2) {
            let said = difference(&tally.answer, "straightforward Rust", &rust.0.answer);
            return Err(format!("{}: {said}", variant.name));
        }
    }
    Ok(run.0.answer.refusal[0])
}

fn made(seed: u32, peak: u32, n: usize, steps: usize) -> Result<Vec<u8>, String> {
    record(seed, peak, n, steps).map_err(|refused| refused.to_string())
}

/// The same record in version 2.
fn with_seconds(record: &[u8], seconds: u16) -> Vec<u8> {
    let mut longer = (record.len() as u32 - 2).to_be_bytes().to_vec();
    longer.push(2);
    longer.extend(&record[5..8]);
    longer.extend(seconds.to_be_bytes());
    longer.extend(&record[8..]);
    longer
}

fn put(record: &[u8], at: usize, number: u32) -> Vec<u8> {
    let mut changed = record.to_vec();
    changed[at..at + 4].copy_from_slice(&number.to_be_bytes());
    changed
}

/// One byte or one number of a record drawn again, or its end cut off, with a first field that fits or doesn't.
fn spoil(record: &[u8], draws: &mut Draws) -> Vec<u8> {
    let mut changed = record.to_vec();
    let last = changed.len() as u32 - 1;
    match draws.draw(9) {
        0 => {
            changed.truncate(draws.draw(last) as usize);
            if changed.len() >= 4 && draws.draw(1) == 0 {
                let follow = changed.len() as u32 - 4;
                changed[..4].copy_from_slice(&follow.to_be_bytes());
            }
        }
        1..=3 => changed[draws.draw(last.min(200)) as usize] = draws.draw(255) as u8,
        4..=5 => changed[draws.draw(last) as usize] = draws.draw(255) as u8,
        _ => {
            let at = 4 * draws.draw(last / 4) as usize;
            let number = draws.draw(1_000_000).to_be_bytes();
            let end = (at + 4).min(changed.len());
            changed[at..end].copy_from_slice(&number[..end - at]);
        }
    }
    changed
}

/// All records with the lengths of the lists that are lent, in turn.
pub fn each_record(
    mut visit: impl FnMut(&[u8], usize) -> Result<(), String>,
) -> Result<(), String> {
    let mut draws = Draws(SEED);
    for (n, steps) in SIZES {
        let (width, numbers) = (4 + 8 * n, steps * (n + 1));
        for seed in SEED..SEED + 40 {
            visit(&made(seed, PEAK, n, steps)?, numbers)?;
        }
        let whole = made(SEED, PEAK, n, steps)?;
        for length in [0, numbers - 1, numbers + 100] {
            visit(&whole, length)?;
        }
        // cell 2 has a ramp: its queue, and its release in a step of the second half
        let (queue, release) = (16 + 24 + 20, 16 + 24 * n + steps / 2 * width + 16);
        visit(&put(&whole, release, 900_000), numbers)?;
        let waiting = put(&whole, queue, 900_000_000);
        visit(&put(&waiting, release, 900_000), numbers)?;
    }
    let (n, steps) = SIZES[0];
    for seed in LOADS {
        visit(&made(seed, PEAK, n, steps)?, steps * (n + 1))?;
    }
    for seed in 0..1_500 {
        let (n, steps) = (1 + draws.draw(63) as usize, 1 + draws.draw(60) as usize);
        let peak = draws.draw(80_000);
        let whole = made(seed, peak, n, steps)?;
        let numbers = steps * (n + 1);
        visit(&whole, numbers)?;
        for _ in 0..8 {
            visit(&spoil(&whole, &mut draws), numbers)?;
        }
        let seconds = draws.draw(1_000) as u16;
        let longer = with_seconds(&whole, seconds);
        visit(&longer, numbers)?;
        visit(&spoil(&longer, &mut draws), numbers)?;
    }
    Ok(())
}

/// Compares, and prints how many records there were, by refusal.
pub fn compare_all() -> Result<String, String> {
    let (mut plain, mut extended) = (Refusals::default(), Refusals::default());
    let mut draws = Draws(SEED);
    for (n, steps) in SIZES {
        let closed = besides(n, closures(n, steps));
        for seed in SEED..SEED + RECORDS {
            let record = record_under(seed, PEAK, n, steps, &closed.lanes);
            let record = record.map_err(|refused| refused.to_string())?;
            extended.count(compare_besides(&record, steps * (n + 1), &closed)?);
        }
    }
    each_record(|record, length| {
        plain.count(compare_runs(record, length)?);
        let drawn = draw_besides(record, &mut draws);
        extended.count(compare_besides(record, length, &drawn)?);
        Ok(())
    })?;
    Ok(format!(
        "{} records, the same answers and outflows by engine, {} (by refusal, {})\n\
         the same records with tables of lanes, weights, longest queues, and filled: the same by engine and straightforward Rust (by refusal, {})",
        plain.0.values().sum::<u32>(),
        OTHERS.map(|program| program.name).join(", "),
        plain.exactly(&[0, 1, 2, 3, 4, 5, 6, 9, 10, 11, 19])?,
        extended.exactly(&[0, 1, 2, 3, 4, 5, 6, 9, 10, 11, 17, 18, 19])?,
    ))
}
