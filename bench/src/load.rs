//! The records of the stated load, as docs/SPEED.md has them: a road that depends on n alone, arrivals by the proved `load`, and
//! releases filled by a meter law.
use crate::programs::Besides;
use nobyaluk::{Law, Load, Refused, Road, Start, Weights, CELLS, STEPS};
use std::ops::RangeInclusive;

/// The arrivals' peak at the gate, in parts a step, of the measured records.
pub const PEAK: u32 = 40_000;
/// The first seed of the measured records.
pub const SEED: u32 = 13;

/// The seeds of the loads that a study of the longest road has.
pub const LOADS: RangeInclusive<u32> = 1..=1_000;

/// Draws by the proved load, one after the other.
pub struct Draws(pub u32);

impl Draws {
    /// A number from 0 to `peak`, which is at most 1,000,000.
    pub fn draw(&mut self, peak: u32) -> u32 {
        let mut list = [0];
        let loaded = nobyaluk::lent::load(self.0, peak, &mut list).into_result();
        let loaded = loaded.expect("the peak is within its limit");
        self.0 = loaded.last as u32;
        list[0]
    }
}

/// Whether a cell has a ramp: the second of every three.
fn has_ramp(cell: usize) -> bool {
    cell % 3 == 2
}

/// The road of n cells, of 64 at most: an off-ramp at every fourth cell, a bottleneck at every sixth.
pub fn road(n: usize) -> Road {
    let mut road = Road {
        n,
        version: 1,
        gate_capacity: 25_000,
        ..Road::EMPTY
    };
    for cell in 1..=n.min(CELLS) {
        let i = cell - 1;
        let turn = |step: usize, most: usize| (step * cell % (most + 1)) as u16;
        road.speed[i] = 900 + turn(37, 100);
        road.wave[i] = 220 + turn(23, 60);
        road.share[i] = match cell {
            _ if cell == n => 0,
            _ if cell % 4 == 0 => 850 + turn(37, 100),
            _ => 1_000,
        };
        road.ramp[i] = u16::from(has_ramp(cell));
        road.jam[i] = 120_000 + u32::from(turn(7_919, 20_000));
        road.capacity[i] = if cell % 6 == 0 { 21_000 } else { 25_000 };
    }
    road
}

/// The start of that road.
fn start(n: usize) -> Start {
    let mut start = Start {
        gate_queue: 10_000,
        ..Start::EMPTY
    };
    for cell in 1..=n.min(CELLS) {
        start.held[cell - 1] = 15_000;
        start.queue[cell - 1] = if has_ramp(cell) { 5_000 } else { 0 };
    }
    start
}

/// The rows before filling: the gate's arrivals, then those of each ramp, one list after the other.
fn rows(seed: u32, peak: u32, n: usize, steps: usize) -> Result<Vec<u32>, Refused> {
    let width = 1 + 2 * n;
    let mut rows = vec![0; steps * width];
    let mut number = seed;
    let ramps = (1..=n).filter(|&cell| has_ramp(cell));
    for (column, most) in
        std::iter::once((0, peak)).chain(ramps.map(|cell| (2 * cell - 1, peak / 10)))
    {
        let Load { arrivals, last } = nobyaluk::load(number, most, steps)?;
        for (step, arrival) in arrivals.into_iter().enumerate() {
            rows[step * width + column] = arrival;
        }
        number = last;
    }
    Ok(rows)
}

/// ALINEA at every cell, with the count at which it sends its capacity as the target.
pub fn laws(road: &Road) -> Vec<Law> {
    let cells = road.speed.iter().zip(road.capacity).take(road.n);
    cells
        .map(|(&speed, capacity)| Law::Alinea {
            gain: 0.1,
            target: f64::from(1_000 * capacity / u32::from(speed)),
        })
        .collect()
}

/// A table of lanes for that road: three lanes at each cell, of which one is closed at every eighth cell, one cell further upstream
/// every ten steps.
pub fn closures(n: usize, steps: usize) -> Vec<u8> {
    const BUILT: u8 = 0b111;
    const LEFT: u8 = 0b110;
    let closed = |place: usize| (place % n + place / n / 10) % 8 == 0;
    let rows = (0..n * steps).map(|place| if closed(place) { LEFT } else { BUILT });
    std::iter::repeat_n(BUILT, n).chain(rows).collect()
}

/// The further arguments of the engine's runs and fillings of that road: a table of lanes, its laws, and weights that fall from place to place.
pub fn besides(n: usize, lanes: Vec<u8>) -> Besides {
    Besides {
        lanes,
        weights: Weights {
            places: std::array::from_fn(|place| 255 - 3 * place as u8),
            ramps: std::array::from_fn(|cell| 3 * cell as u8),
        },
        laws: laws(&road(n)),
    }
}

/// The record of a seed, a peak, n cells and T steps, or the refusal of writing, loading or filling.
pub fn record(seed: u32, peak: u32, n: usize, steps: usize) -> Result<Vec<u8>, Refused> {
    record_under(seed, peak, n, steps, &[])
}

/// The same, filled under a table of lanes.
pub fn record_under(
    seed: u32,
    peak: u32,
    n: usize,
    steps: usize,
    lanes: &[u8],
) -> Result<Vec<u8>, Refused> {
    let road = road(n);
    // beyond the limits there are no rows, and writing refuses n or T before it reads them
    let within = (1..=CELLS).contains(&n) && (1..=STEPS).contains(&steps);
    let rows = if within {
        rows(seed, peak, n, steps)?
    } else {
        vec![]
    };
    let mut record = nobyaluk::write(road, steps, start(n), &rows)?;
    nobyaluk::fill(&mut record, &laws(&road), lanes)?;
    Ok(record)
}

#[cfg(test)]
mod tests {
    use super::*;
    use nobyaluk::Refusal;

    #[test]
    fn draws_are_the_stated_load() {
        let mut draws = Draws(0);
        let drawn: Vec<u32> = (0..10).map(|_| draws.draw(1_000)).collect();
        assert_eq!(drawn, [236, 278, 820, 668, 384, 622, 344, 640, 508, 582]);
    }

    #[test]
    fn arrivals_are_lists_one_after_the_other() {
        let record = record(7, 3_000, 6, 20).unwrap();
        let rows = nobyaluk::rows(&record).unwrap();
        let column = |k: usize| {
            rows.iter()
                .skip(k)
                .step_by(13)
                .copied()
                .collect::<Vec<u32>>()
        };
        let gate = nobyaluk::load(7, 3_000, 20).unwrap();
        let first = nobyaluk::load(gate.last, 300, 20).unwrap();
        let second = nobyaluk::load(first.last, 300, 20).unwrap();
        assert_eq!(column(0), gate.arrivals);
        assert_eq!(column(3), first.arrivals);
        assert_eq!(column(9), second.arrivals);
    }

    #[test]
    fn the_example_is_such_a_record() {
        let stored: &[u8] = include_bytes!("../../examples/loaded.rec");
        assert!(
            record(0, 40_000, 6, 30).unwrap() == stored,
            "examples/loaded.rec is not the record of docs/SPEED.md"
        );
    }

    #[test]
    fn one_lane_of_three_is_closed_at_every_eighth_cell() {
        let table = closures(20, 12);
        assert_eq!(table.len(), 20 * 13);
        let closed = |step: usize| -> Vec<usize> {
            let row = &table[20 * (step + 1)..20 * (step + 2)];
            (0..20).filter(|&i| row[i] == 0b110).collect()
        };
        assert_eq!(closed(0), [0, 8, 16]);
        assert_eq!(closed(9), [0, 8, 16]);
        assert_eq!(closed(10), [7, 15]);
        assert!(table[..20].iter().all(|&built| built == 0b111));
    }

    #[test]
    fn beyond_the_limits_there_is_a_refusal() {
        let why = |peak, n, steps| record(1, peak, n, steps).unwrap_err().refusal;
        assert_eq!(why(1_000_001, 6, 30), Refusal::Peak);
        for (n, steps) in [
            (0, 30),
            (65, 30),
            (usize::MAX, 30),
            (6, 0),
            (6, 1_441),
            (6, usize::MAX),
        ] {
            assert_eq!(why(1_000, n, steps), Refusal::Counts);
            assert_eq!(why(1_000_001, n, steps), Refusal::Counts);
        }
        assert_eq!(why(1_000, 64, 125), Refusal::Length);
    }

    #[test]
    fn the_sizes_use_a_record_up() {
        for (n, steps, size) in [(64, 124, 65_536), (21, 377, 65_364), (6, 1_257, 65_524)] {
            assert_eq!(record(SEED, PEAK, n, steps).unwrap().len(), size);
        }
    }

    /// In the rows of each size: places whose outflow supply holds below demand, and ramps that release.
    #[test]
    fn the_roads_are_congested_in_part() {
        for (n, steps) in crate::SIZES {
            let record = record(SEED, PEAK, n, steps).unwrap();
            let run = nobyaluk::run(&record, &[]).unwrap();
            let rows = nobyaluk::rows(&record).unwrap();
            let road = &run.ended.road;
            let (mut moving, mut held_back, mut releasing) = (0, 0, 0);
            for step in 1..steps {
                for i in 0..n {
                    let (before, now) = ((step - 1) * (n + 1) + i + 1, step * (n + 1) + i + 1);
                    let demand =
                        nobyaluk::demand(road.speed[i], road.capacity[i], run.held[before]);
                    moving += u32::from(run.outflow[now] > 0);
                    held_back += u32::from(run.outflow[now] < demand);
                    releasing += u32::from(rows[step * (1 + 2 * n) + 2 * i + 2] > 0);
                }
            }
            let places = (n * (steps - 1)) as u32;
            println!(
                "n {n}: of 100, {} held back, {} releasing",
                100 * held_back / places,
                100 * releasing / places
            );
            assert!(moving > places * 9 / 10);
            assert!(held_back > places / 10 && held_back < places * 9 / 10);
            assert!(releasing > places / 10);
        }
    }
}
