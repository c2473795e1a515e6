//! The straightforward program with the further arguments and answers of running and filling: a table of lanes, weights, the longest
//! queues, and releases filled by ALINEA. It is compared with the engine, and not timed.
use crate::programs::Besides;
use crate::straight;
use nobyaluk::{Law, Refusal as Why, Weights};
use rules::{check_releases, move_on, nothing, read, refuse, write_outflows};
use rules::{Refusal, Road, Row, State, Study, CELLS, RATE};

/// The straightforward program once more: with two callers, the compiler would inline fewer functions into the one that is timed.
#[path = "straight.rs"]
#[allow(dead_code, clippy::duplicate_mod)]
mod rules;

/// The same fields in another struct.
macro_rules! moved {
    ($from:expr => $to:path { $($field:ident),* }) => {{
        let from = $from;
        $to { $($field: from.$field),* }
    }};
}

fn ended(ended: rules::Ended) -> straight::Ended {
    straight::Ended {
        refusal: ended
            .refusal
            .map(|refusal| moved!(refusal => straight::Refusal { number, step, place })),
        road: moved!(ended.road => straight::Road {
            n, version, seconds, gate_capacity, speed, wave, share, ramp, jam, capacity
        }),
        state: moved!(ended.state => straight::State {
            done, gate_time, road_time, ramp_time, gate_queue, gate_cumulative, held, queue, cumulative
        }),
    }
}

/// How a run ended, with its weighted total and its longest queues: of the gate, of the gate without the step's arrivals, and of
/// each ramp.
pub struct Tallied {
    pub ended: straight::Ended,
    pub weighted: u64,
    pub longest: [u32; 2 + CELLS],
}

impl Tallied {
    fn nothing(refusal: Refusal) -> Tallied {
        Tallied {
            ended: ended(nothing(refusal)),
            weighted: 0,
            longest: [0; 2 + CELLS],
        }
    }
}

/// The refusal of a table of lanes, 17 or 18.
fn table_fault(n: usize, steps: usize, lanes: &[u8]) -> Option<Refusal> {
    if lanes.is_empty() {
        return None;
    }
    if lanes.len() != n * (steps + 1) {
        return Some(refuse(Why::LanesLength, 0, 0));
    }
    let (built, rows) = lanes.split_at(n);
    let wrong = |i: &usize| {
        let mut usable = rows.iter().skip(*i).step_by(n);
        built[*i] == 0 || usable.any(|lanes| lanes & !built[*i] != 0)
    };
    (0..n).find(wrong).map(|i| refuse(Why::Lanes, 0, i + 1))
}

/// What the lanes that are open in a step leave of the capacities.
fn open_capacity(capacity: &[u32; CELLS], lanes: &[u8], n: usize, step: usize) -> [u32; CELLS] {
    let mut left = *capacity;
    if !lanes.is_empty() {
        for i in 0..n {
            let (built, usable) = (lanes[i], lanes[n * (step + 1) + i]);
            let all = u64::from(capacity[i]) * u64::from(usable.count_ones());
            left[i] = (all / u64::from(built.count_ones())) as u32;
        }
    }
    left
}

/// Weighted present of a state.
fn weigh(n: usize, state: &State, weights: &Weights) -> u64 {
    let times = |weight: u8, count: u32| u64::from(weight) * u64::from(count);
    let cell = |i: usize| {
        times(weights.places[i + 1], state.held[i]) + times(weights.ramps[i], state.queue[i])
    };
    times(weights.places[0], state.gate_queue) + (0..n).map(cell).sum::<u64>()
}

/// The longest queues so far, from those before a step and the state after it.
fn raise(longest: &mut [u32; 2 + CELLS], n: usize, state: &State, row: &Row) {
    let waiting = state.gate_queue - row.gate_arrivals();
    let queues = [state.gate_queue, waiting]
        .into_iter()
        .chain(state.queue[..n].iter().copied());
    for (most, queue) in longest.iter_mut().zip(queues) {
        *most = queue.max(*most);
    }
}

/// Runs a record under a table of lanes, with weights, and writes its outflows.
pub fn run(record: &[u8], besides: &Besides, list: &mut [u32]) -> Tallied {
    let Besides { lanes, weights, .. } = besides;
    let Study {
        mut road,
        mut state,
        rows,
    } = match read(record) {
        Ok(study) => study,
        Err(refusal) => return Tallied::nothing(refusal),
    };
    let (n, width, capacity) = (road.n, 4 + 8 * road.n, road.capacity);
    let steps = rows.len() / width;
    if let Some(refusal) = table_fault(n, steps, lanes) {
        return Tallied::nothing(refusal);
    }
    if list.len() < steps * (n + 1) {
        return Tallied::nothing(refuse(Why::ListLength, 0, 0));
    }
    let (mut refusal, mut weighted, mut longest) = (None, 0, [0; 2 + CELLS]);
    for (row, outflows) in rows.chunks_exact(width).zip(list.chunks_exact_mut(n + 1)) {
        let row = Row(row);
        road.capacity = open_capacity(&capacity, lanes, n, state.done);
        if let Err((number, place)) = check_releases(&road, &state, &row) {
            refusal = Some(refuse(number, state.done, place));
            break;
        }
        write_outflows(&road, &state, &row, outflows);
        move_on(&road, &mut state, &row, outflows);
        weighted += weigh(n, &state, weights);
        raise(&mut longest, n, &state, &row);
    }
    road.capacity = capacity;
    Tallied {
        ended: ended(rules::Ended {
            refusal,
            road,
            state,
        }),
        weighted,
        longest,
    }
}

/// The release of a ramp by ALINEA, from its last release; 0 by another law.
fn release(road: &Road, state: &State, row: &Row, i: usize, last: u32, law: Law) -> u32 {
    let Law::Alinea { gain, target } = law else {
        return 0;
    };
    let wish = f64::from(last) + gain * (target - f64::from(state.held[i]));
    let most = state.queue[i] + row.arrivals(i);
    let cap = most.min(road.supply(i, state.held[i])).min(RATE);
    (wish as u32).min(cap) // its whole part, and 0 if it is negative
}

/// Fills a record's releases by ALINEA, and runs it. Of the refusals of running, 9 and 10 do not apply to the releases it had.
pub fn fill(record: &mut [u8], besides: &Besides, list: &mut [u32]) -> Tallied {
    let Besides { lanes, laws, .. } = besides;
    let given = record.to_vec();
    let before = run(&given, besides, &mut vec![0; list.len()]);
    let refusal = before.ended.refusal;
    if refusal.is_some_and(|refusal| !matches!(refusal.number, 9 | 10)) {
        return before;
    }
    let Ok(Study {
        mut road,
        mut state,
        rows,
    }) = read(&given)
    else {
        return before;
    };
    let (n, capacity) = (road.n, road.capacity);
    let (mut last, mut outflows) = ([0; CELLS], [0; CELLS + 1]);
    let first = given.len() - rows.len();
    for row in record[first..].chunks_exact_mut(4 + 8 * n) {
        road.capacity = open_capacity(&capacity, lanes, n, state.done);
        for i in (0..n).filter(|&i| road.ramp[i]) {
            last[i] = release(&road, &state, &Row(row), i, last[i], laws[i]);
            row[8 + 8 * i..12 + 8 * i].copy_from_slice(&last[i].to_be_bytes());
        }
        write_outflows(&road, &state, &Row(row), &mut outflows[..=n]);
        move_on(&road, &mut state, &Row(row), &outflows[..=n]);
    }
    run(record, besides, list)
}

#[cfg(test)]
mod tests {
    use super::*;

    const PRINTED: &[u8] = include_bytes!("../../examples/printed-run.rec");

    fn besides(lanes: &[u8]) -> Besides {
        Besides {
            lanes: lanes.to_vec(),
            weights: Weights::EVEN,
            laws: vec![
                Law::Alinea {
                    gain: 0.5,
                    target: 4_400.0
                };
                2
            ],
        }
    }

    #[test]
    fn the_printed_run_weighed_and_with_its_longest_queues() {
        let tallied = run(PRINTED, &besides(&[]), &mut [0; 9]);
        assert_eq!(tallied.weighted, 33_098);
        assert_eq!(tallied.longest[..4], [2_500, 1_500, 0, 2_100]);
    }

    #[test]
    fn a_lane_closed() {
        let lanes = [0b11, 0b11, 0b11, 0b11, 0b11, 0b01, 0b11, 0b11];
        let mut list = [0; 9];
        let tallied = run(PRINTED, &besides(&lanes), &mut list);
        assert_eq!(tallied.ended.refusal, None);
        assert_eq!(list[5], 500); // of a capacity of 1,000
        let refused = |lanes: &[u8]| {
            let refusal = run(PRINTED, &besides(lanes), &mut [0; 9]).ended.refusal;
            refusal.map(|refusal| (refusal.number, refusal.place))
        };
        assert_eq!(refused(&lanes[1..]), Some((17, 0)));
        assert_eq!(refused(&[3, 3, 3, 3, 3, 4, 3, 3]), Some((18, 2)));
        assert_eq!(refused(&[0, 3, 0, 3, 0, 3, 0, 3]), Some((18, 1)));
    }

    #[test]
    fn a_release_by_alinea() {
        let mut record = PRINTED.to_vec();
        let tallied = fill(&mut record, &besides(&[]), &mut [0; 9]);
        assert_eq!(tallied.ended.refusal, None);
        // 0 + 0.5 x (4,400 - 4,000), in the first row
        assert_eq!(record[80..84], 200u32.to_be_bytes());
    }
}
