//! The model as a Rust engineer writes it first: the rules in the order of the paper, arrays in two structs, no engine.
use nobyaluk::Refusal as Why;

pub const CELLS: usize = 64;
const STEPS: usize = 1_440;
const BYTES: usize = 65_536;
pub const RATE: u32 = 1_000_000;
const QUEUE: u32 = 1_000_000_000;
pub const WHOLE: u32 = 1_000;

#[derive(Debug, PartialEq, Eq)]
pub struct Road {
    pub n: usize,
    pub version: u8,
    pub seconds: u16,
    pub gate_capacity: u32,
    pub speed: [u32; CELLS],
    pub wave: [u32; CELLS],
    pub share: [u32; CELLS],
    pub ramp: [bool; CELLS],
    pub jam: [u32; CELLS],
    pub capacity: [u32; CELLS],
}

#[derive(Debug, PartialEq, Eq)]
pub struct State {
    pub done: usize,
    pub gate_time: u64,
    pub road_time: u64,
    pub ramp_time: u64,
    pub gate_queue: u32,
    pub gate_cumulative: u32,
    pub held: [u32; CELLS],
    pub queue: [u32; CELLS],
    pub cumulative: [u32; CELLS],
}

#[derive(Clone, Copy, Debug, PartialEq, Eq)]
pub struct Refusal {
    pub number: u8,
    pub step: usize,
    pub place: usize,
}

/// How a run ended; after refusals 9 and 10 road and state are those before the refused step, after the others all zero.
pub struct Ended {
    pub refusal: Option<Refusal>,
    pub road: Road,
    pub state: State,
}

/// What reading gives: the rows stay in the record.
pub struct Study<'a> {
    pub road: Road,
    pub state: State,
    pub rows: &'a [u8],
}

/// One step's numbers, in the record's bytes.
pub struct Row<'a>(pub &'a [u8]);

fn u16_at(bytes: &[u8], at: usize) -> u16 {
    u16::from_be_bytes([bytes[at], bytes[at + 1]])
}

fn u32_at(bytes: &[u8], at: usize) -> u32 {
    let four: [u8; 4] = bytes[at..at + 4].try_into().expect("four bytes");
    u32::from_be_bytes(four)
}

pub fn refuse(why: Why, step: usize, place: usize) -> Refusal {
    Refusal {
        number: why.number() as u8,
        step,
        place,
    }
}

/// share x count / 1,000, rounded down.
pub fn part(share: u32, count: u32) -> u32 {
    (u64::from(share) * u64::from(count) / u64::from(WHOLE)) as u32
}

/// The greatest outflow up to the demand that lets no more than `room` into the next cell.
pub fn outflow(share: u32, cumulative: u32, demand: u32, room: u32) -> u32 {
    if share == 0 {
        return demand;
    }
    let onward = u64::from(part(share, cumulative));
    let most = (u64::from(WHOLE) * (onward + u64::from(room) + 1) - 1) / u64::from(share);
    u64::from(demand).min(most - u64::from(cumulative)) as u32
}

fn sum(counts: &[u32]) -> u64 {
    counts.iter().map(|&count| u64::from(count)).sum()
}

impl Road {
    fn empty() -> Road {
        Road {
            n: 0,
            version: 0,
            seconds: 0,
            gate_capacity: 0,
            speed: [0; CELLS],
            wave: [0; CELLS],
            share: [0; CELLS],
            ramp: [false; CELLS],
            jam: [0; CELLS],
            capacity: [0; CELLS],
        }
    }

    pub fn demand(&self, i: usize, held: u32) -> u32 {
        part(self.speed[i], held).min(self.capacity[i])
    }

    pub fn supply(&self, i: usize, held: u32) -> u32 {
        part(self.wave[i], self.jam[i] - held).min(self.capacity[i])
    }
}

impl State {
    fn empty() -> State {
        State {
            done: 0,
            gate_time: 0,
            road_time: 0,
            ramp_time: 0,
            gate_queue: 0,
            gate_cumulative: 0,
            held: [0; CELLS],
            queue: [0; CELLS],
            cumulative: [0; CELLS],
        }
    }

    pub fn total(&self) -> u64 {
        self.gate_time + self.road_time + self.ramp_time
    }

    pub fn present(&self, n: usize) -> u64 {
        u64::from(self.gate_queue) + sum(&self.held[..n]) + sum(&self.queue[..n])
    }

    pub fn exits(&self, road: &Road) -> u64 {
        (0..road.n)
            .map(|i| u64::from(self.cumulative[i] - part(road.share[i], self.cumulative[i])))
            .sum()
    }
}

impl Row<'_> {
    pub fn gate_arrivals(&self) -> u32 {
        u32_at(self.0, 0)
    }

    pub fn arrivals(&self, i: usize) -> u32 {
        u32_at(self.0, 4 + 8 * i)
    }

    pub fn release(&self, i: usize) -> u32 {
        u32_at(self.0, 8 + 8 * i)
    }

    fn fits(&self, road: &Road) -> bool {
        self.gate_arrivals() <= RATE
            && (0..road.n).all(|i| {
                let most = if road.ramp[i] { RATE } else { 0 };
                self.arrivals(i) <= most && self.release(i) <= most
            })
    }
}

/// Reads one cell, or reports that it is out of its limits.
fn read_cell(bytes: &[u8], i: usize, road: &mut Road, state: &mut State) -> bool {
    let (speed, wave, share) = (u16_at(bytes, 0), u16_at(bytes, 2), u16_at(bytes, 4));
    road.speed[i] = u32::from(speed);
    road.wave[i] = u32::from(wave);
    road.share[i] = u32::from(share);
    let mark = u16_at(bytes, 6);
    road.ramp[i] = mark == 1;
    road.jam[i] = u32_at(bytes, 8);
    road.capacity[i] = u32_at(bytes, 12);
    state.held[i] = u32_at(bytes, 16);
    state.queue[i] = u32_at(bytes, 20);
    let most_queue = if mark == 1 { QUEUE } else { 0 };
    let most_share = if i + 1 == road.n { 0 } else { WHOLE };
    road.speed[i] <= WHOLE
        && road.wave[i] <= WHOLE
        && road.share[i] <= most_share
        && mark <= 1
        && road.jam[i] <= RATE
        && road.capacity[i] <= RATE
        && state.held[i] <= road.jam[i]
        && state.queue[i] <= most_queue
}

pub fn read(record: &[u8]) -> Result<Study<'_>, Refusal> {
    let size = record.len();
    if !(16..=BYTES).contains(&size)
        || u32_at(record, 0) as usize != size - 4
        || (record[4] == 2 && size < 18)
    {
        return Err(refuse(Why::Length, 0, 0));
    }
    let version = record[4];
    let head = match version {
        1 => 16,
        2 => 18,
        _ => return Err(refuse(Why::Version, 0, 0)),
    };
    let n = usize::from(record[5]);
    let steps = usize::from(u16_at(record, 6));
    if !(1..=CELLS).contains(&n) || !(1..=STEPS).contains(&steps) {
        return Err(refuse(Why::Counts, 0, 0));
    }
    let seconds = if version == 2 { u16_at(record, 8) } else { 0 };
    if version == 2 && !(1..=900).contains(&seconds) {
        return Err(refuse(Why::Seconds, 0, 0));
    }
    let width = 4 + 8 * n;
    if size != head + 24 * n + steps * width {
        return Err(refuse(Why::Size, 0, 0));
    }

    let mut road = Road::empty();
    let mut state = State::empty();
    road.n = n;
    road.version = version;
    road.seconds = seconds;
    road.gate_capacity = u32_at(record, head - 8);
    state.gate_queue = u32_at(record, head - 4);
    if road.gate_capacity > RATE || state.gate_queue > QUEUE {
        return Err(refuse(Why::Limits, 0, 0));
    }
    let (cells, rows) = record[head..].split_at(24 * n);
    for (i, cell) in cells.chunks_exact(24).enumerate() {
        if !read_cell(cell, i, &mut road, &mut state) {
            return Err(refuse(Why::Limits, 0, i + 1));
        }
    }
    for (step, row) in rows.chunks_exact(width).enumerate() {
        if !Row(row).fits(&road) {
            return Err(refuse(Why::Rates, 0, step));
        }
    }
    Ok(Study { road, state, rows })
}

/// Whether every release fits; otherwise the refusal and its place.
pub fn check_releases(road: &Road, state: &State, row: &Row) -> Result<(), (Why, usize)> {
    for i in 0..road.n {
        let release = row.release(i);
        if release > state.queue[i] + row.arrivals(i) {
            return Err((Why::ReleaseAboveQueue, i + 1));
        }
        if release > road.supply(i, state.held[i]) {
            return Err((Why::ReleaseAboveSupply, i + 1));
        }
    }
    Ok(())
}

/// Every place's outflow, gate first.
pub fn write_outflows(road: &Road, state: &State, row: &Row, outflows: &mut [u32]) {
    let room = |i: usize| road.supply(i, state.held[i]) - row.release(i);
    let gate_demand = road.gate_capacity.min(state.gate_queue);
    outflows[0] = outflow(WHOLE, state.gate_cumulative, gate_demand, room(0));
    let last = road.n - 1;
    for i in 0..last {
        let demand = road.demand(i, state.held[i]);
        outflows[i + 1] = outflow(road.share[i], state.cumulative[i], demand, room(i + 1));
    }
    outflows[last + 1] = road.demand(last, state.held[last]);
}

/// Moves every place by its outflow, and adds to the three times.
pub fn move_on(road: &Road, state: &mut State, row: &Row, outflows: &[u32]) {
    let n = road.n;
    state.gate_queue = state.gate_queue + row.gate_arrivals() - outflows[0];
    state.gate_cumulative += outflows[0];
    let mut entering = outflows[0];
    for i in 0..n {
        let (out, release) = (outflows[i + 1], row.release(i));
        let onward = part(road.share[i], state.cumulative[i]);
        state.cumulative[i] += out;
        state.held[i] = state.held[i] + entering + release - out;
        state.queue[i] = state.queue[i] + row.arrivals(i) - release;
        entering = part(road.share[i], state.cumulative[i]) - onward;
    }
    state.done += 1;
    state.gate_time += u64::from(state.gate_queue);
    state.road_time += sum(&state.held[..n]);
    state.ramp_time += sum(&state.queue[..n]);
}

/// Runs a record and writes its outflows, one row of n + 1 numbers per step.
pub fn run(record: &[u8], list: &mut [u32]) -> Ended {
    let Study {
        road,
        mut state,
        rows,
    } = match read(record) {
        Ok(study) => study,
        Err(refusal) => return nothing(refusal),
    };
    let steps = rows.len() / (4 + 8 * road.n);
    if list.len() < steps * (road.n + 1) {
        return nothing(refuse(Why::ListLength, 0, 0));
    }
    let outflow_rows = list.chunks_exact_mut(road.n + 1);
    for (row, outflows) in rows.chunks_exact(4 + 8 * road.n).zip(outflow_rows) {
        let row = Row(row);
        if let Err((why, place)) = check_releases(&road, &state, &row) {
            let refusal = Some(refuse(why, state.done, place));
            return Ended {
                refusal,
                road,
                state,
            };
        }
        write_outflows(&road, &state, &row, outflows);
        move_on(&road, &mut state, &row, outflows);
    }
    Ended {
        refusal: None,
        road,
        state,
    }
}

pub fn nothing(refusal: Refusal) -> Ended {
    Ended {
        refusal: Some(refusal),
        road: Road::empty(),
        state: State::empty(),
    }
}

#[cfg(test)]
mod tests {
    use super::*;

    /// The input of the printed run: two cells, three steps.
    fn printed() -> Vec<u8> {
        let mut record = vec![0, 0, 0, 120, 1, 2, 0, 3];
        for number in [2_000u32, 3_000] {
            record.extend(number.to_be_bytes());
        }
        let cells = [
            ([500u16, 250, 750, 0], [8_000u32, 2_000, 2_000, 0]),
            ([500, 250, 0, 1], [8_000, 1_000, 4_000, 1_500]),
        ];
        for (rates, counts) in cells {
            record.extend(rates.iter().flat_map(|rate| rate.to_be_bytes()));
            record.extend(counts.iter().flat_map(|count| count.to_be_bytes()));
        }
        for _ in 0..3 {
            let row = [1_000u32, 0, 0, 500, 300];
            record.extend(row.iter().flat_map(|number| number.to_be_bytes()));
        }
        record
    }

    #[test]
    fn the_printed_run() {
        let mut list = [7; 10];
        let ended = run(&printed(), &mut list);
        assert_eq!(ended.refusal, None);
        assert_eq!(list, [1500, 934, 1000, 1358, 933, 1000, 1252, 934, 1000, 7]);
        let state = &ended.state;
        let times = [state.gate_time, state.road_time, state.ramp_time];
        assert_eq!(times, [6_532, 20_866, 5_700]);
        assert_eq!(state.total(), 33_098);
        assert_eq!(state.exits(&ended.road), 3_701);
        assert_eq!(state.present(2), 1_890 + 3_309 + 4_000 + 2_100);
    }

    #[test]
    fn a_car_that_arrives_may_pass_in_the_same_step() {
        let refusal = |queue: u32, release: u32| {
            let mut record = printed();
            record[60..64].copy_from_slice(&queue.to_be_bytes());
            record[80..84].copy_from_slice(&release.to_be_bytes());
            run(&record, &mut [0; 9]).refusal
        };
        assert_eq!(refusal(0, 500), None);
        assert_eq!(refusal(0, 501), Some(refuse(Why::ReleaseAboveQueue, 0, 2)));
        assert_eq!(refusal(9_000, 1_000), None);
        assert_eq!(
            refusal(9_000, 1_001),
            Some(refuse(Why::ReleaseAboveSupply, 0, 2))
        );
    }

    #[test]
    fn a_list_that_is_too_short() {
        let mut list = [7; 8];
        assert_eq!(
            run(&printed(), &mut list).refusal,
            Some(refuse(Why::ListLength, 0, 0))
        );
        assert_eq!(list, [7; 8]);
    }

    #[test]
    fn the_outflow_by_one_division() {
        assert_eq!(outflow(750, 934, 934, 700), 933);
        assert_eq!(outflow(750, 934, 934, 701), 934);
        assert_eq!(outflow(750, 0, 5_000, 0), 1);
        assert_eq!(outflow(0, 0, 5_000, 0), 5_000);
    }
}
