//! The road, its state and the flow rules.
//!
//! Cells are numbered 1 to n from upstream and kept at entry `cell - 1`.
//! Place 0 is the gate. All counts are parts (thousandths of a vehicle).

/// What doesn't change during a run. Entries past cell n mean nothing.
#[derive(Clone, Copy, Debug, PartialEq, Eq)]
pub struct Road {
    /// Number of cells.
    pub n: usize,
    /// The record's version, 1 or 2.
    pub version: u8,
    /// A step's seconds, from version 2 on.
    pub seconds: u16,
    /// Parts a step.
    pub gate_capacity: u32,
    /// Speed, in thousandths.
    pub v: [u16; Road::MAX_CELLS],
    /// Wave, in thousandths.
    pub w: [u16; Road::MAX_CELLS],
    /// Onward share, in thousandths.
    pub b: [u16; Road::MAX_CELLS],
    /// 1 with a ramp, 0 without.
    pub ramp: [u16; Road::MAX_CELLS],
    /// Jam count J.
    pub jam: [u32; Road::MAX_CELLS],
    /// Capacity C.
    pub capacity: [u32; Road::MAX_CELLS],
}

impl Road {
    /// Most cells of a road.
    pub const MAX_CELLS: usize = 64;
    /// Most steps of a record.
    pub const MAX_STEPS: usize = 1_440;
    /// Most bytes of a record.
    pub const MAX_BYTES: usize = 65_536;
    /// Most numbers of a row.
    pub const MAX_ROW: usize = 1 + 2 * Road::MAX_CELLS;
    /// Bound of every rate and of a jam count.
    pub const MAX_RATE: u32 = 1_000_000;
    /// Most that waits at the start, in parts.
    pub const MAX_START_QUEUE: u32 = 1_000_000_000;
    /// Bound of speed, wave and share, and the gate's share.
    pub const WHOLE: u16 = 1_000;
    /// Bound of a step's seconds.
    pub const MAX_SECONDS: u16 = 900;

    /// The all-zero road.
    pub const fn empty() -> Road {
        Road {
            n: 0,
            version: 0,
            seconds: 0,
            gate_capacity: 0,
            v: [0; Road::MAX_CELLS],
            w: [0; Road::MAX_CELLS],
            b: [0; Road::MAX_CELLS],
            ramp: [0; Road::MAX_CELLS],
            jam: [0; Road::MAX_CELLS],
            capacity: [0; Road::MAX_CELLS],
        }
    }

    /// Onward share of a place.
    pub fn share(&self, place: usize) -> u64 {
        match place {
            0 => u64::from(Road::WHOLE),
            cell => u64::from(self.b[cell - 1]),
        }
    }
}

/// The start of a record: the counts before step 0.
#[derive(Clone, Copy, Debug, PartialEq, Eq)]
pub struct Start {
    /// In parts.
    pub gate_queue: u32,
    /// What each cell holds, in parts.
    pub held: [u32; Road::MAX_CELLS],
    /// Ramp queues.
    pub queue: [u32; Road::MAX_CELLS],
}

/// What changes from step to step.
#[derive(Clone, Copy, Debug, PartialEq, Eq)]
pub struct State {
    /// Steps done.
    pub steps: usize,
    /// Sums over the steps done, in part-steps: of the gate queue, of the held
    /// counts and of the ramp queues after each step.
    pub gate_time: u64,
    /// On the road, in part-steps.
    pub road_time: u64,
    /// At the on-ramps, in part-steps.
    pub ramp_time: u64,
    /// In parts.
    pub gate_queue: u32,
    /// The gate's cumulative outflow.
    pub gate_f: u32,
    /// What each cell holds, in parts.
    pub held: [u32; Road::MAX_CELLS],
    /// Ramp queues.
    pub queue: [u32; Road::MAX_CELLS],
    /// Cumulative outflow of each cell.
    pub f: [u32; Road::MAX_CELLS],
}

impl State {
    /// The all-zero state.
    pub const fn empty() -> State {
        State {
            steps: 0,
            gate_time: 0,
            road_time: 0,
            ramp_time: 0,
            gate_queue: 0,
            gate_f: 0,
            held: [0; Road::MAX_CELLS],
            queue: [0; Road::MAX_CELLS],
            f: [0; Road::MAX_CELLS],
        }
    }

    /// The state before step 0 of a start.
    pub fn before(start: &Start) -> State {
        State {
            gate_queue: start.gate_queue,
            held: start.held,
            queue: start.queue,
            ..State::empty()
        }
    }

    /// Its held counts and queues, as a start.
    pub fn start(&self) -> Start {
        Start {
            gate_queue: self.gate_queue,
            held: self.held,
            queue: self.queue,
        }
    }

    /// Total time spent: the three times together, for any state.
    pub fn total(&self) -> u128 {
        [self.gate_time, self.road_time, self.ramp_time]
            .map(u128::from)
            .iter()
            .sum()
    }

    /// Cumulative outflow F of a place.
    pub fn cumulative(&self, place: usize) -> u64 {
        match place {
            0 => u64::from(self.gate_f),
            cell => u64::from(self.f[cell - 1]),
        }
    }
}

/// Demand of a cell: min(C, v * held / 1000 rounded down).
pub fn cell_demand(v: u16, capacity: u32, held: u32) -> u64 {
    u64::from(capacity).min(u64::from(v) * u64::from(held) / 1_000)
}

/// Demand of the gate: min(capacity, queue).
pub fn gate_demand(capacity: u32, queue: u32) -> u64 {
    u64::from(capacity.min(queue))
}

/// Supply of a cell: min(C, w * (J - held) / 1000 rounded down); 0 for held
/// above J.
pub fn cell_supply(w: u16, capacity: u32, jam: u32, held: u32) -> u64 {
    u64::from(capacity).min(u64::from(w) * u64::from(jam.saturating_sub(held)) / 1_000)
}

/// Room of a cell: supply less release; 0 for a release above the supply.
pub fn room(supply: u64, release: u64) -> u64 {
    supply.saturating_sub(release)
}

/// Onward total of a place: share * F / 1000 rounded down.
pub fn onward_total(share: u64, f: u64) -> u64 {
    share * f / 1_000
}

/// What enters the next cell: the growth of the onward total.
pub fn entering(share: u64, f: u64, outflow: u64) -> u64 {
    onward_total(share, f + outflow) - onward_total(share, f)
}

/// The greatest outflow q <= demand with entering(share, f, q) <= room, found by
/// search.
///
/// An outflow of 0 lets nothing in, so it always fits; what enters never falls
/// as the outflow grows. The search narrows down between one that fits and one
/// that is too much.
pub fn greatest_outflow(share: u64, f: u64, demand: u64, room: u64) -> u64 {
    let (mut fits, mut too_much) = (0, demand + 1);
    while too_much - fits > 1 {
        let tried = fits + (too_much - fits) / 2;
        if entering(share, f, tried) <= room {
            fits = tried;
        } else {
            too_much = tried;
        }
    }
    fits
}

/// Demand of a place in this state.
pub fn demand(road: &Road, state: &State, place: usize) -> u64 {
    match place {
        0 => gate_demand(road.gate_capacity, state.gate_queue),
        cell => cell_demand(
            road.v[cell - 1],
            road.capacity[cell - 1],
            state.held[cell - 1],
        ),
    }
}

/// Supply of a cell in this state.
pub fn supply(road: &Road, state: &State, cell: usize) -> u64 {
    let i = cell - 1;
    cell_supply(road.w[i], road.capacity[i], road.jam[i], state.held[i])
}

/// Gate queue, held counts and ramp queues together.
pub fn present(road: &Road, state: &State) -> u64 {
    u64::from(state.gate_queue) + all_held(road, state) + all_queues(road, state)
}

/// All held counts.
///
/// The document adds them by halves; whole numbers add up the same in any order.
pub fn all_held(road: &Road, state: &State) -> u64 {
    state.held[..road.n].iter().copied().map(u64::from).sum()
}

/// All ramp queues.
pub fn all_queues(road: &Road, state: &State) -> u64 {
    state.queue[..road.n].iter().copied().map(u64::from).sum()
}

/// What has left by off-ramps: over the cells, F less the onward total.
pub fn exits(road: &Road, state: &State) -> u64 {
    (1..=road.n)
        .map(|cell| {
            let f = state.cumulative(cell);
            f - onward_total(road.share(cell), f)
        })
        .sum()
}

/// Arrivals at a place, from a row in the record's order.
pub fn arrivals(row: &[u32], place: usize) -> u64 {
    match place {
        0 => u64::from(row[0]),
        cell => u64::from(row[2 * cell - 1]),
    }
}

/// What a cell's ramp may release at most: its queue and this step's arrivals.
pub fn waiting(state: &State, row: &[u32], cell: usize) -> u64 {
    u64::from(state.queue[cell - 1]) + arrivals(row, cell)
}

/// Release into a cell, from a row in the record's order.
pub fn release(row: &[u32], cell: usize) -> u64 {
    u64::from(row[2 * cell])
}
