//! Structs of the boundary, as bindings/c/nobyaluk.h has them, and its limits.

/// The version of the structs and arguments below; [`version`](crate::version) gives the linked library's.
pub const VERSION: u32 = 2;
/// The most cells of a road.
pub const CELLS: usize = 64;
/// The most steps of a record.
pub const STEPS: usize = 1_440;
/// The most bytes of a record.
pub const BYTES: usize = 65_536;
/// The most ramps that share a street.
pub const RAMPS: usize = 8;
/// The most numbers that a table of T rows of n + 1 outflows can have.
pub const MOST_OUTFLOWS: usize = 8_799;

/// What does not change during a run. Cell i is at index i - 1 of each array; entries from n on belong to no cell.
#[repr(C)]
#[derive(Clone, Copy, Debug, PartialEq, Eq)]
pub struct Road {
    /// The count of cells.
    pub n: usize,
    /// Of the record: 1 or 2.
    pub version: u8,
    /// A step's seconds, 0 in version 1.
    pub seconds: u16,
    /// Parts a step.
    pub gate_capacity: u32,
    /// Free speed, in thousandths of a cell a step.
    pub speed: [u16; CELLS],
    /// Speed of the congestion wave, in thousandths of a cell a step.
    pub wave: [u16; CELLS],
    /// The share of the outflow that enters the next cell, in thousandths.
    pub share: [u16; CELLS],
    /// 1 if the cell has an on-ramp, 0 otherwise.
    pub ramp: [u16; CELLS],
    /// The most that a cell can hold, in parts.
    pub jam: [u32; CELLS],
    /// Parts a step.
    pub capacity: [u32; CELLS],
}

/// What changes from step to step.
#[repr(C)]
#[derive(Clone, Copy, Debug, PartialEq, Eq)]
pub struct State {
    /// Steps made since the start.
    pub done: usize,
    /// Time spent at the gate, in part-steps.
    pub gate_time: u64,
    /// Time spent on the road, in part-steps.
    pub road_time: u64,
    /// Time spent at the on-ramps, in part-steps.
    pub ramp_time: u64,
    /// What waits at the gate, in parts.
    pub gate_queue: u32,
    /// What has left the gate since step 0, in parts.
    pub gate_cumulative: u32,
    /// What each cell holds, in parts.
    pub held: [u32; CELLS],
    /// What waits at each cell's on-ramp, in parts.
    pub queue: [u32; CELLS],
    /// What has left each cell since step 0, in parts.
    pub cumulative: [u32; CELLS],
}

/// The start of a study.
#[repr(C)]
#[derive(Clone, Copy, Debug, PartialEq, Eq)]
pub struct Start {
    /// What waits at the gate, in parts.
    pub gate_queue: u32,
    /// What each cell holds, in parts.
    pub held: [u32; CELLS],
    /// What waits at each cell's on-ramp, in parts.
    pub queue: [u32; CELLS],
}

/// The lanes of one step, each set bit a lane.
#[repr(C)]
#[derive(Clone, Copy, Debug, PartialEq, Eq)]
pub struct Lanes {
    /// Lanes built in each cell.
    pub built: [u8; CELLS],
    /// Lanes open in each cell.
    pub usable: [u8; CELLS],
}

/// Weights of waiting, 0 to 255: of the gate and each cell, gate first, and of each ramp's queue. Weights past cell n are not read.
#[repr(C)]
#[derive(Clone, Copy, Debug, PartialEq, Eq)]
pub struct Weights {
    /// Of the gate and each cell.
    pub places: [u8; CELLS + 1],
    /// Of each cell's ramp queue.
    pub ramps: [u8; CELLS],
}

/// The answer of reading; its number is 0 without a refusal.
#[repr(C)]
#[derive(Clone, Copy, Debug, PartialEq, Eq)]
pub struct Reading {
    /// The refusal's number, 0 without one.
    pub number: u64,
    /// The lowest place, or the first step, that is out of its limits; 0 otherwise.
    pub place: u64,
    /// T, the count of steps.
    pub steps: u64,
    /// The road.
    pub road: Road,
    /// The state before step 0.
    pub state: State,
}

/// The answer of running, filling, judging and history; its number is 0 without a refusal.
#[repr(C)]
#[derive(Clone, Copy, Debug, PartialEq, Eq)]
pub struct Ended {
    /// The refusal's number, 0 without one.
    pub number: u64,
    /// The refused step, counted from 0.
    pub step: u64,
    /// The refused place: the gate (0) or a cell.
    pub place: u64,
    /// The total time spent, in part-steps: gate, road and ramp time together.
    pub total: u64,
    /// What is in the system, in parts.
    pub present: u64,
    /// What has left the system, in parts.
    pub exits: u64,
    /// The road.
    pub road: Road,
    /// After the last step, or before the refused one.
    pub state: State,
}

/// The answer of a weighted run: running's answer, and the weighted sum of present over the steps done.
#[repr(C)]
#[derive(Clone, Copy, Debug, PartialEq, Eq)]
pub struct Weighed {
    /// The weighted total, in part-steps.
    pub weighted: u64,
    /// The run's answer.
    pub ended: Ended,
}

/// The answer of running and filling with the longest queues after any step done: of the gate; of the gate without the step's
/// arrivals, the most that were there before a step and did not leave in it; and of each cell's on-ramp, 0 past cell n. All are 0
/// if no step was done, and the queues of the start do not count.
#[repr(C)]
#[derive(Clone, Copy, Debug, PartialEq, Eq)]
pub struct Longest {
    /// The longest queue at the gate, in parts.
    pub gate: u32,
    /// The same without the step's arrivals.
    pub waiting: u32,
    /// The longest queue of each cell's on-ramp, in parts.
    pub ramps: [u32; 64],
    /// The run's answer.
    pub ended: Ended,
}

/// The answer of running that goes on from a state. The weighted total and the longest queues are those of the record's own steps.
#[repr(C)]
#[derive(Clone, Copy, Debug, PartialEq, Eq)]
pub struct Tallied {
    /// The weighted total, in part-steps.
    pub weighted: u64,
    /// The longest queues, in parts, with the run's answer.
    pub longest: Longest,
}

/// The progress from which filling goes on: a state and the step before it. [`Progress::start`] is for a study's start, [`Filled::progress`] for a
/// further record.
#[repr(C)]
#[derive(Clone, Copy, Debug, PartialEq, Eq)]
pub struct Progress {
    /// Before the record's first step.
    pub state: State,
    /// What each cell's on-ramp released in the step before, in parts; 0 before step 0.
    pub releases: [u32; CELLS],
    /// What entered each cell from upstream in the step before, in parts; 0 before step 0. At most what the cell holds.
    pub entries: [u32; CELLS],
}

/// The answer of filling that goes on: the longest queues of the record's own steps, the answer, and the last step's releases and entries, which are
/// 0 after a refusal.
#[repr(C)]
#[derive(Clone, Copy, Debug, PartialEq, Eq)]
pub struct Filled {
    /// The longest queues, in parts, with filling's answer.
    pub longest: Longest,
    /// What each cell's on-ramp released in the last step, in parts.
    pub releases: [u32; CELLS],
    /// What entered each cell from upstream in the last step, in parts.
    pub entries: [u32; CELLS],
}

impl Progress {
    /// The progress of a start: there was no step before.
    pub const fn start(state: State) -> Self {
        Self {
            state,
            releases: [0; CELLS],
            entries: [0; CELLS],
        }
    }
}

impl Filled {
    /// The progress from which a further record goes on.
    pub const fn progress(&self) -> Progress {
        Progress {
            state: self.longest.ended.state,
            releases: self.releases,
            entries: self.entries,
        }
    }
}

/// One study of many: running's or filling's answer without road and state, and the longest queues as in [`Longest`].
#[repr(C)]
#[derive(Clone, Copy, Debug, PartialEq, Eq)]
pub struct Study {
    /// The refusal's number, 0 without one.
    pub number: u64,
    /// The refused step, counted from 0.
    pub step: u64,
    /// The refused place: the gate (0) or a cell.
    pub place: u64,
    /// Time spent at the gate, in part-steps.
    pub gate_time: u64,
    /// Time spent on the road, in part-steps.
    pub road_time: u64,
    /// Time spent at the ramps, in part-steps.
    pub ramp_time: u64,
    /// Total time spent: gate, road and ramp time together.
    pub total: u64,
    /// What has left the system, in parts.
    pub exits: u64,
    /// What is in the system, in parts.
    pub present: u64,
    /// The longest gate queue, in parts.
    pub gate: u64,
    /// The longest gate queue without the step's arrivals, in parts.
    pub waiting: u64,
    /// The longest queue of each cell's on-ramp, in parts; 0 past cell n.
    pub ramps: [u64; CELLS],
}

impl Study {
    /// How many numbers it has.
    pub const NUMBERS: usize = size_of::<Self>() / size_of::<u64>();
    /// All 0, for a list of studies to lend.
    pub const EMPTY: Self = Self {
        number: 0,
        step: 0,
        place: 0,
        gate_time: 0,
        road_time: 0,
        ramp_time: 0,
        total: 0,
        exits: 0,
        present: 0,
        gate: 0,
        waiting: 0,
        ramps: [0; CELLS],
    };

    /// The numbers of a list of studies, as the boundary takes them.
    pub(crate) fn numbers_of(studies: &mut [Self]) -> &mut [u64] {
        let count = studies.len() * Self::NUMBERS;
        // SAFETY: a study is `NUMBERS` numbers of 64 bits, laid out as in C without padding, so the list is `count` of them; it is borrowed alone.
        unsafe { std::slice::from_raw_parts_mut(studies.as_mut_ptr().cast(), count) }
    }
}

/// The answer of the whole call with many studies; each study's own refusal is in its [`Study`].
#[repr(C)]
#[derive(Clone, Copy, Debug, PartialEq, Eq)]
pub struct Many {
    /// The refusal's number, 0 without one.
    pub number: u64,
    /// The list that does not fit: 1 for the arrivals, 2 for the studies; a refusal of reading has its own place.
    pub place: u64,
}

/// The answer of stepping; after a refusal the state is the one given.
#[repr(C)]
#[derive(Clone, Copy, Debug, PartialEq, Eq)]
pub struct Stepped {
    /// The refusal's number, 0 without one.
    pub number: u64,
    /// The refused cell.
    pub place: u64,
    /// After the step.
    pub state: State,
}

/// The answer of writing and joining; after a refusal the count of bytes is 0.
#[repr(C)]
#[derive(Clone, Copy, Debug, PartialEq, Eq)]
pub struct Written {
    /// The refusal's number, 0 without one.
    pub number: u64,
    /// The lowest place, or the first step, that is out of its limits; 0 otherwise.
    pub place: u64,
    /// Bytes written.
    pub count: u64,
}

/// The answer of loading: the last number, or the seed after a refusal or for an empty list.
#[repr(C)]
#[derive(Clone, Copy, Debug, PartialEq, Eq)]
pub struct Loaded {
    /// The refusal's number, 0 without one.
    pub number: u64,
    /// The last number of the generator.
    pub last: u64,
}

/// The answer of the search for releases.
#[repr(C)]
#[derive(Clone, Copy, Debug, PartialEq, Eq)]
pub struct Wanted {
    /// The refusal's number, 0 without one.
    pub number: u64,
    /// 1 if a table keeps the queue, 0 otherwise.
    pub found: u64,
}

/// The answer of putting a release.
#[repr(C)]
#[derive(Clone, Copy, Debug, PartialEq, Eq)]
pub struct Released {
    /// The refusal's number, 0 without one.
    pub number: u64,
    /// The refused cell or step.
    pub place: u64,
}

/// The numbers of a row: gate arrivals, then each cell's ramp arrivals and release; 0 past them.
#[repr(C)]
#[derive(Clone, Copy, Debug, PartialEq, Eq)]
pub struct Row {
    /// In parts a step.
    pub numbers: [u32; 1 + 2 * CELLS],
}

/// The answer of granting.
#[repr(transparent)]
#[derive(Clone, Copy, Debug, PartialEq, Eq)]
pub struct Granted {
    /// The refusal's number, 0 without one.
    pub number: u64,
}

impl Road {
    /// No cell, and 0 in every field.
    pub const EMPTY: Road = Road {
        n: 0,
        version: 0,
        seconds: 0,
        gate_capacity: 0,
        speed: [0; CELLS],
        wave: [0; CELLS],
        share: [0; CELLS],
        ramp: [0; CELLS],
        jam: [0; CELLS],
        capacity: [0; CELLS],
    };
}

impl State {
    /// Nothing held, nothing waiting, no step done.
    pub const EMPTY: State = State {
        done: 0,
        gate_time: 0,
        road_time: 0,
        ramp_time: 0,
        gate_queue: 0,
        gate_cumulative: 0,
        held: [0; CELLS],
        queue: [0; CELLS],
        cumulative: [0; CELLS],
    };

    /// The start of a study that begins in this state.
    pub fn start(&self) -> Start {
        Start {
            gate_queue: self.gate_queue,
            held: self.held,
            queue: self.queue,
        }
    }
}

impl Start {
    /// Nothing held and nothing waiting.
    pub const EMPTY: Start = Start {
        gate_queue: 0,
        held: [0; CELLS],
        queue: [0; CELLS],
    };
}

impl Lanes {
    /// One lane in every cell, and it is open: each capacity is the road's.
    pub const OPEN: Lanes = Lanes {
        built: [1; CELLS],
        usable: [1; CELLS],
    };
}

impl Weights {
    /// Waiting weighs 1 everywhere: the weighted total is the total.
    pub const EVEN: Weights = Weights {
        places: [1; CELLS + 1],
        ramps: [1; CELLS],
    };
}

/// A meter law. In the boundary it is a kind and three numbers; numbers that it does not use are 0.
#[derive(Clone, Copy, Debug, PartialEq)]
pub enum Law {
    /// The same wish in every step.
    Fixed {
        /// In parts a step.
        rate: f64,
    },
    /// Feedback on what the cell holds.
    Alinea {
        /// The change of the release for each part below the target, a step.
        gain: f64,
        /// What the cell is to hold, in parts.
        target: f64,
    },
    /// Capacity less what entered, up to a critical count; above it the least rate.
    DemandCapacity {
        /// In parts a step.
        capacity: f64,
        /// The count above which the least rate applies, in parts.
        critical: f64,
        /// In parts a step.
        least: f64,
    },
}

impl Law {
    /// Its kind and its three numbers.
    pub fn flat(self) -> (u8, [f64; 3]) {
        match self {
            Law::Fixed { rate } => (0, [rate, 0.0, 0.0]),
            Law::Alinea { gain, target } => (1, [gain, target, 0.0]),
            Law::DemandCapacity {
                capacity,
                critical,
                least,
            } => (2, [capacity, critical, least]),
        }
    }
}
