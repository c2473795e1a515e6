//! The programs that are compared and timed: the engine, and three others; the engine with the further arguments and answers of
//! running and filling.
use crate::{extended, straight, tuned};
use nobyaluk::{lent, Ended, Law, Longest, Weighed, Weights, CELLS};
use std::hint::black_box;

/// A program: its name, its word on the command line, its run, and its answer in one form.
pub struct Program {
    pub name: &'static str,
    pub word: &'static str,
    pub call: fn(&[u8], &mut [u32]),
    pub answer: fn(&[u8], &mut [u32]) -> Answer,
}

pub const ENGINE: Program = Program {
    name: "engine",
    word: "engine",
    call: |record, list| {
        let _ = black_box(lent::run(black_box(record), &[], black_box(list)));
    },
    answer: |record, list| of_boundary(lent::run(record, &[], list).value),
};

/// The programs that the engine is compared with.
pub const OTHERS: [Program; 3] = [
    Program {
        name: "straightforward Rust",
        word: "straight",
        call: |record, list| whole(straight::run(black_box(record), black_box(list))),
        answer: |record, list| of_rust(straight::run(record, list)),
    },
    Program {
        name: "tuned Rust",
        word: "tuned",
        call: |record, list| whole(tuned::run(black_box(record), black_box(list))),
        answer: |record, list| of_rust(tuned::run(record, list)),
    },
    Program {
        name: "an expert's C",
        word: "c",
        call: |record, list| {
            black_box(limit::run(black_box(record), black_box(list)));
        },
        answer: |record, list| of_boundary(limit::run(record, list)),
    },
];

/// The arguments of running and filling in addition to a record and a list.
pub struct Besides {
    pub lanes: Vec<u8>,
    pub weights: Weights,
    pub laws: Vec<Law>,
}

/// The engine's answer to a run or a filling.
#[allow(clippy::large_enum_variant)] // there is one at a time
pub enum Answered {
    Plain(Ended),
    Weighed(Weighed),
    Longest(Longest),
}

/// A run or a filling by the engine that takes or gives more than the plain run, or fills: its name, its word on the command line,
/// whether it fills, whether it is timed with lanes closed, and its call.
pub struct Variant {
    pub name: &'static str,
    pub word: &'static str,
    pub fills: bool,
    pub closed: bool,
    pub call: fn(&mut [u8], &Besides, &mut [u32]) -> Answered,
}

pub const VARIANTS: [Variant; 5] = [
    Variant {
        name: "with lanes closed",
        word: "lanes",
        fills: false,
        closed: true,
        call: |record, b, list| Answered::Plain(lent::run(record, &b.lanes, list).value),
    },
    Variant {
        name: "with weights",
        word: "weights",
        fills: false,
        closed: false,
        call: |record, b, list| {
            Answered::Weighed(lent::run_weighted(record, &b.lanes, b.weights, list).value)
        },
    },
    Variant {
        name: "with longest queues",
        word: "longest",
        fills: false,
        closed: false,
        call: |record, b, list| Answered::Longest(lent::run_longest(record, &b.lanes, list).value),
    },
    Variant {
        name: "filling",
        word: "fill",
        fills: true,
        closed: false,
        call: |record, b, list| Answered::Plain(lent::fill(record, &b.laws, &b.lanes, list).value),
    },
    Variant {
        name: "filling with longest",
        word: "fill-longest",
        fills: true,
        closed: false,
        call: |record, b, list| {
            Answered::Longest(lent::fill_longest(record, &b.laws, &b.lanes, list).value)
        },
    },
];

/// The engine's answer has total, present and exits; so has this one.
fn whole(ended: straight::Ended) {
    let (road, state) = (&ended.road, &ended.state);
    black_box((state.total(), state.present(road.n), state.exits(road)));
    black_box(ended);
}

/// A program's answer, in one form.
#[derive(Debug, PartialEq)]
pub struct Answer {
    pub refusal: [u64; 3],
    pub times: [u64; 3],
    pub total_present_exits: [u64; 3],
    pub road: straight::Road,
    pub state: straight::State,
}

fn of_rust(ended: straight::Ended) -> Answer {
    let straight::Ended {
        refusal,
        road,
        state,
    } = ended;
    let refusal = refusal.map_or([0; 3], |r| {
        [u64::from(r.number), r.step as u64, r.place as u64]
    });
    Answer {
        refusal,
        times: [state.gate_time, state.road_time, state.ramp_time],
        total_present_exits: [state.total(), state.present(road.n), state.exits(&road)],
        road,
        state,
    }
}

fn of_boundary(ended: Ended) -> Answer {
    let (road, state) = (ended.road, ended.state);
    Answer {
        refusal: [ended.number, ended.step, ended.place],
        times: [state.gate_time, state.road_time, state.ramp_time],
        total_present_exits: [ended.total, ended.present, ended.exits],
        road: straight::Road {
            n: road.n,
            version: road.version,
            seconds: road.seconds,
            gate_capacity: road.gate_capacity,
            speed: road.speed.map(u32::from),
            wave: road.wave.map(u32::from),
            share: road.share.map(u32::from),
            ramp: road.ramp.map(|mark| mark == 1),
            jam: road.jam,
            capacity: road.capacity,
        },
        state: straight::State {
            done: state.done,
            gate_time: state.gate_time,
            road_time: state.road_time,
            ramp_time: state.ramp_time,
            gate_queue: state.gate_queue,
            gate_cumulative: state.gate_cumulative,
            held: state.held,
            queue: state.queue,
            cumulative: state.cumulative,
        },
    }
}

/// An answer with the weighted total and the longest queues (of the gate, of the gate without the step's arrivals, of each ramp),
/// if they are asked for.
pub struct Tally {
    pub answer: Answer,
    weighted: Option<u64>,
    longest: Option<[u32; 2 + CELLS]>,
}

impl Tally {
    pub fn of_rust(tallied: extended::Tallied) -> Tally {
        Tally {
            answer: of_rust(tallied.ended),
            weighted: Some(tallied.weighted),
            longest: Some(tallied.longest),
        }
    }

    pub fn of_engine(answered: Answered) -> Tally {
        let (ended, weighted, longest) = match answered {
            Answered::Plain(ended) => (ended, None, None),
            Answered::Weighed(weighed) => (weighed.ended, Some(weighed.weighted), None),
            Answered::Longest(longest) => (longest.ended, None, Some(queues(&longest))),
        };
        Tally {
            answer: of_boundary(ended),
            weighted,
            longest,
        }
    }

    /// Whether everything that was asked for is the same as in an answer that has all.
    pub fn agrees(&self, whole: &Tally) -> bool {
        self.answer == whole.answer
            && (self.weighted.is_none() || self.weighted == whole.weighted)
            && (self.longest.is_none() || self.longest == whole.longest)
    }
}

fn queues(longest: &Longest) -> [u32; 2 + CELLS] {
    std::array::from_fn(|i| match i {
        0 => longest.gate,
        1 => longest.waiting,
        _ => longest.ramps[i - 2],
    })
}
