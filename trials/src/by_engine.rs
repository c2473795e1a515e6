//! The proved engine, through its C boundary.

mod onward;

use crate::freeway::{Ended, Freeway, HistoryArguments, Laws, Row};
use nobyaluk::{lent, Refusal};
use reference::answer::Answer;
use reference::load::Loaded;
use reference::longest::Queues;
use reference::model::{Road, Start, State};
use reference::put::Put;
use reference::record::{Caller, Reading};
use reference::step::{Lanes, Stepped};
use reference::wanted::{Asked, Wanted};
use reference::weigh::Weights;
use reference::write::Written;
use trials::cases::case::LawInput;

pub struct Engine;

fn refusal(number: u64) -> u32 {
    u32::try_from(number).expect("a refusal's number is small")
}

fn road_of(road: nobyaluk::Road) -> Road {
    Road {
        n: road.n,
        version: road.version,
        seconds: road.seconds,
        gate_capacity: road.gate_capacity,
        v: road.speed,
        w: road.wave,
        b: road.share,
        ramp: road.ramp,
        jam: road.jam,
        capacity: road.capacity,
    }
}

fn road_for(road: &Road) -> nobyaluk::Road {
    nobyaluk::Road {
        n: road.n,
        version: road.version,
        seconds: road.seconds,
        gate_capacity: road.gate_capacity,
        speed: road.v,
        wave: road.w,
        share: road.b,
        ramp: road.ramp,
        jam: road.jam,
        capacity: road.capacity,
    }
}

fn state_of(state: nobyaluk::State) -> State {
    State {
        steps: state.done,
        gate_time: state.gate_time,
        road_time: state.road_time,
        ramp_time: state.ramp_time,
        gate_queue: state.gate_queue,
        gate_f: state.gate_cumulative,
        held: state.held,
        queue: state.queue,
        f: state.cumulative,
    }
}

fn state_for(state: State) -> nobyaluk::State {
    nobyaluk::State {
        done: state.steps,
        gate_time: state.gate_time,
        road_time: state.road_time,
        ramp_time: state.ramp_time,
        gate_queue: state.gate_queue,
        gate_cumulative: state.gate_f,
        held: state.held,
        queue: state.queue,
        cumulative: state.f,
    }
}

/// A law's kind and numbers, used or not. Kinds that no byte holds are fixed rates, as 255 is.
fn flat(law: &LawInput) -> (u8, [f64; 3]) {
    let kind = u8::try_from(law.kind).unwrap_or(u8::MAX);
    (kind, law.bits.map(f64::from_bits))
}

fn weights_for(weights: &Weights) -> nobyaluk::Weights {
    nobyaluk::Weights {
        places: weights.places,
        ramps: weights.ramps,
    }
}

fn reading_of(reading: nobyaluk::Reading) -> Reading {
    Reading {
        number: refusal(reading.number),
        place: reading.place as usize,
        road: road_of(reading.road),
        steps: reading.steps as usize,
        state: state_of(reading.state),
    }
}

fn written_of(written: nobyaluk::Written) -> Written {
    Written {
        number: refusal(written.number),
        place: written.place as usize,
        count: written.count as usize,
    }
}

fn ended(ended: nobyaluk::Ended) -> Ended {
    Ended {
        answer: Answer {
            number: refusal(ended.number),
            step: ended.step as usize,
            place: ended.place as usize,
            road: road_of(ended.road),
            state: state_of(ended.state),
        },
        total: ended.total,
        present: ended.present,
        exits: ended.exits,
    }
}

fn longest(longest: nobyaluk::Longest) -> (Ended, Queues) {
    let queues = Queues {
        gate: longest.gate,
        waiting: longest.waiting,
        ramps: longest.ramps,
    };
    (ended(longest.ended), queues)
}

impl Freeway for Engine {
    fn read(&self, record: &[u8]) -> Reading {
        reading_of(lent::read(record).value)
    }

    fn read_within(&self, record: &[u8], caller: Caller) -> Reading {
        let Caller { cells, bytes } = caller;
        reading_of(lent::read_within(record, cells, bytes).value)
    }

    fn run(&self, record: &[u8], lanes: &[u8], list: &mut [u32]) -> Ended {
        ended(lent::run(record, lanes, list).value)
    }

    fn run_weighted(
        &self,
        record: &[u8],
        lanes: &[u8],
        weights: &Weights,
        list: &mut [u32],
    ) -> (Ended, u64) {
        let weighed = lent::run_weighted(record, lanes, weights_for(weights), list).value;
        (ended(weighed.ended), weighed.weighted)
    }

    fn run_longest(&self, record: &[u8], lanes: &[u8], list: &mut [u32]) -> (Ended, Queues) {
        longest(lent::run_longest(record, lanes, list).value)
    }

    fn judge(&self, record: &[u8], lanes: &[u8], schedule: &[u32]) -> Ended {
        ended(lent::judge(record, lanes, schedule).value)
    }

    fn history(&self, record: &[u8], arguments: HistoryArguments) -> Ended {
        ended(
            lent::history(
                record,
                arguments.lanes,
                arguments.schedule,
                arguments.held,
                arguments.queue,
            )
            .value,
        )
    }

    fn fill(&self, record: &mut [u8], laws: &Laws, lanes: &[u8], list: &mut [u32]) -> Ended {
        let (kinds, numbers): (Vec<u8>, Vec<[f64; 3]>) = laws.iter().map(flat).unzip();
        ended(lent::fill_kinds(record, &kinds, numbers.as_flattened(), lanes, list).value)
    }

    fn fill_longest(
        &self,
        record: &mut [u8],
        laws: &Laws,
        lanes: &[u8],
        list: &mut [u32],
    ) -> (Ended, Queues) {
        let (kinds, numbers): (Vec<u8>, Vec<[f64; 3]>) = laws.iter().map(flat).unzip();
        longest(lent::fill_kinds_longest(record, &kinds, numbers.as_flattened(), lanes, list).value)
    }

    fn step(&self, road: Road, state: State, row: &[u32], built: &Lanes, open: &Lanes) -> Stepped {
        let lanes = nobyaluk::Lanes {
            built: *built,
            usable: *open,
        };
        let stepped = lent::step(road_for(&road), state_for(state), row, lanes).value;
        Stepped {
            number: refusal(stepped.number),
            place: stepped.place as usize,
            state: state_of(stepped.state),
        }
    }

    fn write(
        &self,
        road: &Road,
        steps: usize,
        start: &Start,
        rows: &[u32],
        target: &mut [u8],
    ) -> Written {
        let start = nobyaluk::Start {
            gate_queue: start.gate_queue,
            held: start.held,
            queue: start.queue,
        };
        written_of(lent::write(road_for(road), steps, start, rows, target).value)
    }

    fn rows(&self, record: &[u8], n: usize, steps: usize, list: &mut [u32]) -> usize {
        lent::rows(record, n, steps, list)
    }

    fn row(&self, record: &[u8], n: usize, step: usize) -> Row {
        lent::row(record, n, step).numbers
    }

    fn wish(&self, law: &LawInput, last: u32, entered: u32, held: u32) -> f64 {
        let (kind, numbers) = flat(law);
        nobyaluk::wish_of_kind(kind, numbers, last, entered, held)
    }

    fn release(&self, wish: f64, cap: u32) -> u32 {
        nobyaluk::release(wish, cap)
    }

    fn present(&self, road: &Road, state: &State) -> u64 {
        nobyaluk::present(road_for(road), state_for(*state))
    }

    fn on_road(&self, road: &Road, state: &State) -> u64 {
        nobyaluk::on_road(road_for(road), state_for(*state))
    }

    fn at_ramps(&self, road: &Road, state: &State) -> u64 {
        nobyaluk::at_ramps(road_for(road), state_for(*state))
    }

    fn weighted(&self, road: &Road, state: &State, weights: &Weights) -> u64 {
        nobyaluk::weighted(road_for(road), state_for(*state), weights_for(weights))
    }

    fn exits(&self, road: &Road, state: &State) -> u64 {
        nobyaluk::exits(road_for(road), state_for(*state))
    }

    fn total(&self, state: &State) -> u64 {
        nobyaluk::total(state_for(*state))
    }

    fn vehicle_seconds(&self, seconds: u16, state: &State) -> u64 {
        nobyaluk::vehicle_seconds(seconds, state_for(*state))
    }

    fn demand(&self, speed: u16, capacity: u32, held: u32) -> u32 {
        nobyaluk::demand(speed, capacity, held)
    }

    fn gate_demand(&self, capacity: u32, queue: u32) -> u32 {
        nobyaluk::gate_demand(capacity, queue)
    }

    fn supply(&self, wave: u16, capacity: u32, jam: u32, held: u32) -> u32 {
        nobyaluk::supply(wave, capacity, jam, held)
    }

    fn room(&self, supply: u32, release: u32) -> u32 {
        nobyaluk::room(supply, release)
    }

    fn onward(&self, share: u16, cumulative: u32) -> u64 {
        nobyaluk::onward(share, cumulative)
    }

    fn entering(&self, share: u16, cumulative: u32, outflow: u32) -> u64 {
        nobyaluk::entering(share, cumulative, outflow)
    }

    fn outflow(&self, share: u16, cumulative: u32, room: u32, demand: u32) -> u32 {
        nobyaluk::outflow(share, cumulative, room, demand)
    }

    fn outflow_by_halves(&self, share: u16, cumulative: u32, room: u32, demand: u32) -> u32 {
        nobyaluk::outflow_by_halves(share, cumulative, room, demand)
    }

    fn open_capacity(&self, capacity: u32, built: u8, open: u8) -> u32 {
        nobyaluk::open_capacity(capacity, built, open)
    }

    fn load(&self, seed: u32, peak: u32, list: &mut [u32]) -> Loaded {
        let loaded = lent::load(seed, peak, list).value;
        Loaded {
            number: refusal(loaded.number),
            last: u32::try_from(loaded.last).expect("the last number has 32 bits"),
        }
    }

    fn wanted(&self, asked: Asked, table: &mut [u32]) -> Wanted {
        let Asked {
            start,
            ceiling,
            rate,
            arrivals,
        } = asked;
        let wanted = lent::wanted(start, ceiling, rate, arrivals, table).value;
        let refused = Refusal::from_number(wanted.number) == Refusal::WantedInput;
        match (refused, wanted.number, wanted.found) {
            (true, _, 0) => Wanted::Refused,
            (false, 0, 0) => Wanted::NoTable,
            (false, 0, 1) => Wanted::Found,
            other => panic!("{other:?} is no answer of a search"),
        }
    }

    fn grant(&self, limit: u32, guarantees: &[u32], wishes: &[u32], grants: &mut [u32]) -> u32 {
        refusal(lent::grant(limit, guarantees, wishes, grants).value.number)
    }

    fn put(&self, record: &mut [u8], step: usize, cell: usize, release: u32) -> Put {
        let released = lent::put(record, step, cell, release).value;
        Put {
            number: refusal(released.number),
            place: released.place as usize,
        }
    }

    fn join(&self, upstream: &[u8], downstream: &[u8], share: u16, target: &mut [u8]) -> Written {
        written_of(lent::join(upstream, downstream, share, target).value)
    }
}
