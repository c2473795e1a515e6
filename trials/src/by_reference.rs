//! The second implementation.

mod onward;

use crate::freeway::{Ended, Freeway, HistoryArguments, Laws, Row};
use reference::answer::Answer;
use reference::join;
use reference::load::{self, Loaded};
use reference::longest::{self, Queues};
use reference::model::{self, Road, Start, State};
use reference::put::{self, Put};
use reference::record::{self, Caller, Reading};
use reference::step::{self, Lanes, Stepped};
use reference::street;
use reference::wanted::{self, Asked, Wanted};
use reference::weigh::{self, Weights};
use reference::write::{self, Written};
use reference::{fill, judge, lanes, meter, print, refusals, run};
use trials::cases::case::LawInput;

pub struct Reference;

/// A number in 64 bits; the greatest one if it is larger.
fn within_64_bits(number: u128) -> u64 {
    u64::try_from(number).unwrap_or(u64::MAX)
}

fn ended(answer: Answer) -> Ended {
    let Answer { road, state, .. } = &answer;
    Ended {
        total: within_64_bits(state.total()),
        present: model::present(road, state),
        exits: model::exits(road, state),
        answer,
    }
}

impl Freeway for Reference {
    fn read(&self, bytes: &[u8]) -> Reading {
        record::read(bytes)
    }

    fn read_within(&self, bytes: &[u8], caller: Caller) -> Reading {
        record::read_within(bytes, caller)
    }

    fn run(&self, record: &[u8], lanes: &[u8], list: &mut [u32]) -> Ended {
        ended(run::run(record, lanes, list))
    }

    fn run_weighted(
        &self,
        record: &[u8],
        lanes: &[u8],
        weights: &Weights,
        list: &mut [u32],
    ) -> (Ended, u64) {
        let (answer, weighted) = weigh::run(record, lanes, weights, list);
        (ended(answer), weighted)
    }

    fn run_longest(&self, record: &[u8], lanes: &[u8], list: &mut [u32]) -> (Ended, Queues) {
        let (answer, queues) = longest::run(record, lanes, list);
        (ended(answer), queues)
    }

    fn judge(&self, record: &[u8], lanes: &[u8], schedule: &[u32]) -> Ended {
        ended(judge::judge(record, lanes, schedule))
    }

    /// After the refusals of reading, 17, 18 and 12 comes 11 for either list.
    fn history(&self, bytes: &[u8], arguments: HistoryArguments) -> Ended {
        let answer = judge::judge(bytes, arguments.lanes, arguments.schedule);
        let size = arguments.schedule.len();
        if answer.road.n == 0 {
            return ended(answer);
        }
        if arguments.held.len() < size || arguments.queue.len() < size {
            return ended(Answer::without_state(refusals::LIST_LENGTH, 0));
        }
        let Reading {
            road, mut state, ..
        } = record::read(bytes);
        let width = road.n + 1;
        for t in 0..answer.state.steps {
            let places = t * width..(t + 1) * width;
            let row = record::row(bytes, road.n, t);
            state = step::advance(&road, &state, &row, &arguments.schedule[places.clone()]);
            let held = &mut arguments.held[places.clone()];
            held[0] = state.gate_queue;
            held[1..].copy_from_slice(&state.held[..road.n]);
            let queue = &mut arguments.queue[places];
            queue[0] = 0;
            queue[1..].copy_from_slice(&state.queue[..road.n]);
        }
        ended(answer)
    }

    fn fill(&self, record: &mut [u8], laws: &Laws, lanes: &[u8], list: &mut [u32]) -> Ended {
        ended(fill::fill(record, &laws.map(|law| law.law()), lanes, list))
    }

    fn fill_longest(
        &self,
        record: &mut [u8],
        laws: &Laws,
        lanes: &[u8],
        list: &mut [u32],
    ) -> (Ended, Queues) {
        let laws = laws.map(|law| law.law());
        let (answer, queues) = longest::fill(record, &laws, lanes, list);
        (ended(answer), queues)
    }

    fn step(&self, road: Road, state: State, row: &[u32], built: &Lanes, open: &Lanes) -> Stepped {
        step::step(road, state, row, built, open)
    }

    fn write(
        &self,
        road: &Road,
        steps: usize,
        start: &Start,
        rows: &[u32],
        target: &mut [u8],
    ) -> Written {
        write::write(road, steps, start, rows, target)
    }

    fn rows(&self, bytes: &[u8], n: usize, steps: usize, list: &mut [u32]) -> usize {
        record::rows(bytes, n, steps, list)
    }

    fn row(&self, bytes: &[u8], n: usize, step: usize) -> Row {
        record::row_numbers(bytes, n, step)
    }

    fn wish(&self, law: &LawInput, last: u32, entered: u32, held: u32) -> f64 {
        law.law().wish(last, entered, held)
    }

    fn release(&self, wish: f64, cap: u32) -> u32 {
        meter::release(wish, cap)
    }

    fn present(&self, road: &Road, state: &State) -> u64 {
        model::present(road, state)
    }

    fn on_road(&self, road: &Road, state: &State) -> u64 {
        model::all_held(road, state)
    }

    fn at_ramps(&self, road: &Road, state: &State) -> u64 {
        model::all_queues(road, state)
    }

    fn weighted(&self, road: &Road, state: &State, weights: &Weights) -> u64 {
        weigh::present(road, state, weights)
    }

    fn exits(&self, road: &Road, state: &State) -> u64 {
        model::exits(road, state)
    }

    fn total(&self, state: &State) -> u64 {
        within_64_bits(state.total())
    }

    fn vehicle_seconds(&self, seconds: u16, state: &State) -> u64 {
        let total = u128::from(self.total(state));
        within_64_bits(print::vehicle_seconds(total, seconds))
    }

    fn demand(&self, speed: u16, capacity: u32, held: u32) -> u32 {
        model::cell_demand(speed, capacity, held) as u32
    }

    fn gate_demand(&self, capacity: u32, queue: u32) -> u32 {
        model::gate_demand(capacity, queue) as u32
    }

    fn supply(&self, wave: u16, capacity: u32, jam: u32, held: u32) -> u32 {
        model::cell_supply(wave, capacity, jam, held) as u32
    }

    fn room(&self, supply: u32, release: u32) -> u32 {
        model::room(u64::from(supply), u64::from(release)) as u32
    }

    fn onward(&self, share: u16, cumulative: u32) -> u64 {
        model::onward_total(u64::from(share), u64::from(cumulative))
    }

    fn entering(&self, share: u16, cumulative: u32, outflow: u32) -> u64 {
        let [f, outflow] = [cumulative, outflow].map(u64::from);
        model::entering(u64::from(share), f, outflow)
    }

    fn outflow(&self, share: u16, cumulative: u32, room: u32, demand: u32) -> u32 {
        let [share, f] = [u64::from(share), u64::from(cumulative)];
        model::greatest_outflow(share, f, u64::from(demand), u64::from(room)) as u32
    }

    /// The reference has one way to find it.
    fn outflow_by_halves(&self, share: u16, cumulative: u32, room: u32, demand: u32) -> u32 {
        self.outflow(share, cumulative, room, demand)
    }

    fn open_capacity(&self, capacity: u32, built: u8, open: u8) -> u32 {
        lanes::open_capacity(capacity, built, open)
    }

    fn load(&self, seed: u32, peak: u32, list: &mut [u32]) -> Loaded {
        load::load(seed, peak, list)
    }

    fn wanted(&self, asked: Asked, table: &mut [u32]) -> Wanted {
        wanted::wanted(asked, table)
    }

    fn grant(&self, limit: u32, guarantees: &[u32], wishes: &[u32], grants: &mut [u32]) -> u32 {
        street::grant(limit, guarantees, wishes, grants)
    }

    fn put(&self, record: &mut [u8], step: usize, cell: usize, release: u32) -> Put {
        put::put(record, step, cell, release)
    }

    fn join(&self, upstream: &[u8], downstream: &[u8], share: u16, target: &mut [u8]) -> Written {
        join::join(upstream, downstream, share, target)
    }
}
