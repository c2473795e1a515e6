//! The whole answer of a case: every number that is returned and every list that was
//! lent, by name.

pub mod onward;

use crate::freeway::{Ended, Freeway, HistoryArguments};
use crate::lent::{self, Lent};
use reference::load::Loaded;
use reference::longest::Queues;
use reference::model::{Road, State};
use reference::put::Put;
use reference::record::Reading;
use reference::refusals;
use reference::step::Stepped;
use reference::wanted::Wanted;
use reference::write::Written;
use std::fmt;
use trials::cases::case::{
    Case, FillInput, LeafInput, PresentInput, StepInput, WeighInput, WriteInput,
};
use trials::cases::joins::JoinInput;
use trials::cases::loads::LoadInput;
use trials::cases::puts::PutInput;
use trials::cases::streets::GrantInput;
use trials::cases::wanted_queues::WantedInput;

/// A part of an answer: numbers of one name.
#[derive(Clone, Debug, PartialEq, Eq)]
pub struct Field {
    pub name: &'static str,
    pub numbers: Vec<u64>,
    /// Numbers of the guard before the first one that was lent.
    guard: usize,
}

#[derive(Clone, Debug, Default, PartialEq, Eq)]
pub struct Whole {
    fields: Vec<Field>,
}

/// Where two answers differ.
#[derive(Debug, PartialEq, Eq)]
pub struct Difference {
    pub name: &'static str,
    pub at: At,
    pub left: u64,
    pub right: u64,
}

#[derive(Debug, PartialEq, Eq)]
pub enum At {
    /// The only number of this name.
    Number,
    /// One of several, counted from the first that was lent; the guard before it is
    /// counted downwards.
    Index(isize),
    /// The counts of numbers, which differ.
    Count,
}

impl Whole {
    /// The refusal's number; 0 for operations that never refuse.
    pub fn number(&self) -> u64 {
        let first = self.fields.first().filter(|field| field.name == "number");
        first.map_or(0, |field| field.numbers[0])
    }

    pub fn fields(&self) -> impl Iterator<Item = &Field> {
        self.fields.iter()
    }

    /// All differences, at most one per name.
    pub fn differences(&self, other: &Whole) -> Vec<Difference> {
        let pairs = self.fields.iter().zip(&other.fields);
        let mut found: Vec<Difference> = pairs.filter_map(|(a, b)| difference(a, b)).collect();
        if self.fields.len() != other.fields.len() {
            found.push(Difference {
                name: "parts of the answer",
                at: At::Count,
                left: self.fields.len() as u64,
                right: other.fields.len() as u64,
            });
        }
        found
    }

    #[cfg(test)]
    pub fn with_one_more(&self, field: usize, index: usize) -> Whole {
        let mut other = self.clone();
        let number = &mut other.fields[field].numbers[index];
        *number = number.wrapping_add(1);
        other
    }

    fn put<T: Into<u64>>(&mut self, name: &'static str, numbers: impl IntoIterator<Item = T>) {
        let numbers = numbers.into_iter().map(Into::into).collect();
        self.fields.push(Field {
            name,
            numbers,
            guard: 0,
        });
    }

    fn put_size(&mut self, name: &'static str, size: usize) {
        self.put(name, [size as u64]);
    }

    fn put_lent<T: Copy + Into<u64>>(&mut self, name: &'static str, lent: Lent<T>) {
        self.fields.push(Field {
            name,
            numbers: lent.all().into_iter().map(Into::into).collect(),
            guard: lent::GUARD,
        });
    }

    fn put_road(&mut self, road: &Road) {
        self.put_size("n", road.n);
        self.put("version", [road.version]);
        self.put("seconds", [road.seconds]);
        self.put("gate capacity", [road.gate_capacity]);
        self.put("v", road.v);
        self.put("w", road.w);
        self.put("b", road.b);
        self.put("ramp", road.ramp);
        self.put("J", road.jam);
        self.put("C", road.capacity);
    }

    fn put_state(&mut self, state: &State) {
        self.put_size("steps done", state.steps);
        self.put("gate time", [state.gate_time]);
        self.put("road time", [state.road_time]);
        self.put("ramp time", [state.ramp_time]);
        self.put("gate queue", [state.gate_queue]);
        self.put("gate F", [state.gate_f]);
        self.put("held", state.held);
        self.put("queue", state.queue);
        self.put("F", state.f);
    }

    fn put_reading(&mut self, reading: &Reading) {
        self.put("number", [reading.number]);
        self.put_size("place", reading.place);
        self.put_size("T", reading.steps);
        self.put_road(&reading.road);
        self.put_state(&reading.state);
    }

    fn put_ended(&mut self, ended: &Ended) {
        let answer = &ended.answer;
        self.put("number", [answer.number]);
        self.put_size("step", answer.step);
        self.put_size("place", answer.place);
        self.put("total", [ended.total]);
        self.put("present", [ended.present]);
        self.put("exits", [ended.exits]);
        self.put_road(&answer.road);
        self.put_state(&answer.state);
    }

    fn put_longest(&mut self, (ended, queues): &(Ended, Queues), list: Lent<u32>) {
        self.put("longest gate queue", [queues.gate]);
        self.put("longest without arrivals", [queues.waiting]);
        self.put("longest ramp queues", queues.ramps);
        self.put_ended(ended);
        self.put_lent("outflows", list);
    }

    fn put_written(&mut self, written: &Written, target: Lent<u8>) {
        self.put("number", [written.number]);
        self.put_size("place", written.place);
        self.put_size("bytes written", written.count);
        self.put_lent("target", target);
    }
}

fn difference(left: &Field, right: &Field) -> Option<Difference> {
    let (a, b) = (&left.numbers, &right.numbers);
    if a == b {
        return None;
    }
    let index = a.iter().zip(b).position(|(x, y)| x != y);
    let (at, left_number, right_number) = match index {
        Some(0) if a.len() == 1 => (At::Number, a[0], b[0]),
        Some(i) => (At::Index(i as isize - left.guard as isize), a[i], b[i]),
        None => (At::Count, a.len() as u64, b.len() as u64),
    };
    Some(Difference {
        name: left.name,
        at,
        left: left_number,
        right: right_number,
    })
}

/// What an implementation answers to a case.
pub fn answer(freeway: &impl Freeway, case: &Case) -> Whole {
    let mut whole = Whole::default();
    match case {
        Case::Read { record } => whole.put_reading(&freeway.read(record)),
        Case::Run {
            length,
            lanes,
            record,
        } => {
            let mut list = lent::numbers(*length);
            whole.put_ended(&freeway.run(record, lanes, list.list()));
            whole.put_lent("outflows", list);
            let mut list = lent::numbers(*length);
            let longest = freeway.run_longest(record, lanes, list.list());
            whole.put_longest(&longest, list);
            again(freeway, record, &mut whole);
        }
        Case::Judge {
            schedule,
            lanes,
            record,
        } => {
            whole.put_ended(&freeway.judge(record, lanes, schedule));
            history(freeway, record, lanes, schedule, &mut whole);
        }
        Case::Step(input) => step(freeway, input, &mut whole),
        Case::Write(input) => write(freeway, input, &mut whole),
        Case::Row { n, t, bytes } => {
            whole.put("row", freeway.row(bytes, *n as usize, *t as usize));
        }
        Case::Fill(input) => fill(freeway, input, &mut whole),
        Case::Leaf(input) => leaf(freeway, input, &mut whole),
        Case::Capacity {
            capacity,
            built,
            open,
        } => whole.put(
            "capacity",
            [freeway.open_capacity(*capacity, *built, *open)],
        ),
        Case::Rows {
            n,
            steps,
            length,
            bytes,
        } => {
            let mut list = lent::numbers(*length);
            let count = freeway.rows(bytes, *n as usize, *steps as usize, list.list());
            whole.put_size("count", count);
            whole.put_lent("rows", list);
        }
        Case::Weigh(input) => weigh(freeway, input, &mut whole),
        Case::Present(input) => {
            let PresentInput {
                road,
                state,
                weights,
            } = &**input;
            whole.put("weighted", [freeway.weighted(road, state, weights)]);
            times(freeway, road, state, &mut whole);
            if road.n <= Road::MAX_CELLS {
                present(freeway, road, state, &mut whole);
            }
        }
        Case::Load(input) => load(freeway, input, &mut whole),
        Case::Wanted(input) => wanted(freeway, input, &mut whole),
        Case::Grant(input) => grant(freeway, input, &mut whole),
        Case::Put(input) => put(freeway, input, &mut whole),
        Case::Join(input) => join(freeway, input, &mut whole),
        Case::Within(input) => {
            whole.put_reading(&freeway.read_within(&input.record, input.caller()));
        }
        Case::On(input) => onward::stretch(freeway, input, &mut whole),
        Case::Many(input) => onward::batch(freeway, input, &mut whole),
    }
    whole
}

/// A record read, its rows taken, and written again, into a target a little longer.
fn again(freeway: &impl Freeway, record: &[u8], whole: &mut Whole) {
    let reading = freeway.read(record);
    let mut rows = vec![0; reading.steps * (1 + 2 * reading.road.n)];
    let count = freeway.rows(record, reading.road.n, reading.steps, &mut rows);
    let mut target = lent::bytes(record.len() + 3);
    let start = reading.state.start();
    let written = freeway.write(
        &reading.road,
        reading.steps,
        &start,
        &rows[..count],
        target.list(),
    );
    whole.put("rows", rows);
    whole.put_written(&written, target);
}

/// The states of a judged schedule, in lists that by turns are one too short.
fn history(
    freeway: &impl Freeway,
    record: &[u8],
    lanes: &[u8],
    schedule: &[u32],
    whole: &mut Whole,
) {
    let (longer, shorter) = (schedule.len() + 2, schedule.len().saturating_sub(1));
    let (held, queue) = match schedule.len() % 5 {
        0 => (shorter, longer),
        1 => (longer, shorter),
        _ => (longer, schedule.len()),
    };
    let (mut held, mut queue) = (lent::numbers(held), lent::numbers(queue));
    let arguments = HistoryArguments {
        lanes,
        schedule,
        held: held.list(),
        queue: queue.list(),
    };
    whole.put_ended(&freeway.history(record, arguments));
    whole.put_lent("held after each step", held);
    whole.put_lent("queues after each step", queue);
}

/// What a state holds, and its parts on the road and at the ramps.
fn present(freeway: &impl Freeway, road: &Road, state: &State, whole: &mut Whole) {
    whole.put("present", [freeway.present(road, state)]);
    whole.put("on the road", [freeway.on_road(road, state)]);
    whole.put("at the ramps", [freeway.at_ramps(road, state)]);
}

/// A state's total, and the same in vehicle-seconds.
fn times(freeway: &impl Freeway, road: &Road, state: &State, whole: &mut Whole) {
    whole.put("total", [freeway.total(state)]);
    let time = freeway.vehicle_seconds(road.seconds, state);
    whole.put("vehicle-seconds", [time]);
}

/// A step, and unless its road or state is out of its limits the rules of each place and
/// what the state holds.
fn step(freeway: &impl Freeway, input: &StepInput, whole: &mut Whole) {
    let StepInput {
        road,
        state,
        row,
        built,
        open,
    } = input;
    let Stepped {
        number,
        place,
        state: next,
    } = freeway.step(*road, *state, row, built, open);
    whole.put("number", [number]);
    whole.put_size("place", place);
    whole.put_state(&next);
    if number == refusals::STEP_INPUT {
        return;
    }
    let cells = 0..road.n.min(Road::MAX_CELLS);
    let (b, f) = (&road.b, &state.f);
    let demand = |i: usize| freeway.demand(road.v[i], road.capacity[i], state.held[i]);
    let supply = |i: usize| freeway.supply(road.w[i], road.capacity[i], road.jam[i], state.held[i]);
    let outflow = |i: usize| freeway.outflow(b[i], f[i], supply(i), demand(i));
    let by_halves = |i: usize| freeway.outflow_by_halves(b[i], f[i], supply(i), demand(i));
    let room = |i: usize| freeway.room(supply(i), row[2 * i + 2]);
    let onward = |i: usize| freeway.onward(b[i], f[i]);
    let entering = |i: usize| freeway.entering(b[i], f[i], outflow(i));
    let gate_demand = freeway.gate_demand(road.gate_capacity, state.gate_queue);
    whole.put("demand", cells.clone().map(demand));
    whole.put("supply", cells.clone().map(supply));
    whole.put("outflow", cells.clone().map(outflow));
    whole.put("outflow by halves", cells.clone().map(by_halves));
    whole.put("room", cells.clone().map(room));
    whole.put("onward", cells.clone().map(onward));
    whole.put("entering", cells.map(entering));
    whole.put("gate demand", [gate_demand]);
    present(freeway, road, state, whole);
    whole.put("exits", [freeway.exits(road, state)]);
    times(freeway, road, state, whole);
}

fn write(freeway: &impl Freeway, input: &WriteInput, whole: &mut Whole) {
    let mut target = lent::bytes(input.length);
    let WriteInput {
        road,
        steps,
        start,
        rows,
        ..
    } = input;
    let written = freeway.write(road, *steps, start, rows, target.list());
    whole.put_written(&written, target);
}

fn fill(freeway: &impl Freeway, input: &FillInput, whole: &mut Whole) {
    let (mut record, mut list) = (lent::given(&input.record), lent::numbers(input.length));
    let ended = freeway.fill(record.list(), &input.laws, &input.lanes, list.list());
    whole.put_ended(&ended);
    whole.put_lent("outflows", list);
    whole.put_lent("record", record);
    let (mut record, mut list) = (lent::given(&input.record), lent::numbers(input.length));
    let longest = freeway.fill_longest(record.list(), &input.laws, &input.lanes, list.list());
    whole.put_longest(&longest, list);
    whole.put_lent("record", record);
}

fn weigh(freeway: &impl Freeway, input: &WeighInput, whole: &mut Whole) {
    let WeighInput {
        length,
        weights,
        lanes,
        record,
    } = input;
    let mut list = lent::numbers(*length);
    let (ended, weighted) = freeway.run_weighted(record, lanes, weights, list.list());
    whole.put_ended(&ended);
    whole.put("weighted", [weighted]);
    whole.put_lent("outflows", list);
}

fn leaf(freeway: &impl Freeway, input: &LeafInput, whole: &mut Whole) {
    let wish = freeway.wish(&input.law, input.last, input.entered, input.held);
    whole.put("wish, as bits", [bits_of(wish)]);
    whole.put("release", [freeway.release(wish, input.cap)]);
}

fn load(freeway: &impl Freeway, input: &LoadInput, whole: &mut Whole) {
    let mut list = lent::numbers(input.length);
    let Loaded { number, last } = freeway.load(input.seed, input.peak, list.list());
    whole.put("number", [number]);
    whole.put("last", [last]);
    whole.put_lent("arrivals", list);
}

fn wanted(freeway: &impl Freeway, input: &WantedInput, whole: &mut Whole) {
    let mut table = lent::numbers(input.length);
    let (number, found) = match freeway.wanted(input.asked(), table.list()) {
        Wanted::Refused => (23_u32, false),
        Wanted::NoTable => (0, false),
        Wanted::Found => (0, true),
    };
    whole.put("number", [number]);
    whole.put("found", [found]);
    whole.put_lent("releases", table);
}

fn grant(freeway: &impl Freeway, input: &GrantInput, whole: &mut Whole) {
    let mut grants = lent::numbers(input.length);
    let GrantInput {
        limit,
        guarantees,
        wishes,
        ..
    } = input;
    let number = freeway.grant(*limit, guarantees, wishes, grants.list());
    whole.put("number", [number]);
    whole.put_lent("grants", grants);
}

fn put(freeway: &impl Freeway, input: &PutInput, whole: &mut Whole) {
    let mut record = lent::given(&input.record);
    let (step, cell) = (input.step as usize, input.cell as usize);
    let Put { number, place } = freeway.put(record.list(), step, cell, input.release);
    whole.put("number", [number]);
    whole.put_size("place", place);
    whole.put_lent("record", record);
}

/// Two roads joined, and the joined record read.
fn join(freeway: &impl Freeway, input: &JoinInput, whole: &mut Whole) {
    let JoinInput {
        upstream,
        downstream,
        share,
        length,
    } = input;
    let mut target = lent::bytes(*length);
    let written = freeway.join(upstream, downstream, *share, target.list());
    let joined = target.list().get(..written.count).unwrap_or_default();
    let reading = (written.number == 0).then(|| freeway.read(joined));
    whole.put_written(&written, target);
    if let Some(reading) = reading {
        whole.put_reading(&reading);
    }
}

/// The bits of a float; those of all that aren't numbers are the same.
fn bits_of(float: f64) -> u64 {
    match float.is_nan() {
        true => f64::NAN.to_bits(),
        false => float.to_bits(),
    }
}

impl fmt::Display for Difference {
    fn fmt(&self, out: &mut fmt::Formatter) -> fmt::Result {
        let Difference {
            name,
            at,
            left,
            right,
        } = self;
        match at {
            At::Number => write!(out, "{name}: engine {left}, reference {right}"),
            At::Index(i) => write!(out, "{name}[{i}]: engine {left}, reference {right}"),
            At::Count => write!(out, "{name}: engine has {left}, reference {right}"),
        }
    }
}
