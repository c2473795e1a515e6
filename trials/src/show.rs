//! A case in words, for people.

pub mod onward;

use reference::as_text;
use reference::model::Road;
use reference::weigh::Weights;
use std::fmt::Display;
use trials::cases::case::{
    Case, FillInput, LeafInput, PresentInput, StepInput, WeighInput, WriteInput,
};
use trials::cases::joins::JoinInput;
use trials::cases::loads::LoadInput;
use trials::cases::puts::PutInput;
use trials::cases::streets::GrantInput;
use trials::cases::wanted_queues::WantedInput;
use trials::cases::within::WithinInput;

/// The operation that a case asks for.
pub fn kind(case: &Case) -> &'static str {
    match case {
        Case::Read { .. } => "read",
        Case::Run { .. } => "run",
        Case::Judge { .. } => "judge",
        Case::Step(_) => "step",
        Case::Write(_) => "write",
        Case::Row { .. } => "row",
        Case::Fill(_) => "fill",
        Case::Leaf(_) => "leaf",
        Case::Capacity { .. } => "capacity",
        Case::Rows { .. } => "rows",
        Case::Weigh(_) => "run-weighted",
        Case::Present(_) => "weighted",
        Case::Load(_) => "load",
        Case::Wanted(_) => "wanted",
        Case::Grant(_) => "grant",
        Case::Put(_) => "put",
        Case::Join(_) => "join",
        Case::Within(_) => "read-within",
        Case::On(input) => input.kind(),
        Case::Many(input) => input.kind(),
    }
}

/// Everything in a case, with a record in its text form.
pub fn case(case: &Case) -> String {
    match case {
        Case::Read { record } => record_text(record),
        Case::Run {
            length,
            lanes,
            record,
        } => format!(
            "list of {length} numbers\n{}{}",
            lanes_text(lanes, record),
            record_text(record)
        ),
        Case::Judge {
            schedule,
            lanes,
            record,
        } => format!(
            "{}{}{}",
            table("schedule", schedule, cells(record) + 1),
            lanes_text(lanes, record),
            record_text(record)
        ),
        Case::Step(input) => step_text(input),
        Case::Write(input) => write_text(input),
        Case::Row { n, t, bytes } => format!("n {n}, step {t}\n{}", hex(bytes)),
        Case::Fill(input) => fill_text(input),
        Case::Leaf(input) => leaf_text(input),
        Case::Capacity {
            capacity,
            built,
            open,
        } => format!("C {capacity}, built {built:08b}, open {open:08b}\n"),
        Case::Rows {
            n,
            steps,
            length,
            bytes,
        } => format!("n {n}, T {steps}, list of {length} numbers\n{}", hex(bytes)),
        Case::Weigh(input) => weigh_text(input),
        Case::Present(input) => present_text(input),
        Case::Load(input) => load_text(input),
        Case::Wanted(input) => wanted_text(input),
        Case::Grant(input) => grant_text(input),
        Case::Put(input) => put_text(input),
        Case::Join(input) => join_text(input),
        Case::Within(input) => within_text(input),
        Case::On(input) => onward::stretch_text(input),
        Case::Many(input) => onward::batch_text(input),
    }
}

/// Cells as a record names them, if it reaches so far.
fn cells(record: &[u8]) -> usize {
    record.get(5).map_or(0, |&n| usize::from(n))
}

/// The text form if a record has one, else its bytes.
fn record_text(record: &[u8]) -> String {
    match as_text::text_of(record) {
        Ok(text) => format!("record of {} bytes\n{text}", record.len()),
        Err(_) => hex(record),
    }
}

fn hex(bytes: &[u8]) -> String {
    let words: Vec<String> = bytes.iter().map(|byte| format!("{byte:02x}")).collect();
    table("bytes, in hexadecimal", &words, 32)
}

fn lanes_text(lanes: &[u8], record: &[u8]) -> String {
    let words: Vec<String> = lanes.iter().map(|byte| format!("{byte:08b}")).collect();
    table("lanes, built and then a row a step", &words, cells(record))
}

/// A name with a count, then the numbers in rows.
fn table(name: &str, numbers: &[impl Display], width: usize) -> String {
    let mut out = format!("{name}: {}\n", numbers.len());
    for row in numbers.chunks(width.max(1)) {
        let words: Vec<String> = row.iter().map(|number| number.to_string()).collect();
        out.push_str(&format!("  {}\n", words.join(" ")));
    }
    out
}

fn road_text(road: &Road) -> String {
    format!(
        "n {}, version {}, seconds {}, gate capacity {}\n",
        road.n, road.version, road.seconds, road.gate_capacity
    )
}

/// A cell's fixed numbers. Entries past cell n are left to the file.
fn cell_text(road: &Road, i: usize) -> String {
    format!(
        "cell {}: v {} w {} b {} ramp {} J {} C {}",
        i + 1,
        road.v[i],
        road.w[i],
        road.b[i],
        road.ramp[i],
        road.jam[i],
        road.capacity[i]
    )
}

fn step_text(input: &StepInput) -> String {
    let StepInput {
        road,
        state,
        row,
        built,
        open,
    } = input;
    let mut out = road_text(road);
    out.push_str(&format!(
        "steps done {}, times {} {} {}, gate queue {}, gate F {}\n",
        state.steps,
        state.gate_time,
        state.road_time,
        state.ramp_time,
        state.gate_queue,
        state.gate_f
    ));
    for i in 0..road.n.min(Road::MAX_CELLS) {
        out.push_str(&format!(
            "{} held {} queue {} F {} built {:08b} open {:08b}\n",
            cell_text(road, i),
            state.held[i],
            state.queue[i],
            state.f[i],
            built[i],
            open[i]
        ));
    }
    out + &table("row", row, 16)
}

fn write_text(input: &WriteInput) -> String {
    let WriteInput {
        road,
        steps,
        start,
        rows,
        length,
    } = input;
    let mut out = road_text(road);
    out.push_str(&format!(
        "T {steps}, gate queue {}, target of {length} bytes\n",
        start.gate_queue
    ));
    for i in 0..road.n.min(Road::MAX_CELLS) {
        out.push_str(&format!(
            "{} held {} queue {}\n",
            cell_text(road, i),
            start.held[i],
            start.queue[i]
        ));
    }
    out + &table("rows", rows, 1 + 2 * road.n.min(Road::MAX_CELLS))
}

fn fill_text(input: &FillInput) -> String {
    let mut out = format!("list of {} numbers\n", input.length);
    for (i, law) in input.laws.iter().take(cells(&input.record)).enumerate() {
        out.push_str(&format!("cell {}: {:?}\n", i + 1, law.law()));
    }
    out + &lanes_text(&input.lanes, &input.record) + &record_text(&input.record)
}

fn weights_text(weights: &Weights) -> String {
    let places = table("weights, the gate first", &weights.places, 33);
    places + &table("weights of ramp queues", &weights.ramps, 32)
}

fn weigh_text(input: &WeighInput) -> String {
    let WeighInput {
        length,
        weights,
        lanes,
        record,
    } = input;
    let lanes = lanes_text(lanes, record);
    format!("list of {length} numbers\n") + &weights_text(weights) + &lanes + &record_text(record)
}

fn present_text(input: &PresentInput) -> String {
    let PresentInput {
        road,
        state,
        weights,
    } = input;
    let mut out = format!("n {}, gate queue {}\n", road.n, state.gate_queue);
    for i in 0..road.n.min(Road::MAX_CELLS) {
        let (held, queue) = (state.held[i], state.queue[i]);
        out.push_str(&format!("cell {}: held {held} queue {queue}\n", i + 1));
    }
    out + &weights_text(weights)
}

fn leaf_text(input: &LeafInput) -> String {
    format!(
        "{:?}, last release {}, entered {}, held {}, cap {}\n",
        input.law.law(),
        input.last,
        input.entered,
        input.held,
        input.cap
    )
}

fn load_text(input: &LoadInput) -> String {
    let LoadInput { seed, peak, length } = input;
    format!("seed {seed}, peak {peak}, list of {length} numbers\n")
}

fn wanted_text(input: &WantedInput) -> String {
    let WantedInput {
        start,
        ceiling,
        rate,
        arrivals,
        length,
    } = input;
    let asked =
        format!("start {start}, ceiling {ceiling}, rate {rate}, table of {length} numbers\n");
    asked + &table("arrivals", arrivals, 16)
}

fn grant_text(input: &GrantInput) -> String {
    let GrantInput {
        limit,
        guarantees,
        wishes,
        length,
    } = input;
    let asked = format!("limit {limit}, list of {length} numbers\n");
    asked + &table("guarantees", guarantees, 16) + &table("wishes", wishes, 16)
}

fn put_text(input: &PutInput) -> String {
    let PutInput {
        step,
        cell,
        release,
        record,
    } = input;
    let asked = format!("step {step}, cell {cell}, release {release}\n");
    asked + &record_text(record)
}

fn join_text(input: &JoinInput) -> String {
    let JoinInput {
        upstream,
        downstream,
        share,
        length,
    } = input;
    let asked = format!("share {share}, target of {length} bytes\n");
    asked + "upstream " + &record_text(upstream) + "downstream " + &record_text(downstream)
}

fn within_text(input: &WithinInput) -> String {
    let WithinInput {
        cells,
        bytes,
        record,
    } = input;
    format!("at most {cells} cells and {bytes} bytes\n") + &record_text(record)
}
