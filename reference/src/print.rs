//! A run printed whole, and the refusal line.

use crate::answer::Answer;
use crate::model::{self, State};
use crate::record::{self, Caller};
use crate::run;
use crate::step;
use std::fmt::Write;

const HEADER: &str = "step place outflow held queue\n";

/// What the program prints for a record. It takes no table of lanes.
pub fn printed_run(record: &[u8]) -> String {
    printed_under(record, &[])
}

/// What the program of a caller with its own limits prints.
pub fn printed_within(record: &[u8], caller: Caller) -> String {
    let (printed, _) = printed_within_with_answer(record, caller);
    printed
}

/// The same, with the answer. A record within the limits is printed as by the full program.
pub fn printed_within_with_answer(record: &[u8], caller: Caller) -> (String, Answer) {
    let reading = record::read_within(record, caller);
    if reading.number != 0 {
        let answer = Answer::without_state(reading.number, reading.place);
        return (refusal_line(&answer), answer);
    }
    printed_with_answer(record, &[])
}

/// What is printed under a table of lanes.
pub fn printed_under(record: &[u8], table: &[u8]) -> String {
    let (printed, _) = printed_with_answer(record, table);
    printed
}

/// The same, with running's answer.
pub fn printed_with_answer(record: &[u8], table: &[u8]) -> (String, Answer) {
    let reading = record::read(record);
    let width = reading.road.n + 1;
    let mut outflows = vec![0; reading.steps * width];
    let answer = run::run(record, table, &mut outflows);
    if answer.number != 0 {
        return (refusal_line(&answer), answer);
    }
    let mut out = String::from(HEADER);
    let mut state = reading.state;
    for (t, flows) in outflows.chunks(width).enumerate() {
        let row = record::row(record, reading.road.n, t);
        state = step::advance(&reading.road, &state, &row, flows);
        print_step(&mut out, &state, t, flows);
    }
    put(&mut out, format_args!("{}\n", sums(&answer)));
    if answer.road.version == 2 {
        let time = vehicle_seconds(answer.state.total(), answer.road.seconds);
        put(&mut out, format_args!("seconds {time}\n"));
    }
    (out, answer)
}

/// A total in whole vehicle-seconds, rounded down.
pub fn vehicle_seconds(total: u128, seconds: u16) -> u128 {
    total * u128::from(seconds) / 1_000
}

/// The rows that running writes, as the text of a schedule: one line per step.
/// If the run is refused, its answer instead.
pub fn printed_schedule(record: &[u8]) -> Result<String, Box<Answer>> {
    let reading = record::read(record);
    let width = reading.road.n + 1;
    let mut outflows = vec![0; reading.steps * width];
    let answer = run::run(record, &[], &mut outflows);
    if answer.number != 0 {
        return Err(Box::new(answer));
    }
    let mut out = String::new();
    for flows in outflows.chunks(width) {
        let words: Vec<String> = flows.iter().map(u32::to_string).collect();
        put(&mut out, format_args!("{}\n", words.join(" ")));
    }
    Ok(out)
}

/// What is printed of a judged schedule: its sums, or the refusal line.
pub fn judgement_line(answer: &Answer) -> String {
    if answer.number != 0 {
        return refusal_line(answer);
    }
    format!("accepted {}\n", sums(answer))
}

/// The total with its three parts, and the exits.
fn sums(answer: &Answer) -> String {
    let State {
        gate_time,
        road_time,
        ramp_time,
        ..
    } = answer.state;
    let total = answer.state.total();
    let exits = model::exits(&answer.road, &answer.state);
    format!("total {total} gate {gate_time} road {road_time} ramp {ramp_time} exits {exits}")
}

/// `refused`, number, step and place.
pub fn refusal_line(answer: &Answer) -> String {
    format!(
        "refused {} {} {}\n",
        answer.number, answer.step, answer.place
    )
}

/// One line per place: step, place, outflow, and held and queue after the step.
fn print_step(out: &mut String, after: &State, t: usize, flows: &[u32]) {
    for (place, outflow) in flows.iter().enumerate() {
        let (held, queue) = match place {
            0 => (after.gate_queue, 0),
            cell => (after.held[cell - 1], after.queue[cell - 1]),
        };
        put(out, format_args!("{t} {place} {outflow} {held} {queue}\n"));
    }
}

fn put(out: &mut String, line: std::fmt::Arguments) {
    out.write_fmt(line).expect("a string takes every line");
}
