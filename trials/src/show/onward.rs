//! Studies that go on and many studies in words.

use super::{cells, lanes_text, record_text, table, weights_text};
use reference::model::{Road, State};
use trials::cases::batches::Batch;
use trials::cases::case::LawInput;
use trials::cases::stretches::{Operation, Stretch};

pub fn stretch_text(stretch: &Stretch) -> String {
    let Stretch {
        from,
        operation,
        lanes,
        record,
    } = stretch;
    let n = cells(record);
    let asked = match operation {
        Operation::Run { weights, length } => {
            format!("list of {length} numbers\n") + &weights_text(weights)
        }
        Operation::Fill { laws, last, length } => {
            let mut out = format!("list of {length} numbers\n");
            for (i, law) in laws.iter().take(n).enumerate() {
                let (release, entered) = (last.release[i], last.entered[i]);
                out.push_str(&law_text(i, law));
                out.push_str(&format!("  last release {release}, entered {entered}\n"));
            }
            out
        }
        Operation::Judge { schedule } => table("schedule", schedule, n + 1),
    };
    asked + &state_text(from, n) + &lanes_text(lanes, record) + &record_text(record)
}

pub fn batch_text(batch: &Batch) -> String {
    let Batch {
        laws,
        lanes,
        arrivals,
        length,
        room,
        record,
    } = batch;
    let n = cells(record);
    let mut out = format!("list of {length} numbers, answers of {room}\n");
    for (i, law) in laws.iter().flat_map(|laws| laws.iter().take(n)).enumerate() {
        out.push_str(&law_text(i, law));
    }
    out.push_str(&table("arrivals of all studies", arrivals, n + 1));
    out + &lanes_text(lanes, record) + &record_text(record)
}

fn law_text(i: usize, law: &LawInput) -> String {
    format!("cell {}: {:?}\n", i + 1, law.law())
}

/// A state up to cell n. Entries past it are left to the file.
fn state_text(state: &State, n: usize) -> String {
    let mut out = format!(
        "from: steps done {}, times {} {} {}, gate queue {}, gate F {}\n",
        state.steps,
        state.gate_time,
        state.road_time,
        state.ramp_time,
        state.gate_queue,
        state.gate_f
    );
    for i in 0..n.min(Road::MAX_CELLS) {
        let (held, queue, f) = (state.held[i], state.queue[i], state.f[i]);
        let cell = i + 1;
        out.push_str(&format!("cell {cell} held {held} queue {queue} F {f}\n"));
    }
    out
}
