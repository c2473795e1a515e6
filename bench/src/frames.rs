//! The engine's native answers and times for another process, `bench/wasm.mjs`, which compares WebAssembly with them. Numbers are
//! little-endian, as in the module's memory.
use crate::compare::{each_record, UNTOUCHED};
use crate::load::{record, PEAK, SEED};
use crate::programs::ENGINE;
use crate::timing::RECORDS;
use nobyaluk::Ended;
use std::io::{stdin, stdout, BufWriter, Read, Write};
use std::time::Instant;

fn unwritten(error: std::io::Error) -> String {
    format!("standard output: {error}")
}

/// Bytes after their count, in four bytes.
fn put(to: &mut impl Write, bytes: &[u8]) -> Result<(), String> {
    let count = bytes.len() as u32;
    to.write_all(&count.to_le_bytes()).map_err(unwritten)?;
    to.write_all(bytes).map_err(unwritten)
}

fn flat(numbers: &[u32]) -> Vec<u8> {
    numbers
        .iter()
        .flat_map(|number| number.to_le_bytes())
        .collect()
}

/// An answer as bindings/c/nobyaluk.h lays it out; the byte that belongs to no field is 0.
fn laid_out(ended: &Ended) -> Vec<u8> {
    let (road, state) = (&ended.road, &ended.state);
    let mut bytes = vec![];
    let heads = [
        ended.number,
        ended.step,
        ended.place,
        ended.total,
        ended.present,
        ended.exits,
    ];
    bytes.extend(heads.iter().flat_map(|number| number.to_le_bytes()));
    bytes.extend((road.n as u64).to_le_bytes());
    bytes.extend([road.version, 0]);
    bytes.extend(road.seconds.to_le_bytes());
    bytes.extend(road.gate_capacity.to_le_bytes());
    for column in [road.speed, road.wave, road.share, road.ramp] {
        bytes.extend(column.iter().flat_map(|number| number.to_le_bytes()));
    }
    bytes.extend(
        [road.jam, road.capacity]
            .iter()
            .flat_map(|column| flat(column)),
    );
    let times = [
        state.done as u64,
        state.gate_time,
        state.road_time,
        state.ramp_time,
    ];
    bytes.extend(times.iter().flat_map(|number| number.to_le_bytes()));
    bytes.extend(flat(&[state.gate_queue, state.gate_cumulative]));
    bytes.extend(
        [state.held, state.queue, state.cumulative]
            .iter()
            .flat_map(|column| flat(column)),
    );
    bytes
}

/// Writes each record that is compared, the engine's answer and the whole list after it.
pub fn print_answers() -> Result<(), String> {
    let mut out = BufWriter::new(stdout().lock());
    each_record(|record, length| {
        let mut list = vec![UNTOUCHED; length];
        let ended = nobyaluk::lent::run(record, &[], &mut list).value;
        put(&mut out, record)?;
        put(&mut out, &laid_out(&ended))?;
        put(&mut out, &flat(&list))
    })?;
    out.flush().map_err(unwritten)
}

/// Writes the records of one size that are timed. Then, for each byte that it reads, it runs them all, so that they are in the cache,
/// times that once more, and writes the nanoseconds in eight bytes.
pub fn take_turns(n: usize, steps: usize) -> Result<(), String> {
    let records = (SEED..SEED + RECORDS).map(|seed| record(seed, PEAK, n, steps));
    let records: Vec<Vec<u8>> = records
        .collect::<Result<_, _>>()
        .map_err(|refused| refused.to_string())?;
    let mut out = stdout().lock();
    for record in &records {
        put(&mut out, record)?;
    }
    out.flush().map_err(unwritten)?;
    let mut list = vec![0; steps * (n + 1)];
    let mut pass = || {
        records
            .iter()
            .for_each(|record| (ENGINE.call)(record, &mut list))
    };
    for asked in stdin().lock().bytes() {
        asked.map_err(|error| format!("standard input: {error}"))?;
        pass();
        let begin = Instant::now();
        pass();
        let time = begin.elapsed().as_nanos() as u64;
        out.write_all(&time.to_le_bytes()).map_err(unwritten)?;
        out.flush().map_err(unwritten)?;
    }
    Ok(())
}
