//! Cases as bytes: the file of a case that is run again, and the cases for other
//! languages. Frames follow one another until the input ends.
//!
//! All numbers are big-endian and unsigned. A frame is a kind, one byte, and
//! the fields of that kind in order, without gaps. `u32 B, B bytes` is a count
//! of four bytes and then so many bytes; `u32 K, K u32` a count of four bytes
//! and then so many numbers of four bytes each.
//!
//! ```text
//! 'R'  reading
//!      u32 B, B bytes of a record
//! 'U'  running
//!      u32 L, the lent list's length
//!      u32 Y, Y bytes of a table of lanes
//!      u32 B, B bytes of a record
//! 'J'  judging
//!      u32 Z, Z u32 of a schedule
//!      u32 Y, Y bytes of a table of lanes
//!      u32 B, B bytes of a record
//! 'S'  stepping
//!      a road (1,040 bytes), a state (804 bytes)
//!      u32 K, K u32 of a row
//!      64 bytes of lanes built, 64 bytes of lanes open
//! 'W'  writing
//!      a road (1,040 bytes)
//!      u32 T, the number of steps
//!      a start (516 bytes)
//!      u32 K, K u32, the numbers of all rows
//!      u32 L, the target's length
//! 'N'  the numbers of a row
//!      u32 n, u32 t, the step
//!      u32 B, B bytes of a record, whole or not
//! 'F'  filling
//!      64 laws (1,792 bytes)
//!      u32 L, the lent list's length
//!      u32 Y, Y bytes of a table of lanes
//!      u32 B, B bytes of a record
//! 'L'  leaves of a meter
//!      a law (28 bytes)
//!      u32 last release, u32 entered, u32 held, u32 cap
//! 'C'  the capacity that open lanes leave
//!      u32 C, at most 1,000,000, u8 lanes built, u8 lanes open
//! 'T'  the rows of a record in one list
//!      u32 n, u32 T, the number of steps
//!      u32 L, the lent list's length
//!      u32 B, B bytes of a record, whole or not
//! 'G'  weighing a run
//!      u32 L, the lent list's length
//!      weights (129 bytes)
//!      u32 Y, Y bytes of a table of lanes
//!      u32 B, B bytes of a record
//! 'P'  weighted present
//!      a road (1,040 bytes), a state (804 bytes)
//!      weights (129 bytes)
//! 'D'  arrivals from a seed and a peak
//!      u32 seed, u32 peak
//!      u32 L, the lent list's length
//! 'Q'  releases for a wanted queue
//!      u32 start, u32 ceiling, u32 rate
//!      u32 K, K u32 of arrivals
//!      u32 L, the lent table's length
//! 'A'  the grants of a street
//!      u32 limit
//!      u32 K, K u32 of guarantees
//!      u32 K, K u32 of wishes
//!      u32 L, the lent list's length
//! 'E'  a release put into a record
//!      u64 step, u64 cell, u32 release
//!      u32 B, B bytes of a record
//! 'I'  two roads joined
//!      u32 B, B bytes of the upstream record
//!      u32 B, B bytes of the downstream record
//!      u32 the joint's share (0 to 65,535)
//!      u32 L, the target's length
//! 'B'  reading for a caller with its own limits
//!      u64 the caller's cells, u64 the caller's bytes
//!      u32 B, B bytes of a record
//!
//! 'O', 'H', 'K', 'M' and 'V' are in frame/onward.rs.
//!
//! road     u32 n, u32 gate capacity, 64 x (u16 v, w, b, ramp mark), 64 x (u32 J, C),
//!          u32 version (0 to 255), u32 seconds (0 to 65,535)
//! state    u32 steps, u64 gate time, u64 road time, u64 ramp time,
//!          u32 gate queue, u32 gate F,
//!          64 x (u32 held, ramp queue, F)
//! start    u32 gate queue, 64 x (u32 held, ramp queue)
//! law      u32 kind, 3 x u64 bits of a 64-bit float
//! weights  65 x u8 of gate and cells (the gate, then cell 1), 64 x u8 of ramp
//!          queues (cell 1 first)
//! ```
//!
//! Kind 0 is the fixed law with the numbers rate, -, -; 1 ALINEA with gain,
//! target, -; 2 demand-capacity with capacity, critical, least. Any other kind
//! is read as 0. A number marked - is ignored, whatever its bits.
//!
//! Counts are within these limits: B at most 65,540; L of 'U', 'F' and 'G', Y
//! and Z at most 9,000; K of 'S' at most 200; K of 'W' and L of 'T' at most
//! 16,512; L of 'W' and 'I' at most 65,600. Those of 'D', 'Q' and 'A' are at most 9,000.

pub mod onward;

use reference::model::{Road, Start, State};
use reference::step::Lanes;
use reference::weigh::Weights;
use trials::cases::case::{
    Case, FillInput, LawInput, LeafInput, PresentInput, StepInput, WeighInput, WriteInput,
    MAX_LANES, MAX_LIST, MAX_RECORD, MAX_ROW, MAX_ROWS, MAX_TARGET,
};
use trials::cases::joins::JoinInput;
use trials::cases::loads::LoadInput;
use trials::cases::puts::PutInput;
use trials::cases::streets::GrantInput;
use trials::cases::wanted_queues::WantedInput;
use trials::cases::within::WithinInput;

/// Puts the frame of a case after what is there.
pub fn encode(case: &Case, out: &mut Vec<u8>) {
    match case {
        Case::Read { record } => {
            out.push(b'R');
            put_bytes(out, record);
        }
        Case::Run {
            length,
            lanes,
            record,
        } => {
            out.push(b'U');
            put(out, *length as u32);
            put_bytes(out, lanes);
            put_bytes(out, record);
        }
        Case::Judge {
            schedule,
            lanes,
            record,
        } => {
            out.push(b'J');
            put_numbers(out, schedule);
            put_bytes(out, lanes);
            put_bytes(out, record);
        }
        Case::Step(input) => {
            out.push(b'S');
            put_road(out, &input.road);
            put_state(out, &input.state);
            put_numbers(out, &input.row);
            out.extend(input.built);
            out.extend(input.open);
        }
        Case::Write(input) => {
            out.push(b'W');
            put_road(out, &input.road);
            put(out, input.steps as u32);
            put_start(out, &input.start);
            put_numbers(out, &input.rows);
            put(out, input.length as u32);
        }
        Case::Row { n, t, bytes } => {
            out.push(b'N');
            put(out, *n);
            put(out, *t);
            put_bytes(out, bytes);
        }
        Case::Fill(input) => {
            out.push(b'F');
            input.laws.iter().for_each(|law| put_law(out, law));
            put(out, input.length as u32);
            put_bytes(out, &input.lanes);
            put_bytes(out, &input.record);
        }
        Case::Leaf(input) => {
            out.push(b'L');
            put_law(out, &input.law);
            for number in [input.last, input.entered, input.held, input.cap] {
                put(out, number);
            }
        }
        Case::Capacity {
            capacity,
            built,
            open,
        } => {
            out.push(b'C');
            put(out, *capacity);
            out.extend([*built, *open]);
        }
        Case::Rows {
            n,
            steps,
            length,
            bytes,
        } => {
            out.push(b'T');
            put(out, *n);
            put(out, *steps);
            put(out, *length as u32);
            put_bytes(out, bytes);
        }
        Case::Weigh(input) => {
            out.push(b'G');
            put(out, input.length as u32);
            put_weights(out, &input.weights);
            put_bytes(out, &input.lanes);
            put_bytes(out, &input.record);
        }
        Case::Present(input) => {
            out.push(b'P');
            put_road(out, &input.road);
            put_state(out, &input.state);
            put_weights(out, &input.weights);
        }
        Case::Load(input) => put_load(out, input),
        Case::Wanted(input) => put_wanted(out, input),
        Case::Grant(input) => put_grant(out, input),
        Case::Put(input) => put_put(out, input),
        Case::Join(input) => put_join(out, input),
        Case::Within(input) => put_within(out, input),
        Case::On(input) => onward::put_stretch(out, input),
        Case::Many(input) => onward::put_batch(out, input),
    }
}

fn put(out: &mut Vec<u8>, number: u32) {
    out.extend(number.to_be_bytes());
}

fn put_bytes(out: &mut Vec<u8>, bytes: &[u8]) {
    put(out, bytes.len() as u32);
    out.extend(bytes);
}

fn put_numbers(out: &mut Vec<u8>, numbers: &[u32]) {
    put(out, numbers.len() as u32);
    for &number in numbers {
        put(out, number);
    }
}

fn put_law(out: &mut Vec<u8>, law: &LawInput) {
    put(out, law.kind);
    for bits in law.bits {
        out.extend(bits.to_be_bytes());
    }
}

fn put_weights(out: &mut Vec<u8>, weights: &Weights) {
    out.extend(weights.places);
    out.extend(weights.ramps);
}

fn put_road(out: &mut Vec<u8>, road: &Road) {
    put(out, road.n as u32);
    put(out, road.gate_capacity);
    for i in 0..Road::MAX_CELLS {
        for number in [road.v[i], road.w[i], road.b[i], road.ramp[i]] {
            out.extend(number.to_be_bytes());
        }
    }
    for i in 0..Road::MAX_CELLS {
        put(out, road.jam[i]);
        put(out, road.capacity[i]);
    }
    put(out, u32::from(road.version));
    put(out, u32::from(road.seconds));
}

fn put_state(out: &mut Vec<u8>, state: &State) {
    put(out, state.steps as u32);
    for time in [state.gate_time, state.road_time, state.ramp_time] {
        out.extend(time.to_be_bytes());
    }
    put(out, state.gate_queue);
    put(out, state.gate_f);
    for i in 0..Road::MAX_CELLS {
        for number in [state.held[i], state.queue[i], state.f[i]] {
            put(out, number);
        }
    }
}

fn put_start(out: &mut Vec<u8>, start: &Start) {
    put(out, start.gate_queue);
    for i in 0..Road::MAX_CELLS {
        put(out, start.held[i]);
        put(out, start.queue[i]);
    }
}

fn put_load(out: &mut Vec<u8>, input: &LoadInput) {
    out.push(b'D');
    put(out, input.seed);
    put(out, input.peak);
    put(out, input.length as u32);
}

fn put_wanted(out: &mut Vec<u8>, input: &WantedInput) {
    out.push(b'Q');
    for number in [input.start, input.ceiling, input.rate] {
        put(out, number);
    }
    put_numbers(out, &input.arrivals);
    put(out, input.length as u32);
}

fn put_grant(out: &mut Vec<u8>, input: &GrantInput) {
    out.push(b'A');
    put(out, input.limit);
    put_numbers(out, &input.guarantees);
    put_numbers(out, &input.wishes);
    put(out, input.length as u32);
}

fn put_put(out: &mut Vec<u8>, input: &PutInput) {
    out.push(b'E');
    out.extend(input.step.to_be_bytes());
    out.extend(input.cell.to_be_bytes());
    put(out, input.release);
    put_bytes(out, &input.record);
}

fn put_join(out: &mut Vec<u8>, input: &JoinInput) {
    out.push(b'I');
    put_bytes(out, &input.upstream);
    put_bytes(out, &input.downstream);
    put(out, u32::from(input.share));
    put(out, input.length as u32);
}

fn put_within(out: &mut Vec<u8>, input: &WithinInput) {
    out.push(b'B');
    out.extend(input.cells.to_be_bytes());
    out.extend(input.bytes.to_be_bytes());
    put_bytes(out, &input.record);
}

/// The cases of all frames. The error names the frame, counted from 0.
pub fn decode(bytes: &[u8]) -> Result<Vec<Case>, String> {
    let mut reader = Reader { bytes, at: 0 };
    let mut cases = Vec::new();
    while reader.at < bytes.len() {
        let start = reader.at;
        let case = reader
            .case()
            .map_err(|message| format!("frame {} at byte {start}: {message}", cases.len()))?;
        cases.push(case);
    }
    Ok(cases)
}

/// The input and how far it is read.
struct Reader<'a> {
    bytes: &'a [u8],
    at: usize,
}

impl<'a> Reader<'a> {
    fn case(&mut self) -> Result<Case, String> {
        match self.take(1, "the kind")?[0] {
            b'R' => Ok(Case::Read {
                record: self.record()?,
            }),
            b'U' => Ok(Case::Run {
                length: self.count("the list's length", MAX_LIST)?,
                lanes: self.lanes()?,
                record: self.record()?,
            }),
            b'J' => Ok(Case::Judge {
                schedule: self.numbers("the schedule", MAX_LIST)?,
                lanes: self.lanes()?,
                record: self.record()?,
            }),
            b'S' => Ok(Case::Step(Box::new(StepInput {
                road: self.road()?,
                state: self.state()?,
                row: self.numbers("the row", MAX_ROW)?,
                built: self.step_lanes()?,
                open: self.step_lanes()?,
            }))),
            b'W' => Ok(Case::Write(Box::new(WriteInput {
                road: self.road()?,
                steps: self.u32("the steps")? as usize,
                start: self.start()?,
                rows: self.numbers("the rows", MAX_ROWS)?,
                length: self.count("the target's length", MAX_TARGET)?,
            }))),
            b'N' => Ok(Case::Row {
                n: self.u32("the cells")?,
                t: self.u32("the step")?,
                bytes: self.record()?,
            }),
            b'F' => Ok(Case::Fill(Box::new(FillInput {
                laws: self.laws()?,
                length: self.count("the list's length", MAX_LIST)?,
                lanes: self.lanes()?,
                record: self.record()?,
            }))),
            b'L' => Ok(Case::Leaf(LeafInput {
                law: self.law()?,
                last: self.u32("the last release")?,
                entered: self.u32("the entry")?,
                held: self.u32("the held count")?,
                cap: self.u32("the cap")?,
            })),
            b'C' => Ok(Case::Capacity {
                capacity: self.u32("the capacity")?,
                built: self.take(1, "the lanes")?[0],
                open: self.take(1, "the lanes")?[0],
            }),
            b'T' => Ok(Case::Rows {
                n: self.u32("the cells")?,
                steps: self.u32("the steps")?,
                length: self.count("the list's length", MAX_ROWS)?,
                bytes: self.record()?,
            }),
            b'G' => Ok(Case::Weigh(Box::new(WeighInput {
                length: self.count("the list's length", MAX_LIST)?,
                weights: self.weights()?,
                lanes: self.lanes()?,
                record: self.record()?,
            }))),
            b'P' => Ok(Case::Present(Box::new(PresentInput {
                road: self.road()?,
                state: self.state()?,
                weights: self.weights()?,
            }))),
            b'D' => Ok(Case::Load(self.load()?)),
            b'Q' => Ok(Case::Wanted(self.wanted()?)),
            b'A' => Ok(Case::Grant(self.grant()?)),
            b'E' => Ok(Case::Put(self.put()?)),
            b'I' => Ok(Case::Join(self.join()?)),
            b'B' => Ok(Case::Within(self.within()?)),
            kind @ (b'O' | b'H' | b'K') => Ok(Case::On(Box::new(self.stretch(kind)?))),
            kind @ (b'M' | b'V') => Ok(Case::Many(Box::new(self.batch(kind)?))),
            kind => Err(format!("{kind} is not a kind of frame")),
        }
    }

    /// The next bytes, which must be there.
    fn take(&mut self, count: usize, what: &str) -> Result<&'a [u8], String> {
        let left = self.bytes.len() - self.at;
        if left < count {
            return Err(format!(
                "the input ends in {what}: {count} bytes wanted, {left} left"
            ));
        }
        let start = self.at;
        self.at += count;
        Ok(&self.bytes[start..self.at])
    }

    fn u16(&mut self, what: &str) -> Result<u16, String> {
        let bytes = self.take(2, what)?;
        Ok(u16::from_be_bytes([bytes[0], bytes[1]]))
    }

    fn u32(&mut self, what: &str) -> Result<u32, String> {
        let bytes = self.take(4, what)?;
        Ok(u32::from_be_bytes([bytes[0], bytes[1], bytes[2], bytes[3]]))
    }

    fn u64(&mut self, what: &str) -> Result<u64, String> {
        let high = self.u32(what)?;
        let low = self.u32(what)?;
        Ok(u64::from(high) << 32 | u64::from(low))
    }

    fn count(&mut self, what: &str, most: usize) -> Result<usize, String> {
        let count = self.u32(what)? as usize;
        if count > most {
            return Err(format!("{what}: {count} is more than {most}"));
        }
        Ok(count)
    }

    fn record(&mut self) -> Result<Vec<u8>, String> {
        let count = self.count("the record", MAX_RECORD)?;
        Ok(self.take(count, "the record")?.to_vec())
    }

    fn lanes(&mut self) -> Result<Vec<u8>, String> {
        let count = self.count("the lanes", MAX_LANES)?;
        Ok(self.take(count, "the lanes")?.to_vec())
    }

    fn step_lanes(&mut self) -> Result<Lanes, String> {
        let bytes = self.take(Road::MAX_CELLS, "the lanes")?;
        Ok(bytes.try_into().expect("64 bytes"))
    }

    fn numbers(&mut self, what: &str, most: usize) -> Result<Vec<u32>, String> {
        let count = self.count(what, most)?;
        (0..count).map(|_| self.u32(what)).collect()
    }

    fn law(&mut self) -> Result<LawInput, String> {
        let what = "the law";
        Ok(LawInput {
            kind: self.u32(what)?,
            bits: [self.u64(what)?, self.u64(what)?, self.u64(what)?],
        })
    }

    fn laws(&mut self) -> Result<[LawInput; Road::MAX_CELLS], String> {
        let mut laws = [LawInput::default(); Road::MAX_CELLS];
        for law in &mut laws {
            *law = self.law()?;
        }
        Ok(laws)
    }

    fn weights(&mut self) -> Result<Weights, String> {
        let places = self.take(Road::MAX_CELLS + 1, "the weights")?;
        let ramps = self.take(Road::MAX_CELLS, "the weights")?;
        Ok(Weights {
            places: places.try_into().expect("65 bytes"),
            ramps: ramps.try_into().expect("64 bytes"),
        })
    }

    fn road(&mut self) -> Result<Road, String> {
        let what = "the road";
        let mut road = Road::empty();
        road.n = self.u32(what)? as usize;
        road.gate_capacity = self.u32(what)?;
        for i in 0..Road::MAX_CELLS {
            road.v[i] = self.u16(what)?;
            road.w[i] = self.u16(what)?;
            road.b[i] = self.u16(what)?;
            road.ramp[i] = self.u16(what)?;
        }
        for i in 0..Road::MAX_CELLS {
            road.jam[i] = self.u32(what)?;
            road.capacity[i] = self.u32(what)?;
        }
        road.version = self.count("the version", usize::from(u8::MAX))? as u8;
        road.seconds = self.count("the seconds", usize::from(u16::MAX))? as u16;
        Ok(road)
    }

    fn state(&mut self) -> Result<State, String> {
        let what = "the state";
        let mut state = State::empty();
        state.steps = self.u32(what)? as usize;
        state.gate_time = self.u64(what)?;
        state.road_time = self.u64(what)?;
        state.ramp_time = self.u64(what)?;
        state.gate_queue = self.u32(what)?;
        state.gate_f = self.u32(what)?;
        for i in 0..Road::MAX_CELLS {
            state.held[i] = self.u32(what)?;
            state.queue[i] = self.u32(what)?;
            state.f[i] = self.u32(what)?;
        }
        Ok(state)
    }

    fn start(&mut self) -> Result<Start, String> {
        let what = "the start";
        let mut start = State::empty().start();
        start.gate_queue = self.u32(what)?;
        for i in 0..Road::MAX_CELLS {
            start.held[i] = self.u32(what)?;
            start.queue[i] = self.u32(what)?;
        }
        Ok(start)
    }

    fn load(&mut self) -> Result<LoadInput, String> {
        Ok(LoadInput {
            seed: self.u32("the seed")?,
            peak: self.u32("the peak")?,
            length: self.count("the list's length", MAX_LIST)?,
        })
    }

    fn wanted(&mut self) -> Result<WantedInput, String> {
        Ok(WantedInput {
            start: self.u32("the start")?,
            ceiling: self.u32("the ceiling")?,
            rate: self.u32("the rate")?,
            arrivals: self.numbers("the arrivals", MAX_LIST)?,
            length: self.count("the table's length", MAX_LIST)?,
        })
    }

    fn grant(&mut self) -> Result<GrantInput, String> {
        Ok(GrantInput {
            limit: self.u32("the limit")?,
            guarantees: self.numbers("the guarantees", MAX_LIST)?,
            wishes: self.numbers("the wishes", MAX_LIST)?,
            length: self.count("the list's length", MAX_LIST)?,
        })
    }

    fn put(&mut self) -> Result<PutInput, String> {
        Ok(PutInput {
            step: self.u64("the step")?,
            cell: self.u64("the cell")?,
            release: self.u32("the release")?,
            record: self.record()?,
        })
    }

    fn within(&mut self) -> Result<WithinInput, String> {
        Ok(WithinInput {
            cells: self.u64("the caller's cells")?,
            bytes: self.u64("the caller's bytes")?,
            record: self.record()?,
        })
    }

    fn join(&mut self) -> Result<JoinInput, String> {
        Ok(JoinInput {
            upstream: self.record()?,
            downstream: self.record()?,
            share: self.count("the share", usize::from(u16::MAX))? as u16,
            length: self.count("the target's length", MAX_TARGET)?,
        })
    }
}
