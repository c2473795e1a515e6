//! Frames of studies that go on and of many studies.
//!
//! ```text
//! 'O'  running on
//!      a state (804 bytes), weights (129 bytes)
//!      u32 L, the lent list's length
//!      u32 Y, Y bytes of a table of lanes
//!      u32 B, B bytes of a record
//! 'H'  filling on
//!      a state (804 bytes), 64 laws (1,792 bytes)
//!      64 x (u32 last release, u32 last entry)
//!      u32 L, the lent list's length
//!      u32 Y, Y bytes of a table of lanes
//!      u32 B, B bytes of a record
//! 'K'  judging on
//!      a state (804 bytes)
//!      u32 Z, Z u32 of a schedule
//!      u32 Y, Y bytes of a table of lanes
//!      u32 B, B bytes of a record
//! 'M'  running many studies
//!      u32 L, the lent list's length; u32 A, the lent answers' length
//!      u32 K, K u32, the arrivals of all studies
//!      u32 Y, Y bytes of a table of lanes
//!      u32 B, B bytes of a record
//! 'V'  filling many studies
//!      64 laws (1,792 bytes), then as 'M'
//! ```
//!
//! L, A and K are at most 9,000.

use super::{put, put_bytes, put_law, put_numbers, put_state, put_weights, Reader};
use reference::fill::Last;
use trials::cases::batches::Batch;
use trials::cases::case::MAX_LIST;
use trials::cases::stretches::{Laws, Operation, Stretch};

pub fn put_stretch(out: &mut Vec<u8>, stretch: &Stretch) {
    out.push(match stretch.operation {
        Operation::Run { .. } => b'O',
        Operation::Fill { .. } => b'H',
        Operation::Judge { .. } => b'K',
    });
    put_state(out, &stretch.from);
    match &stretch.operation {
        Operation::Run { weights, length } => {
            put_weights(out, weights);
            put(out, *length as u32);
        }
        Operation::Fill { laws, last, length } => {
            laws.iter().for_each(|law| put_law(out, law));
            for (release, entered) in last.release.iter().zip(&last.entered) {
                put(out, *release);
                put(out, *entered);
            }
            put(out, *length as u32);
        }
        Operation::Judge { schedule } => put_numbers(out, schedule),
    }
    put_bytes(out, &stretch.lanes);
    put_bytes(out, &stretch.record);
}

pub fn put_batch(out: &mut Vec<u8>, batch: &Batch) {
    match &batch.laws {
        None => out.push(b'M'),
        Some(laws) => {
            out.push(b'V');
            laws.iter().for_each(|law| put_law(out, law));
        }
    }
    put(out, batch.length as u32);
    put(out, batch.room as u32);
    put_numbers(out, &batch.arrivals);
    put_bytes(out, &batch.lanes);
    put_bytes(out, &batch.record);
}

impl Reader<'_> {
    /// After the kind, which is 'O', 'H' or 'K'.
    pub fn stretch(&mut self, kind: u8) -> Result<Stretch, String> {
        Ok(Stretch {
            from: self.state()?,
            operation: self.operation(kind)?,
            lanes: self.lanes()?,
            record: self.record()?,
        })
    }

    fn operation(&mut self, kind: u8) -> Result<Operation, String> {
        Ok(match kind {
            b'O' => Operation::Run {
                weights: self.weights()?,
                length: self.count("the list's length", MAX_LIST)?,
            },
            b'H' => Operation::Fill {
                laws: self.boxed_laws()?,
                last: self.last()?,
                length: self.count("the list's length", MAX_LIST)?,
            },
            _ => Operation::Judge {
                schedule: self.numbers("the schedule", MAX_LIST)?,
            },
        })
    }

    fn boxed_laws(&mut self) -> Result<Box<Laws>, String> {
        Ok(Box::new(self.laws()?))
    }

    fn last(&mut self) -> Result<Box<Last>, String> {
        let mut last = Box::new(Last::none());
        for i in 0..last.release.len() {
            last.release[i] = self.u32("the last releases")?;
            last.entered[i] = self.u32("the last entries")?;
        }
        Ok(last)
    }

    /// After the kind, which is 'M' or 'V'.
    pub fn batch(&mut self, kind: u8) -> Result<Batch, String> {
        Ok(Batch {
            laws: match kind {
                b'V' => Some(self.boxed_laws()?),
                _ => None,
            },
            length: self.count("the list's length", MAX_LIST)?,
            room: self.count("the answers' length", MAX_LIST)?,
            arrivals: self.numbers("the arrivals", MAX_LIST)?,
            lanes: self.lanes()?,
            record: self.record()?,
        })
    }
}
