//! A record still in values, and its bytes. Nothing is checked, so that
//! damaged records can be made too.

use crate::record::{u16_at, u32_at};

/// One cell's 24 bytes.
#[derive(Clone, Copy, Debug, Default, PartialEq, Eq)]
pub struct CellDraft {
    /// Free speed, in thousandths of a cell a step.
    pub v: u16,
    /// Speed of the congestion wave, in thousandths of a cell a step.
    pub w: u16,
    /// The share that enters the next cell, in thousandths.
    pub b: u16,
    /// 1 with an on-ramp, 0 without.
    pub ramp: u16,
    /// Jam count, in parts.
    pub jam: u32,
    /// Parts a step.
    pub capacity: u32,
    /// What it holds at the start, in parts.
    pub held: u32,
    /// What waits at its on-ramp at the start, in parts.
    pub queue: u32,
}

/// A record in values. `n` and `steps` need not match the lists.
#[derive(Clone, Debug, PartialEq, Eq)]
pub struct Draft {
    /// The first field; without it the true count of bytes after it.
    pub length: Option<u32>,
    /// 1 or 2; any other is refused.
    pub version: u8,
    /// A step's seconds, which version 2 has.
    pub seconds: Option<u16>,
    /// The count of cells that the record names.
    pub n: u8,
    /// The count of steps that the record names.
    pub steps: u16,
    /// Parts a step.
    pub gate_capacity: u32,
    /// In parts.
    pub gate_queue: u32,
    /// From upstream.
    pub cells: Vec<CellDraft>,
    /// Rows in the record's order, of any length.
    pub rows: Vec<Vec<u32>>,
    /// Bytes to drop from the end.
    pub cut: usize,
    /// Zero bytes to add after that.
    pub extra: usize,
}

impl Draft {
    /// A sound frame around these cells and rows.
    pub fn new(gate: (u32, u32), cells: Vec<CellDraft>, rows: Vec<Vec<u32>>) -> Draft {
        Draft {
            length: None,
            version: 1,
            seconds: None,
            n: cells.len() as u8,
            steps: rows.len() as u16,
            gate_capacity: gate.0,
            gate_queue: gate.1,
            cells,
            rows,
            cut: 0,
            extra: 0,
        }
    }

    /// The same as version 2, with a step's seconds.
    pub fn timed(self, seconds: u16) -> Draft {
        Draft {
            version: 2,
            seconds: Some(seconds),
            ..self
        }
    }

    /// The record's bytes.
    pub fn encode(&self) -> Vec<u8> {
        let mut bytes = vec![0; 4];
        bytes.push(self.version);
        bytes.push(self.n);
        bytes.extend(self.steps.to_be_bytes());
        bytes.extend(
            self.seconds
                .iter()
                .flat_map(|seconds| seconds.to_be_bytes()),
        );
        bytes.extend(self.gate_capacity.to_be_bytes());
        bytes.extend(self.gate_queue.to_be_bytes());
        for cell in &self.cells {
            cell.encode(&mut bytes);
        }
        for number in self.rows.iter().flatten() {
            bytes.extend(number.to_be_bytes());
        }
        bytes.truncate(bytes.len().saturating_sub(self.cut));
        bytes.resize(bytes.len() + self.extra, 0);
        if bytes.len() >= 4 {
            let length = self.length.unwrap_or((bytes.len() - 4) as u32);
            bytes[..4].copy_from_slice(&length.to_be_bytes());
        }
        bytes
    }
}

impl CellDraft {
    /// A cell's 24 bytes in values.
    pub fn decode(bytes: &[u8]) -> CellDraft {
        CellDraft {
            v: u16_at(bytes, 0),
            w: u16_at(bytes, 2),
            b: u16_at(bytes, 4),
            ramp: u16_at(bytes, 6),
            jam: u32_at(bytes, 8),
            capacity: u32_at(bytes, 12),
            held: u32_at(bytes, 16),
            queue: u32_at(bytes, 20),
        }
    }

    fn encode(&self, bytes: &mut Vec<u8>) {
        for number in [self.v, self.w, self.b, self.ramp] {
            bytes.extend(number.to_be_bytes());
        }
        for number in [self.jam, self.capacity, self.held, self.queue] {
            bytes.extend(number.to_be_bytes());
        }
    }
}
