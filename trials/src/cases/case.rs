//! A case: the arguments of one operation. The caller lends lists and targets; a case
//! says how long they are.

use super::batches::Batch;
use super::joins::JoinInput;
use super::loads::LoadInput;
use super::puts::PutInput;
use super::streets::GrantInput;
use super::stretches::Stretch;
use super::wanted_queues::WantedInput;
use super::within::WithinInput;
use reference::fill::Laws;
use reference::meter::Law;
use reference::model::{Road, Start, State};
use reference::step::Lanes;
use reference::weigh::Weights;

/// Most bytes of a record.
pub const MAX_RECORD: usize = 65_540;
/// Greatest length of a lent list or a schedule.
pub const MAX_LIST: usize = 9_000;
/// Most bytes of a table of lanes.
pub const MAX_LANES: usize = 9_000;
/// Most numbers of a row.
pub const MAX_ROW: usize = 200;
/// Most numbers of all rows to be written, and of a list lent for rows.
pub const MAX_ROWS: usize = 16_512;
/// Greatest length of a target to be written.
pub const MAX_TARGET: usize = 65_600;

/// One case.
#[derive(Clone, Debug, PartialEq, Eq)]
pub enum Case {
    Read {
        record: Vec<u8>,
    },
    Run {
        length: usize,
        lanes: Vec<u8>,
        record: Vec<u8>,
    },
    Judge {
        schedule: Vec<u32>,
        lanes: Vec<u8>,
        record: Vec<u8>,
    },
    Step(Box<StepInput>),
    Write(Box<WriteInput>),
    Row {
        n: u32,
        t: u32,
        bytes: Vec<u8>,
    },
    Fill(Box<FillInput>),
    Leaf(LeafInput),
    Capacity {
        capacity: u32,
        built: u8,
        open: u8,
    },
    Rows {
        n: u32,
        steps: u32,
        length: usize,
        bytes: Vec<u8>,
    },
    Weigh(Box<WeighInput>),
    Present(Box<PresentInput>),
    Load(LoadInput),
    Wanted(WantedInput),
    Grant(GrantInput),
    Put(PutInput),
    Join(JoinInput),
    Within(WithinInput),
    On(Box<Stretch>),
    Many(Box<Batch>),
}

/// What stepping takes.
#[derive(Clone, Debug, PartialEq, Eq)]
pub struct StepInput {
    pub road: Road,
    pub state: State,
    pub row: Vec<u32>,
    pub built: Lanes,
    pub open: Lanes,
}

/// What writing takes; the target is lent with `length` bytes.
#[derive(Clone, Debug, PartialEq, Eq)]
pub struct WriteInput {
    pub road: Road,
    pub steps: usize,
    pub start: Start,
    pub rows: Vec<u32>,
    pub length: usize,
}

/// A law as a frame has it. Its bits are compared, also those of a NaN.
#[derive(Clone, Copy, Debug, Default, PartialEq, Eq)]
pub struct LawInput {
    pub kind: u32,
    pub bits: [u64; 3],
}

/// What filling takes; the list is lent with `length` numbers.
#[derive(Clone, Debug, PartialEq, Eq)]
pub struct FillInput {
    pub laws: [LawInput; Road::MAX_CELLS],
    pub length: usize,
    pub lanes: Vec<u8>,
    pub record: Vec<u8>,
}

/// What a meter's wish and its release take.
#[derive(Clone, Copy, Debug, PartialEq, Eq)]
pub struct LeafInput {
    pub law: LawInput,
    pub last: u32,
    pub entered: u32,
    pub held: u32,
    pub cap: u32,
}

/// What weighing a run takes; the list is lent with `length` numbers.
#[derive(Clone, Debug, PartialEq, Eq)]
pub struct WeighInput {
    pub length: usize,
    pub weights: Weights,
    pub lanes: Vec<u8>,
    pub record: Vec<u8>,
}

/// What weighted present takes.
#[derive(Clone, Debug, PartialEq, Eq)]
pub struct PresentInput {
    pub road: Road,
    pub state: State,
    pub weights: Weights,
}

impl LawInput {
    pub fn new(kind: u32, numbers: [f64; 3]) -> LawInput {
        let bits = numbers.map(f64::to_bits);
        LawInput { kind, bits }
    }

    pub fn law(&self) -> Law {
        let [first, second, third] = self.bits.map(f64::from_bits);
        match self.kind {
            1 => Law::Alinea {
                gain: first,
                target: second,
            },
            2 => Law::DemandCapacity {
                capacity: first,
                critical: second,
                least: third,
            },
            _ => Law::Fixed { rate: first },
        }
    }
}

impl From<Law> for LawInput {
    fn from(law: Law) -> LawInput {
        match law {
            Law::Fixed { rate } => LawInput::new(0, [rate, 0.0, 0.0]),
            Law::Alinea { gain, target } => LawInput::new(1, [gain, target, 0.0]),
            Law::DemandCapacity {
                capacity,
                critical,
                least,
            } => LawInput::new(2, [capacity, critical, least]),
        }
    }
}

impl FillInput {
    pub fn laws(&self) -> Laws {
        self.laws.map(|law| law.law())
    }
}
