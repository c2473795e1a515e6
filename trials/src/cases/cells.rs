//! Random gates, cells and arrivals in several styles.

use super::dice::Dice;
use reference::draft::{CellDraft, Draft};

/// What the numbers of a road are like.
#[derive(Clone, Copy, Debug, PartialEq, Eq)]
pub enum Style {
    /// As on a common road.
    Plain,
    /// Small capacities and slow waves: supply often holds.
    Tight,
    /// Great capacities: supply seldom holds.
    Loose,
    /// Few parts, so that every rounding shows.
    Tiny,
    /// Cells nearly full.
    Jammed,
    /// Zeros, maxima and numbers of any size.
    Extreme,
}

pub const STYLES: [Style; 6] = [
    Style::Plain,
    Style::Tight,
    Style::Tiny,
    Style::Jammed,
    Style::Loose,
    Style::Extreme,
];

impl Style {
    /// A road of n cells without rows. Ramps are none, some or all.
    pub fn road(self, n: usize, dice: &mut Dice) -> Draft {
        let ramps = dice.pick(&[0, 1, 1, 2, 2, 3, 4, 4]);
        let mut cells: Vec<CellDraft> = (0..n)
            .map(|_| {
                let cell = self.cell(dice);
                if dice.upto(3) < ramps {
                    with_ramp(cell, self.ramp_queue(dice))
                } else {
                    cell
                }
            })
            .collect();
        if let Some(last) = cells.last_mut() {
            last.b = 0;
        }
        Draft::new(self.gate(dice), cells, vec![])
    }

    /// A cell without a ramp.
    fn cell(self, dice: &mut Dice) -> CellDraft {
        match self {
            Style::Plain => cell(
                dice,
                [300, 1_000],
                [100, 600],
                [500, 1_000],
                [4_000, 20_000],
            ),
            Style::Tight => tight_cell(dice),
            Style::Loose => loose_cell(dice),
            Style::Tiny => tiny_cell(dice),
            Style::Jammed => jammed_cell(dice),
            Style::Extreme => extreme_cell(dice),
        }
    }

    /// Capacity and queue of the gate.
    fn gate(self, dice: &mut Dice) -> (u32, u32) {
        match self {
            Style::Plain | Style::Jammed => (dice.between(500, 4_000), dice.between(0, 20_000)),
            Style::Tight => (dice.between(200, 3_000), dice.between(1_000, 30_000)),
            Style::Loose => (
                dice.between(10_000, 1_000_000),
                dice.between(0, 100_000_000),
            ),
            Style::Tiny => (dice.between(0, 12), dice.between(0, 200)),
            Style::Extreme => (
                dice.any_size(1_000_000) as u32,
                dice.any_size(1_000_000_000) as u32,
            ),
        }
    }

    fn ramp_queue(self, dice: &mut Dice) -> u32 {
        match self {
            Style::Plain | Style::Jammed => dice.between(0, 5_000),
            Style::Tight => dice.between(0, 2_000),
            Style::Loose => dice.between(0, 2_000_000),
            Style::Tiny => dice.between(0, 40),
            Style::Extreme => dice.any_size(1_000_000_000) as u32,
        }
    }

    /// Arrivals in a step at the gate or at a ramp.
    pub fn arrivals(self, gate: bool, dice: &mut Dice) -> u32 {
        let most = match (self, gate) {
            (Style::Plain | Style::Jammed, true) => 2_000,
            (Style::Plain | Style::Jammed, false) => 500,
            (Style::Tight, true) => 1_200,
            (Style::Tight, false) => 200,
            (Style::Loose, true) => 400_000,
            (Style::Loose, false) => 60_000,
            (Style::Tiny, true) => 9,
            (Style::Tiny, false) => 4,
            (Style::Extreme, _) => return dice.any_size(1_000_000) as u32,
        };
        match dice.upto(9) {
            0 => 0,
            _ => dice.between(0, most),
        }
    }
}

/// A ramp with a queue.
pub fn with_ramp(cell: CellDraft, queue: u32) -> CellDraft {
    CellDraft {
        ramp: 1,
        queue,
        ..cell
    }
}

/// Speed, wave, share and jam count within bounds, the rest to match.
fn cell(
    dice: &mut Dice,
    speed: [u16; 2],
    wave: [u16; 2],
    share: [u16; 2],
    jam: [u32; 2],
) -> CellDraft {
    let jam = dice.between(jam[0], jam[1]);
    CellDraft {
        v: dice.thousandths(speed[0], speed[1]),
        w: dice.thousandths(wave[0], wave[1]),
        b: match dice.upto(3) {
            0 => share[1],
            _ => dice.thousandths(share[0], share[1]),
        },
        ramp: 0,
        jam,
        capacity: dice.between(jam / 16, jam / 5),
        held: dice.between(0, jam),
        queue: 0,
    }
}

fn tight_cell(dice: &mut Dice) -> CellDraft {
    let cell = cell(dice, [700, 1_000], [50, 400], [700, 1_000], [800, 6_000]);
    CellDraft {
        held: dice.between(cell.jam / 3, cell.jam),
        ..cell
    }
}

fn loose_cell(dice: &mut Dice) -> CellDraft {
    let jam = [300_000, 1_000_000];
    let cell = cell(dice, [500, 1_000], [300, 1_000], [100, 1_000], jam);
    CellDraft {
        capacity: dice.between(100_000, 1_000_000),
        held: dice.between(0, cell.jam / 4),
        ..cell
    }
}

fn tiny_cell(dice: &mut Dice) -> CellDraft {
    let cell = cell(dice, [200, 1_000], [100, 1_000], [0, 1_000], [3, 40]);
    CellDraft {
        capacity: dice.between(0, 9),
        ..cell
    }
}

fn jammed_cell(dice: &mut Dice) -> CellDraft {
    let cell = cell(dice, [100, 1_000], [0, 1_000], [0, 1_000], [2_000, 10_000]);
    CellDraft {
        held: cell.jam - dice.pick(&[0, 0, 1, 2, 10, 500]),
        ..cell
    }
}

fn extreme_cell(dice: &mut Dice) -> CellDraft {
    let jam = match dice.upto(2) {
        0 => dice.any_size(1_000_000) as u32,
        _ => dice.between(1_000, 1_000_000),
    };
    CellDraft {
        v: dice.any_size(1_000) as u16,
        w: dice.any_size(1_000) as u16,
        b: dice.any_size(1_000) as u16,
        ramp: 0,
        jam,
        capacity: dice.any_size(1_000_000) as u32,
        held: match dice.upto(3) {
            0 => 0,
            1 => jam,
            _ => dice.between(0, jam),
        },
        queue: 0,
    }
}
