//! Part of group 4: roads with zeros and maxima in every field.

use super::cells::{with_ramp, Style};
use super::dice::Dice;
use super::trial::{self, Hold, Plan, Trial};
use reference::draft::{CellDraft, Draft};

/// Sets one number of the road, at its least or its greatest.
type Set = fn(&mut Draft, bool);

const SETS: [Set; 9] = [
    |d, great| d.gate_capacity = if great { 1_000_000 } else { 0 },
    |d, great| d.gate_queue = if great { 1_000_000_000 } else { 0 },
    |d, great| each(d, |c| c.v = if great { 1_000 } else { 0 }),
    |d, great| each(d, |c| c.w = if great { 1_000 } else { 0 }),
    |d, great| all_but_last(d, |c| c.b = if great { 1_000 } else { 0 }),
    |d, great| {
        each(d, |c| c.jam = if great { 1_000_000 } else { 0 });
        each(d, |c| c.held = c.held.min(c.jam));
    },
    |d, great| each(d, |c| c.capacity = if great { 1_000_000 } else { 0 }),
    |d, great| each(d, |c| c.held = if great { c.jam } else { 0 }),
    |d, great| {
        each(d, |c| {
            c.queue = u32::from(c.ramp) * if great { 1_000_000_000 } else { 0 }
        })
    },
];

fn each(draft: &mut Draft, change: impl FnMut(&mut CellDraft)) {
    draft.cells.iter_mut().for_each(change);
}

fn all_but_last(draft: &mut Draft, change: impl FnMut(&mut CellDraft)) {
    let last = draft.cells.len() - 1;
    draft.cells[..last].iter_mut().for_each(change);
}

/// Each number at its least and at its greatest in all cells, with plain and
/// with extreme arrivals; then all numbers so.
pub fn roads(dice: &mut Dice) -> Vec<Trial> {
    let mut trials = Vec::new();
    for set in SETS {
        for great in [false, true] {
            for style in [Style::Plain, Style::Extreme] {
                let mut draft = Style::Plain.road(5, dice);
                draft.cells[1] = with_ramp(draft.cells[1], 3_000);
                draft.cells[4] = with_ramp(draft.cells[4], 2_000);
                set(&mut draft, great);
                trials.push(made(draft, style, 20, dice));
            }
        }
    }
    for n in [1, 2, 7] {
        for great in [false, true] {
            trials.push(made(uniform(n, great, false), Style::Extreme, 30, dice));
            trials.push(made(uniform(n, great, true), Style::Extreme, 30, dice));
        }
    }
    trials
}

/// Every number at its least or its greatest; the cells empty or full.
pub fn uniform(n: usize, great: bool, full: bool) -> Draft {
    let cell = with_ramp(CellDraft::default(), 0);
    let mut draft = Draft::new((0, 0), vec![cell; n], vec![]);
    for set in SETS {
        set(&mut draft, great);
    }
    each(&mut draft, |c| c.held = if full { c.jam } else { 0 });
    draft
}

fn made(draft: Draft, style: Style, steps: usize, dice: &mut Dice) -> Trial {
    let plan = Plan {
        style,
        steps,
        hold: Hold::Scaled(900),
        fault: None,
        lanes: vec![],
    };
    trial::make(draft, &plan, dice)
}
