//! Part of group 8: capacities of open lanes, and steps with lanes closed.

use super::case::StepInput;
use super::cells::STYLES;
use super::dice::Dice;
use super::list::Cases;
use super::samples;
use super::steps;
use super::trial;
use reference::lanes;
use reference::model::Road;

const CAPACITIES: [u32; 8] = [0, 1, 7, 999, 1_000, 24_500, 999_999, 1_000_000];

/// Lanes anywhere, and steps of random roads.
const ANY_LANES: usize = 300;
const RANDOM: usize = 60;

pub fn add(cases: &mut Cases) {
    let mut dice = Dice::new(9);
    capacities(cases, &mut dice);
    changed(cases, &FAULTS, &mut dice);
    changed(cases, &BESIDE, &mut dice);
    changed(cases, &CLOSED, &mut dice);
    counts_of_cells(cases);
    for k in 0..RANDOM {
        cases.step(&random(k, &mut dice));
    }
}

/// Every count of lanes built and open, also more open than built.
fn capacities(cases: &mut Cases, dice: &mut Dice) {
    let ones = |count: u32| ((1_u32 << count) - 1) as u8;
    for built in 0..=8 {
        for open in 0..=8 {
            for capacity in CAPACITIES {
                cases.capacity(capacity, ones(built), ones(open).reverse_bits());
            }
        }
    }
    for _ in 0..ANY_LANES {
        let capacity = dice.any_size(1_000_000) as u32;
        cases.capacity(capacity, dice.bits() as u8, dice.bits() as u8);
    }
}

type Change = fn(&mut StepInput);

fn changed(cases: &mut Cases, changes: &[Change], dice: &mut Dice) {
    for change in changes {
        let mut input = steps::sound(dice);
        change(&mut input);
        cases.step(&input);
    }
}

/// 18 at each of the three cells, and at two of them.
const FAULTS: [Change; 14] = [
    |x| x.built[0] = 0,
    |x| x.built[1] = 0,
    |x| x.built[2] = 0,
    |x| (x.built[0], x.open[0]) = (0, 0),
    |x| (x.built[2], x.open[2]) = (0, 0),
    |x| x.open[0] = 2,
    |x| x.open[1] = 3,
    |x| x.open[2] = 255,
    |x| (x.built[2], x.open[2]) = (0x7F, 0x80),
    |x| (x.built[2], x.open[2]) = (0xFE, 0xFF),
    |x| (x.built[0], x.open[2]) = (0, 3),
    |x| (x.open[1], x.built[2]) = (2, 0),
    |x| (x.built, x.open) = ([0; 64], [255; 64]),
    // Sound up to cell 3, whatever comes after it.
    |x| (x.built[3..].fill(0), x.open[3..].fill(255)).1,
];

/// 18 together with 7, 8, 9 and 10.
const BESIDE: [Change; 12] = [
    |x| (x.built[1], x.row[0]) = (0, 1_000_001),
    |x| (x.open[1], x.road.v[2]) = (2, 1_001),
    |x| (x.open[1], x.state.held[0]) = (2, 8_001),
    |x| (x.open[1], x.state.steps) = (2, 1_439),
    |x| (x.open[1], x.state.steps) = (2, 1_440),
    |x| (x.built[2], x.state.steps) = (0, 1_441),
    |x| (x.open[0], x.state.steps) = (0, 1_440),
    |x| (x.built[2], x.row[2]) = (0, 781),
    |x| (x.open[2], x.row[2], x.state.queue[0]) = (2, 1_501, 5_000),
    |x| (x.row[2], x.open[2], x.state.steps) = (781, 2, 1_440),
    |x| (x.built[0], x.row) = (0, vec![0; 6]),
    |x| (x.open[2], x.road.n, x.row) = (2, 0, vec![0]),
];

/// Lanes closed. Cells 1 to 3 have capacities 2000, 600 and 800; 780 and 790
/// may pass the ramps; 1500 and 500 are the supplies that room allows.
const CLOSED: [Change; 22] = [
    |x| (x.built[0], x.open[0]) = (7, 3),
    |x| (x.built[1], x.open[1]) = (7, 5),
    |x| (x.built[2], x.open[2]) = (7, 1),
    |x| (x.built[0], x.open[0]) = (0xF0, 0x80),
    |x| (x.built[1], x.open[1]) = (0xFF, 0xAA),
    |x| (x.built[1], x.open[1]) = (0xFF, 0x7F),
    |x| (x.built, x.open) = ([0x3F; 64], [0x1F; 64]),
    // A third of 2000 is 666: a release of it passes, one more is 10.
    |x| (x.built[0], x.open[0], x.row[2]) = (7, 1, 666),
    |x| (x.built[0], x.open[0], x.row[2]) = (7, 4, 667),
    |x| (x.built[0], x.open[0], x.row[2]) = (7, 4, 781),
    // Half of 800 is 400.
    |x| (x.built[2], x.open[2], x.row[6]) = (0x81, 1, 400),
    |x| (x.built[2], x.open[2], x.row[6]) = (0x81, 1, 401),
    |x| (x.built[2], x.open[2], x.row[6]) = (3, 3, 500),
    // No lane open: nothing leaves and nothing enters, by a ramp neither.
    |x| x.open[0] = 0,
    |x| (x.open[0], x.row[2]) = (0, 0),
    |x| x.open[1] = 0,
    |x| x.open[2] = 0,
    |x| (x.open[2], x.row[6]) = (0, 0),
    |x| (x.open, x.row) = ([0; 64], vec![1_200, 80, 0, 0, 0, 90, 0]),
    |x| (x.open[0], x.row[2]) = (0, 1),
    // All lanes open, however many.
    |x| (x.built, x.open) = ([0xFF; 64], [0xFF; 64]),
    |x| (x.built[0], x.open[0], x.built[2], x.open[2]) = (0x10, 0x10, 0x0F, 0x0F),
];

/// The last of 64 cells, and n beyond its limits.
fn counts_of_cells(cases: &mut Cases) {
    let mut input = samples::first_step(&samples::even(64, 1));
    for (built, open) in [(1, 1), (3, 2), (0, 0), (1, 2), (1, 0)] {
        (input.built[63], input.open[63]) = (built, open);
        cases.step(&input);
    }
    (input.built, input.open) = ([0; 64], [0; 64]);
    for n in [0, 1, 65, 256 + 64] {
        input.road.n = n;
        cases.step(&input);
    }
}

/// A step whose releases mostly fit the lanes left open.
pub fn random(k: usize, dice: &mut Dice) -> StepInput {
    let style = STYLES[k % STYLES.len()];
    let mut input = steps::random_step(style, dice);
    let n = input.road.n;
    for i in 0..n {
        let built = dice.between(1, 255) as u8;
        let open = match dice.upto(3) {
            0 => built,
            _ => built & dice.bits() as u8,
        };
        (input.built[i], input.open[i]) = (built, open);
    }
    let narrow = lanes::narrowed(&input.road, &input.built, &input.open);
    input.row = trial::fitting_row(style, &narrow, [&input.state, &input.state], dice);
    match dice.upto(9) {
        0 => trial::spoil_some(&narrow, &input.state, &mut input.row, dice),
        1 => input.built[dice.upto(n as u64 - 1) as usize] = 0,
        2 => input.open[dice.upto(Road::MAX_CELLS as u64 - 1) as usize] = dice.bits() as u8,
        _ => (),
    }
    input
}
