//! Part of group 7: the wish of a meter law and its release, at every edge.

use super::case::{LawInput, LeafInput};
use super::dice::Dice;
use super::list::Cases;

/// Laws whose numbers have any bits, and laws of common numbers.
const ANY_BITS: usize = 300;
const COMMON: usize = 400;

/// Numbers at the edges of the format and of the releases.
const NUMBERS: [f64; 32] = [
    0.0,
    -0.0,
    5e-324,
    -5e-324,
    f64::MIN_POSITIVE,
    1e-300,
    0.1,
    0.3,
    0.5,
    0.999_999_999_999_999_9,
    1.0,
    1.000_000_000_000_000_2,
    1.5,
    -1.0,
    -0.5,
    2.999_999_999_999_999_6,
    3.0,
    999.75,
    999_999.999_999_999_9,
    1_000_000.0,
    1_000_000.000_000_000_1,
    -1_000_000.0,
    4_294_967_295.0,
    4_294_967_295.5,
    4_294_967_296.0,
    9_007_199_254_740_993.0,
    1e300,
    f64::MAX,
    f64::MIN,
    f64::INFINITY,
    f64::NEG_INFINITY,
    f64::NAN,
];

const CAPS: [u32; 6] = [0, 1, 3, 1_000, 1_000_000, u32::MAX];

pub fn add(cases: &mut Cases) {
    let mut dice = Dice::new(7);
    fixed(cases);
    kinds(cases);
    alinea(cases, &mut dice);
    rounding(cases);
    demand_capacity(cases);
    for _ in 0..ANY_BITS {
        cases.leaf(any_bits(&mut dice));
    }
    for _ in 0..COMMON {
        cases.leaf(common(&mut dice));
    }
}

fn leaf(kind: u32, numbers: [f64; 3], counts: [u32; 3], cap: u32) -> LeafInput {
    let [last, entered, held] = counts;
    LeafInput {
        law: LawInput::new(kind, numbers),
        last,
        entered,
        held,
        cap,
    }
}

/// Each number as a rate, under several caps. The other numbers are ignored.
fn fixed(cases: &mut Cases) {
    for rate in NUMBERS {
        for cap in CAPS {
            cases.leaf(leaf(0, [rate, f64::NAN, f64::INFINITY], [7, 8, 9], cap));
        }
    }
}

/// Other kinds are the fixed law; NaN with a sign and a load of its own.
fn kinds(cases: &mut Cases) {
    for kind in [3, 4, 255, 256, 257, 258, 1 << 16, 1 << 31, u32::MAX] {
        cases.leaf(leaf(kind, [12.5, 99.0, 77.0], [5, 6, 7], 1_000));
    }
    for bits in [0xfff8_0000_0000_0000, 0x7ff0_0000_0000_0001, u64::MAX] {
        for kind in 0..3 {
            let mut input = leaf(kind, [1.0, 2.0, 3.0], [5, 6, 7], 1_000);
            input.law.bits[0] = bits;
            input.held = 2;
            cases.leaf(input);
        }
    }
}

/// Gains and targets at the edges, with random counts.
fn alinea(cases: &mut Cases, dice: &mut Dice) {
    for (k, gain) in NUMBERS.into_iter().enumerate() {
        for target in NUMBERS.iter().skip(k % 3).step_by(3) {
            let last = dice.any_size(1_000_000) as u32;
            let held = dice.any_size(1_000_000) as u32;
            let cap = dice.pick(&CAPS);
            cases.leaf(leaf(1, [gain, *target, f64::NAN], [last, 999, held], cap));
        }
    }
}

/// Where each rounding shows: in the difference, the product, the sum; where a
/// fused product and sum or a product before the difference would differ.
fn rounding(cases: &mut Cases) {
    for (gain, target, last, held) in [
        // 0.1 x 3 is above 0.3; 0.1 x 10 is 1, and 1 less it 0 and not below.
        (0.1, 3.0, 0, 0),
        (0.1, 10.0, 0, 0),
        (0.1, 0.0, 1, 10),
        (0.1, 0.0, 0, 10),
        (0.7, 0.0, 7, 10),
        (1.1, 0.0, 11, 10),
        (0.3, 0.0, 3, 10),
        // A product of just below a whole number, and the sum's half unit.
        (0.3, 9.999_999_999_999_998, 0, 0),
        (4.440_892_098_500_626e-16, 0.5, 1, 0),
        (2.220_446_049_250_313e-16, 0.5, 1, 0),
        (2.220_446_049_250_313e-16, 1.5, 1, 0),
        (1.110_223_024_625_156_5e-16, 1.0, 1, 0),
        (1.110_223_024_625_156_5e-16, 3.0, 1, 0),
        // The difference's half unit: 2 to the 53rd and an odd count.
        (1.0, 9_007_199_254_740_992.0, 0, 1),
        (-1.0, 9_007_199_254_740_992.0, 0, 3),
        (1.0, 0.1, 0, 1),
        (10.0, 0.1, 9, 1),
        (3.0, 0.1, 3, 1),
        // Over the greatest number and under the least.
        (1e300, 1e10, 0, 0),
        (-1e300, 1e10, 0, 0),
        (1e308, 1e300, 0, 0),
        (5e-324, 0.25, 0, 0),
        (5e-324, 0.75, 0, 0),
        (-5e-324, 0.25, 0, 0),
        (1e-200, 1e-200, 4, 0),
        // Zeros of either sign.
        (0.0, -5.0, 0, 0),
        (-0.0, 5.0, 0, 0),
        (-0.0, -5.0, 0, 0),
        (1.0, 5.0, 0, 5),
        (-1.0, 5.0, 0, 5),
        (0.0, 1e308, 17, 3),
    ] {
        for cap in [1, 1_000_000] {
            cases.leaf(leaf(1, [gain, target, 0.0], [last, 0, held], cap));
        }
    }
}

/// Held at the critical count, next to it and by one unit from it; entries
/// below, at and above the capacity.
fn demand_capacity(cases: &mut Cases) {
    for critical in [499.0, 499.999_999_999_999_94, 500.0, 500.000_000_000_000_06] {
        for held in [499, 500, 501] {
            cases.leaf(leaf(2, [1_200.5, critical, 30.25], [9, 700, held], 1_000));
        }
    }
    for number in NUMBERS {
        cases.leaf(leaf(2, [number, 500.0, 30.0], [9, 700, 400], 1_000_000));
        cases.leaf(leaf(2, [900.0, number, 30.0], [9, 700, 1], 1_000_000));
        cases.leaf(leaf(2, [900.0, 500.0, number], [9, 700, 501], 1_000_000));
        // Ignored where the other branch is taken.
        cases.leaf(leaf(2, [number, 500.0, 30.0], [9, 700, 501], 1_000_000));
        cases.leaf(leaf(2, [900.0, 500.0, number], [9, 700, 500], 1_000_000));
    }
    for entered in [0, 899, 900, 901, 902, 1_000_000, u32::MAX] {
        for capacity in [900.0, 900.5] {
            cases.leaf(leaf(2, [capacity, 500.0, 30.0], [9, entered, 400], 1_000));
        }
    }
}

/// Any bits in the numbers, any counts.
pub fn any_bits(dice: &mut Dice) -> LeafInput {
    LeafInput {
        law: LawInput {
            kind: dice.upto(3) as u32,
            bits: [dice.bits(), dice.bits(), dice.bits()],
        },
        last: dice.any_size(u64::from(u32::MAX)) as u32,
        entered: dice.any_size(u64::from(u32::MAX)) as u32,
        held: dice.any_size(u64::from(u32::MAX)) as u32,
        cap: dice.any_size(u64::from(u32::MAX)) as u32,
    }
}

/// Numbers as on a road, with fractions that no float holds exactly.
pub fn common(dice: &mut Dice) -> LeafInput {
    let mut number = |most: u64| dice.upto(most * 1_000) as f64 / 1_000.0;
    let numbers = if number(1) < 0.5 {
        [number(2) - 0.5, number(1_000_000) - 100_000.0, 0.0]
    } else {
        [number(1_000_000), number(1_000_000), number(1_000_000)]
    };
    let kind = dice.upto(2) as u32;
    let [last, entered, held] = [(); 3].map(|()| dice.any_size(1_000_000) as u32);
    let cap = dice.pick(&[1_000_000, 1_000_000, 30_000, 2_000]);
    leaf(kind, numbers, [last, entered, held], cap)
}
