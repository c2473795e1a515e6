//! Arrivals from a seed and a peak.

use crate::support::LENT;
use reference::draft::{CellDraft, Draft};
use reference::fill;
use reference::load::{arrival_of, load, next, Loaded};
use reference::meter::Law;
use reference::model::Road;
use trials::cases::dice::Dice;

fn loaded(seed: u32, peak: u32, count: usize) -> (Loaded, Vec<u32>) {
    let mut list = vec![LENT; count];
    let answer = load(seed, peak, &mut list);
    (answer, list)
}

fn last(number: u32) -> Loaded {
    Loaded {
        number: 0,
        last: number,
    }
}

#[test]
fn the_first_ten_of_seed_0_and_peak_1000() {
    let (answer, list) = loaded(0, 1_000, 10);
    assert_eq!(list, [236, 278, 820, 668, 384, 622, 344, 640, 508, 582]);
    assert_eq!(answer, last(2_498_801_434));
}

/// 1,013,904,223 is 15,470 x 65,536 + 62,303, and 15,470 x 1,001 ÷ 65,536 is
/// 236 and 18,974 over. The second number on paper: 1,664,525 x 1,013,904,223 +
/// 1,013,904,223 is 392,941 times 2 to the 32nd and 1,196,435,762 over.
#[test]
fn two_numbers_on_paper() {
    assert_eq!(
        (next(0), next(1_013_904_223)),
        (1_013_904_223, 1_196_435_762)
    );
    assert_eq!(15_470 * 65_536 + 62_303, 1_013_904_223);
    assert_eq!(236 * 65_536 + 18_974, 15_470 * 1_001);
    assert_eq!(arrival_of(1_013_904_223, 1_000), 236);
}

#[test]
fn the_number_wraps() {
    // All bits set is -1: 1,013,904,223 - 1,664,525.
    assert_eq!(next(u32::MAX), 1_012_239_698);
    // The product of 2 to the 31st and an odd number is 2 to the 31st.
    assert_eq!(next(1 << 31), (1 << 31) + 1_013_904_223);
}

#[test]
fn only_the_upper_16_bits_count_and_reach_the_peak() {
    for peak in [0, 1, 255, 65_535, 65_536, 1_000_000] {
        assert_eq!(arrival_of(0, peak), 0);
        assert_eq!(arrival_of(65_535, peak), 0);
        let most = peak - peak / 65_536;
        assert_eq!(arrival_of(u32::MAX, peak), most);
        assert_eq!(arrival_of(u32::MAX - 65_535, peak), most);
    }
    // 65,535 x 1,000,001 ÷ 65,536 is 999,985 and 48,575 over.
    assert_eq!(arrival_of(u32::MAX, 1_000_000), 999_985);
    // A half of 65,536: (peak + 1) ÷ 2.
    assert_eq!(arrival_of(1 << 31, 7), 4);
    assert_eq!(arrival_of((1 << 31) - 1, 7), 3);
}

#[test]
fn an_empty_list_gives_the_seed() {
    for seed in [0, 1, 77, u32::MAX] {
        assert_eq!(loaded(seed, 1_000, 0).0, last(seed));
    }
}

#[test]
fn refusal_25_leaves_the_list_and_gives_the_seed() {
    assert_eq!(loaded(5, 1_000_000, 3).0.number, 0);
    for peak in [1_000_001, u32::MAX] {
        for count in [0, 3] {
            let refused = Loaded {
                number: 25,
                last: 5,
            };
            assert_eq!(loaded(5, peak, count), (refused, vec![LENT; count]));
        }
    }
}

/// The rest of a list is the load of the last number before it.
#[test]
fn a_list_goes_on_where_another_stopped() {
    let mut dice = Dice::new(25);
    for _ in 0..200 {
        let seed = dice.bits() as u32;
        let peak = dice.any_size(1_000_000) as u32;
        let (first, rest) = (dice.upto(40) as usize, dice.upto(40) as usize);
        let (whole, list) = loaded(seed, peak, first + rest);
        assert!(list.iter().all(|&arrival| arrival <= peak));
        let (part, before) = loaded(seed, peak, first);
        let (end, after) = loaded(part.last, peak, rest);
        assert_eq!((list, whole), ([before, after].concat(), end));
    }
}

/// The road of docs/SPEED.md, cell by cell.
fn stated_cell(i: usize, n: usize) -> CellDraft {
    let ramp = u16::from(i % 3 == 2);
    CellDraft {
        v: 900 + (37 * i % 101) as u16,
        w: 220 + (23 * i % 61) as u16,
        b: match (i == n, i % 4) {
            (true, _) => 0,
            (false, 0) => 850 + (37 * i % 101) as u16,
            (false, _) => 1_000,
        },
        ramp,
        jam: 120_000 + (7_919 * i % 20_001) as u32,
        capacity: match i % 6 {
            0 => 21_000,
            _ => 25_000,
        },
        held: 15_000,
        queue: 5_000 * u32::from(ramp),
    }
}

/// The record that docs/SPEED.md makes from seed 0, peak 40,000, n 6 and T 30.
#[test]
fn the_example_of_the_stated_load() {
    let (n, steps) = (6, 30);
    let cells: Vec<CellDraft> = (1..=n).map(|i| stated_cell(i, n)).collect();
    let (gate, arrivals) = loaded(0, 40_000, steps);
    let (second, at_two) = loaded(gate.last, 4_000, steps);
    let (_, at_five) = loaded(second.last, 4_000, steps);
    let mut rows = vec![vec![0; 1 + 2 * n]; steps];
    for (t, row) in rows.iter_mut().enumerate() {
        (row[0], row[3], row[9]) = (arrivals[t], at_two[t], at_five[t]);
    }
    let mut laws = [Law::Fixed { rate: 0.0 }; Road::MAX_CELLS];
    for (law, cell) in laws.iter_mut().zip(&cells) {
        let target = f64::from(1_000 * cell.capacity / u32::from(cell.v));
        *law = Law::Alinea { gain: 0.1, target };
    }
    let mut record = Draft::new((25_000, 10_000), cells, rows).encode();
    let mut list = vec![LENT; steps * (n + 1)];
    assert_eq!(fill::fill(&mut record, &laws, &[], &mut list).number, 0);
    let stored: &[u8] = include_bytes!("../../../examples/loaded.rec");
    assert!(record == stored);
}
