//! Cases without end. Each comes from the seed and its number alone.

use super::all_cases;
use super::altered;
use super::case::Case;
use super::dice::Dice;
use super::random;

/// Longer records are not altered.
const MAX_BYTES: usize = 1_500;

pub struct Source {
    seed: u64,
    /// Cases to alter.
    stock: Vec<Case>,
}

impl Source {
    /// The short ones of `all_cases` are the stock.
    pub fn new(seed: u64) -> Source {
        let stock = all_cases().into_iter().filter(is_short).collect();
        Source { seed, stock }
    }

    /// One case in three is random; the others are altered in one to three ways,
    /// a random one or one of the stock.
    pub fn case(&self, number: u64) -> Case {
        let mut dice = Dice::new(Dice::new(self.seed).bits().wrapping_add(number));
        let mut case = match number % 3 {
            0 => return random::case(&mut dice),
            1 => random::case(&mut dice),
            _ => self.any_of_stock(&mut dice),
        };
        for _ in 0..dice.pick(&[1, 1, 1, 2, 3]) {
            altered::alter(&mut case, &mut dice);
        }
        case
    }

    fn any_of_stock(&self, dice: &mut Dice) -> Case {
        let last = self.stock.len() as u64 - 1;
        self.stock[dice.upto(last) as usize].clone()
    }
}

fn is_short(case: &Case) -> bool {
    let bytes = match case {
        Case::Read { record } | Case::Run { record, .. } | Case::Judge { record, .. } => {
            record.len()
        }
        Case::Fill(input) => input.record.len(),
        Case::Weigh(input) => input.record.len(),
        Case::Row { bytes, .. } | Case::Rows { bytes, .. } => bytes.len(),
        Case::Write(input) => 4 * input.rows.len(),
        Case::Step(_) | Case::Present(_) | Case::Leaf(_) | Case::Capacity { .. } => 0,
        Case::Load(input) => 4 * input.length,
        Case::Wanted(input) => 4 * input.arrivals.len(),
        Case::Grant(input) => 4 * input.wishes.len(),
        Case::Put(input) => input.record.len(),
        Case::Within(input) => input.record.len(),
        Case::On(input) => input.record.len(),
        Case::Many(input) => input.record.len() + 4 * input.arrivals.len(),
        Case::Join(input) => input.upstream.len() + input.downstream.len(),
    };
    bytes <= MAX_BYTES
}
