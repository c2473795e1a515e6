//! The trials' own generator of numbers.

/// SplitMix64: a counter whose bits are mixed.
pub struct Dice(u64);

impl Dice {
    pub fn new(seed: u64) -> Dice {
        Dice(seed)
    }

    /// The next 64 bits.
    pub fn bits(&mut self) -> u64 {
        self.0 = self.0.wrapping_add(0x9E37_79B9_7F4A_7C15);
        let mut z = self.0;
        z = (z ^ (z >> 30)).wrapping_mul(0xBF58_476D_1CE4_E5B9);
        z = (z ^ (z >> 27)).wrapping_mul(0x94D0_49BB_1331_11EB);
        z ^ (z >> 31)
    }

    /// A number from 0 to `most`, which is below the greatest u64.
    pub fn upto(&mut self, most: u64) -> u64 {
        self.bits() % (most + 1)
    }

    /// A number from `least` to `most`.
    pub fn between(&mut self, least: u32, most: u32) -> u32 {
        least + self.upto(u64::from(most - least)) as u32
    }

    /// As `between`, for the thousandths of speed, wave and share.
    pub fn thousandths(&mut self, least: u16, most: u16) -> u16 {
        self.between(u32::from(least), u32::from(most)) as u16
    }

    /// True once in `count` times on average.
    pub fn one_in(&mut self, count: u64) -> bool {
        self.upto(count - 1) == 0
    }

    /// A number up to `most` of any size, often one of the bounds.
    pub fn any_size(&mut self, most: u64) -> u64 {
        match self.upto(9) {
            0 => 0,
            1 => most,
            _ => {
                let digits = u64::from(u64::BITS - most.leading_zeros());
                let bound = (1_u64 << self.upto(digits)) - 1;
                self.upto(bound.min(most))
            }
        }
    }

    /// One of these, which are at least one.
    pub fn pick<T: Copy>(&mut self, choices: &[T]) -> T {
        choices[self.upto(choices.len() as u64 - 1) as usize]
    }
}
