//! A stated load for trials: arrivals from a seed and a peak, refusal 25.

use crate::model::Road;
use crate::refusals;

/// The answer of loading.
#[derive(Clone, Copy, Debug, PartialEq, Eq)]
pub struct Loaded {
    /// 0, or the refusal.
    pub number: u32,
    /// The generator's last number: the seed after a refusal or for an empty list.
    pub last: u32,
}

/// Fills a list with arrivals. A refusal leaves it unchanged.
pub fn load(seed: u32, peak: u32, list: &mut [u32]) -> Loaded {
    if peak > Road::MAX_RATE {
        return Loaded {
            number: refusals::PEAK,
            last: seed,
        };
    }
    let mut last = seed;
    for arrival in list {
        last = next(last);
        *arrival = arrival_of(last, peak);
    }
    Loaded { number: 0, last }
}

/// The generator's number after this one: the remainder by 2 to the 32nd.
pub fn next(number: u32) -> u32 {
    ((1_664_525 * u64::from(number) + 1_013_904_223) % (1 << 32)) as u32
}

/// The arrival that a number gives, from its upper 16 bits.
pub fn arrival_of(number: u32, peak: u32) -> u32 {
    let upper = u64::from(number / 65_536);
    (upper * (u64::from(peak) + 1) / 65_536) as u32
}
