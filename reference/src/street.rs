//! Several ramps on different roads feed from one street, refusal 24.

use crate::model::Road;
use crate::refusals;

/// Most ramps of a street.
pub const MAX_RAMPS: usize = 8;

/// Grants each ramp its release in a step; the answer is 0 or the refusal, which leaves
/// the grants unchanged.
pub fn grant(limit: u32, guarantees: &[u32], wishes: &[u32], grants: &mut [u32]) -> u32 {
    if !fits(limit, guarantees, wishes, grants.len()) {
        return refusals::STREET_INPUT;
    }
    let mut remains = limit;
    // What is sure.
    for ramp in 0..grants.len() {
        grants[ramp] = wishes[ramp].min(guarantees[ramp]);
        remains -= grants[ramp];
    }
    // What remains, in ramp order.
    for ramp in 0..grants.len() {
        let more = remains.min(wishes[ramp] - grants[ramp]);
        grants[ramp] += more;
        remains -= more;
    }
    0
}

/// Not refused: 1 to 8 ramps, lists of one length, numbers up to 1,000,000, and
/// guarantees that together are within the limit.
fn fits(limit: u32, guarantees: &[u32], wishes: &[u32], ramps: usize) -> bool {
    let mut numbers = guarantees.iter().chain(wishes).chain([&limit]);
    let together: u64 = guarantees.iter().map(|&x| u64::from(x)).sum();
    (1..=MAX_RAMPS).contains(&ramps)
        && guarantees.len() == ramps
        && wishes.len() == ramps
        && numbers.all(|&x| x <= Road::MAX_RATE)
        && together <= u64::from(limit)
}
