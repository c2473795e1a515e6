//! Meter laws: what a ramp's meter wishes to release, and the release of a wish.

/// What a ramp's meter follows.
#[derive(Clone, Copy, Debug, PartialEq)]
pub enum Law {
    /// The same wish in every step.
    Fixed {
        /// In parts a step.
        rate: f64,
    },
    /// Feedback on the held count, which replaces occupancy.
    Alinea {
        /// The change of the release for each part below the target, a step.
        gain: f64,
        /// What the cell is to hold, in parts.
        target: f64,
    },
    /// Up to the critical count what is left of the capacity, above it the least rate.
    DemandCapacity {
        /// In parts a step.
        capacity: f64,
        /// In parts.
        critical: f64,
        /// In parts a step.
        least: f64,
    },
}

impl Law {
    /// The test of refusal 16: all of its numbers are finite.
    pub fn is_finite(self) -> bool {
        match self {
            Law::Fixed { rate } => rate.is_finite(),
            Law::Alinea { gain, target } => gain.is_finite() && target.is_finite(),
            Law::DemandCapacity {
                capacity,
                critical,
                least,
            } => capacity.is_finite() && critical.is_finite() && least.is_finite(),
        }
    }

    /// The wish in a step, given the last step's release, its entry from upstream and
    /// what the cell holds. Each operation rounds once; none is fused.
    pub fn wish(self, last: u32, entered: u32, held: u32) -> f64 {
        let (last, entered, held) = (f64::from(last), f64::from(entered), f64::from(held));
        match self {
            Law::Fixed { rate } => rate,
            Law::Alinea { gain, target } => {
                let missing = target - held;
                let change = gain * missing;
                last + change
            }
            Law::DemandCapacity {
                capacity,
                critical,
                least,
            } => {
                if held <= critical {
                    capacity - entered
                } else {
                    least
                }
            }
        }
    }
}

/// The release of a wish: the greatest whole number not above it, at most the
/// cap; 0 for a wish that is negative or not a number.
pub fn release(wish: f64, cap: u32) -> u32 {
    if wish.is_nan() || wish < 0.0 {
        return 0;
    }
    if wish >= f64::from(cap) {
        return cap;
    }
    // Below the cap the whole number fits 32 bits.
    wish.floor() as u32
}
