//! The engine's answers as results: a refusal by its name, with the words of the operation that was called.
use crate::refusal::{Operation, Refusal, Where, REFUSALS, ROWS};
use crate::types::{
    Ended, Filled, Granted, Loaded, Longest, Many, Reading, Released, Stepped, Study, Tallied,
    Wanted, Weighed, Written,
};
use std::fmt;

impl Refusal {
    /// The refusal with this number, from 1 on; [`Refusal::Unknown`] if there is none.
    pub fn from_number(number: u64) -> Refusal {
        let index = usize::try_from(number).ok().and_then(|n| n.checked_sub(1));
        let named = index.and_then(|index| REFUSALS.get(index));
        named.copied().unwrap_or(Refusal::Unknown(number))
    }

    /// Its number in docs/MODEL.md and in the boundary.
    ///
    /// ```
    /// use nobyaluk::Refusal;
    /// assert_eq!(Refusal::ReleaseAboveQueue.number(), 9);
    /// assert_eq!(Refusal::from_number(9), Refusal::ReleaseAboveQueue);
    /// ```
    pub fn number(self) -> u64 {
        match (self, REFUSALS.iter().position(|&one| one == self)) {
            (Refusal::Unknown(number), _) => number,
            (_, index) => index.map_or(0, |index| index as u64 + 1),
        }
    }

    /// What was refused, in the words of an operation. If that operation never gives this refusal, in the words of the first one that does.
    pub fn words(self, operation: Operation) -> &'static str {
        self.meaning(operation).1
    }

    /// The meaning of its place, and its words, if an operation gives it.
    fn meaning(self, operation: Operation) -> (Where, &'static str) {
        let rows = || ROWS.iter().filter(|row| row.0 == self);
        rows()
            .find(|row| row.1.contains(&operation))
            .or_else(|| rows().next())
            .map_or((Where::None, "not in the table of refusals"), |row| {
                (row.2, row.3)
            })
    }
}

/// A refused call: the refusal, where it is, and what was called. Its message is the same in all programming languages.
///
/// ```
/// use nobyaluk::Refusal;
/// let refused = nobyaluk::run(b"no record", &[]).unwrap_err();
/// assert_eq!(refused.refusal, Refusal::Length);
/// assert!(refused.words().starts_with("fewer than 16 bytes"));
/// ```
#[derive(Clone, Copy, Debug, PartialEq, Eq)]
#[non_exhaustive]
pub struct Refused {
    /// Why.
    pub refusal: Refusal,
    /// What was called.
    pub operation: Operation,
    /// The step that was refused, counted from 0; none if the answer has no step, as in stepping.
    pub step: Option<u64>,
    /// A cell counted from 1, the gate (0) or a step, as the refusal says; 0 if it names none.
    pub place: u64,
}

impl Refused {
    /// The refusal's number.
    pub fn number(&self) -> u64 {
        self.refusal.number()
    }

    /// What was refused, in the words of the operation that was called.
    pub fn words(&self) -> &'static str {
        self.refusal.words(self.operation)
    }
}

impl fmt::Display for Refused {
    fn fmt(&self, f: &mut fmt::Formatter<'_>) -> fmt::Result {
        let (kind, words) = self.refusal.meaning(self.operation);
        write!(f, "refused {}: ", self.number())?;
        if let (Where::StepAndCell | Where::StepAndPlace, Some(step)) = (kind, self.step) {
            write!(f, "step {step}, ")?;
        }
        match (kind, self.place) {
            (Where::None, _) => {}
            (Where::Step, step) => write!(f, "step {step}: ")?,
            (Where::List, list) => write!(f, "list {list}: ")?,
            (Where::Place | Where::StepAndPlace, 0) => f.write_str("gate: ")?,
            (_, cell) => write!(f, "cell {cell}: ")?,
        }
        f.write_str(words)
    }
}

impl std::error::Error for Refused {}

/// The engine's own answer, refused or not, with what was called.
///
/// ```
/// use nobyaluk::{lent, Refusal};
/// let record = std::fs::read("../../examples/refused-09-release-above-queue.rec")?;
/// let answer = lent::run(&record, &[], &mut [0; 9]);
/// assert_eq!(answer.value.state.done, 1); // the state before the refused step
/// assert_eq!(answer.into_result().unwrap_err().refusal, Refusal::ReleaseAboveQueue);
/// # Ok::<(), Box<dyn std::error::Error>>(())
/// ```
#[must_use = "it may be a refusal: `into_result`"]
#[derive(Clone, Copy, Debug, PartialEq, Eq)]
pub struct Answer<T> {
    /// What was called.
    pub operation: Operation,
    /// What the engine answered. Its `number` is 0 if nothing was refused.
    pub value: T,
}

impl<T: Refusable> Answer<T> {
    pub(crate) fn new(operation: Operation, value: T) -> Self {
        Answer { operation, value }
    }

    /// The value, or the refusal.
    pub fn into_result(self) -> Result<T, Refused> {
        match self.value.fault() {
            (0, ..) => Ok(self.value),
            (number, step, place) => Err(Refused {
                refusal: Refusal::from_number(number),
                operation: self.operation,
                step,
                place,
            }),
        }
    }
}

/// Answers of the engine, each of which has the number of a refusal.
pub trait Refusable: sealed::Sealed {
    /// The refusal's number (0 for none), its step if the answer has one, and its place.
    fn fault(&self) -> (u64, Option<u64>, u64);
}

mod sealed {
    /// No other crate has answers of the engine.
    pub trait Sealed {}
}

macro_rules! refusable {
    ($($type:ty: $self:ident => $fault:expr;)*) => {$(
        impl sealed::Sealed for $type {}
        impl Refusable for $type {
            fn fault(&$self) -> (u64, Option<u64>, u64) {
                $fault
            }
        }
    )*};
}

refusable! {
    Reading: self => (self.number, None, self.place);
    Ended: self => (self.number, Some(self.step), self.place);
    Weighed: self => self.ended.fault();
    Longest: self => self.ended.fault();
    Tallied: self => self.longest.fault();
    Filled: self => self.longest.fault();
    Stepped: self => (self.number, None, self.place);
    Written: self => (self.number, None, self.place);
    Loaded: self => (self.number, None, 0);
    Wanted: self => (self.number, None, 0);
    Granted: self => (self.number, None, 0);
    Released: self => (self.number, None, self.place);
    Study: self => (self.number, Some(self.step), self.place);
    Many: self => (self.number, None, self.place);
}

#[cfg(test)]
mod tests {
    use super::*;

    fn told(refusal: Refusal, operation: Operation, step: Option<u64>, place: u64) -> String {
        Refused {
            refusal,
            operation,
            step,
            place,
        }
        .to_string()
    }

    #[test]
    fn every_refusal_has_its_number_and_words() {
        for (index, &refusal) in REFUSALS.iter().enumerate() {
            let number = index as u64 + 1;
            assert_eq!(refusal.number(), number);
            assert_eq!(Refusal::from_number(number), refusal);
        }
        for &(refusal, operations, _, words) in &ROWS {
            for &operation in operations {
                assert_eq!(refusal.words(operation), words);
            }
        }
        for number in [0, 200, u64::MAX] {
            assert_eq!(Refusal::from_number(number), Refusal::Unknown(number));
            assert_eq!(Refusal::Unknown(number).number(), number);
        }
    }

    #[test]
    fn a_message_says_where() {
        use Operation::{Judge, Put, Read, Run, Step};
        let supply = "a release above its cell's supply";
        let of = Refusal::ReleaseAboveSupply;
        assert_eq!(
            told(of, Run, Some(3), 2),
            format!("refused 10: step 3, cell 2: {supply}")
        );
        assert_eq!(
            told(of, Step, None, 2),
            format!("refused 10: cell 2: {supply}")
        );
        assert_eq!(
            told(Refusal::EnteringAboveRoom, Judge, Some(1), 0),
            "refused 14: step 1, gate: an outflow that lets too much into the next cell"
        );
        assert_eq!(
            told(Refusal::Version, Read, None, 0),
            "refused 2: a version other than 1 or 2"
        );
        let rates = "refused 6: step 7: a row's number above 1,000,000, or one other than 0 for a cell without a ramp";
        assert_eq!(told(Refusal::Rates, Read, None, 7), rates);
        assert!(
            told(Refusal::Rates, Put, None, 7).starts_with("refused 6: step 7: a step from T on")
        );
        assert_eq!(
            told(Refusal::Unknown(99), Run, Some(0), 0),
            "refused 99: not in the table of refusals"
        );
    }
}
