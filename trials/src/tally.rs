//! The cases counted.

use crate::show;
use crate::trial::{self, Failure};
use std::collections::BTreeMap;
use trials::cases::case::Case;

#[derive(Default)]
pub struct Tally {
    passed: u64,
    failed: u64,
    /// How often each kind gave each refusal, 0 for none.
    seen: BTreeMap<(&'static str, u64), u64>,
}

impl Tally {
    /// Runs a case through both implementations.
    pub fn add(&mut self, case: &Case) -> Result<(), Failure> {
        let compared = trial::compare(case);
        match &compared {
            Ok(number) => {
                self.passed += 1;
                *self.seen.entry((show::kind(case), *number)).or_default() += 1;
            }
            Err(_) => self.failed += 1,
        }
        compared.map(|_| ())
    }

    pub fn failed(&self) -> u64 {
        self.failed
    }

    /// One line per kind: its refusals, each with how often it occurred.
    pub fn table(&self) -> String {
        let mut lines: BTreeMap<&str, String> = BTreeMap::new();
        for ((kind, number), count) in &self.seen {
            let line = lines.entry(kind).or_insert(format!("{kind:12}"));
            line.push_str(&format!(" {number}: {count}"));
        }
        lines.into_values().map(|line| line + "\n").collect()
    }

    pub fn verdict(&self) -> String {
        format!("{} passed, {} failed", self.passed, self.failed)
    }
}
