//! One case run through both implementations.

use crate::by_engine::Engine;
use crate::by_reference::Reference;
use crate::freeway::Freeway;
use crate::whole::{self, Difference, Whole};
use std::fmt;
use std::panic::{self, AssertUnwindSafe};
use trials::cases::case::Case;

/// How two answers fail to be the same.
#[derive(Debug)]
pub enum Failure {
    /// One of them panicked.
    Broken(&'static str),
    Different(Vec<Difference>),
}

/// The refusal's number that both give, or what failed.
pub fn compare(case: &Case) -> Result<u64, Failure> {
    let engine = answer("the engine", &Engine, case)?;
    let reference = answer("the reference", &Reference, case)?;
    match engine == reference {
        true => Ok(engine.number()),
        false => Err(Failure::Different(engine.differences(&reference))),
    }
}

fn answer(name: &'static str, freeway: &impl Freeway, case: &Case) -> Result<Whole, Failure> {
    let answer = panic::catch_unwind(AssertUnwindSafe(|| whole::answer(freeway, case)));
    answer.map_err(|_| Failure::Broken(name))
}

impl fmt::Display for Failure {
    fn fmt(&self, out: &mut fmt::Formatter) -> fmt::Result {
        match self {
            Failure::Broken(name) => writeln!(out, "  {name} panicked"),
            Failure::Different(differences) => differences
                .iter()
                .try_for_each(|difference| writeln!(out, "  {difference}")),
        }
    }
}
