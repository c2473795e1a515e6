//! Safe calls of the proved freeway engine.
//!
//! Counts are in parts, thousandths of a vehicle; rates in parts a step; times in part-steps; speeds, waves and shares in thousandths.
//!
//! Every call that can be refused returns a [`Result`]. Its error is a [`Refused`] with the [`Refusal`], the step and the place; its
//! message says all of it in words. No call panics, whatever it is given, as long as there is memory for the list that [`load`] is asked for.
//!
//! | operation | call |
//! |---|---|
//! | reading, for a caller with its own limits | [`read`], [`read_within`] |
//! | running, with weights, with the longest queues | [`run`], [`run_weighted`], [`run_longest`] |
//! | judging, with the states | [`judge`], [`history`] |
//! | filling by meter laws, with the longest queues | [`fill`], [`fill_longest`] |
//! | going on from a state: running, judging, judging with the states, filling | [`run_on`], [`judge_on`], [`history_on`], [`fill_on`] |
//! | many tables of arrivals, run or filled | [`run_many`], [`fill_many`] |
//! | writing; rows | [`write`](fn@write); [`rows`], [`row`] |
//! | a stated load | [`load`] |
//! | releases for a wanted queue | [`wanted`], [`put_wanted`] |
//! | ramps of one street; a release put | [`grant`]; [`put`] |
//! | two roads joined | [`join`] |
//! | stepping | [`step`] |
//!
//! The module [`lent`] has the same operations on lists of the caller, with the engine's own answers: nothing is allocated, and after a broken rule
//! the answer has the state before that step.
//!
//! The rules of one place never refuse: [`demand`], [`gate_demand`], [`supply`], [`room`], [`onward`], [`entering`], [`outflow`],
//! [`outflow_by_halves`], [`open_capacity`], [`wish`], [`wish_of_kind`] and [`release`]. Nor do the counts of a state: [`present`], [`on_road`],
//! [`at_ramps`], [`weighted`], [`exits`], [`total`], [`vehicle_seconds`].
//!
//! ```
//! use nobyaluk::Refusal;
//! let record = std::fs::read("../../examples/printed-run.rec")?;
//! let run = nobyaluk::run(&record, &[])?;
//! assert_eq!((run.ended.total, run.ended.exits), (33_098, 3_701));
//!
//! // a plan that holds everyone back obeys the rules, and costs more
//! let plan = vec![0; run.outflow.len()];
//! assert_eq!(nobyaluk::judge(&record, &[], &plan)?.total, 40_500);
//!
//! // a plan that lets too much in is refused
//! let mut plan = run.outflow.clone();
//! plan[4] = 934;
//! let refused = nobyaluk::judge(&record, &[], &plan).unwrap_err();
//! assert_eq!(refused.refusal, Refusal::EnteringAboveRoom);
//! assert_eq!(refused.to_string(), "refused 14: step 1, cell 1: an outflow that lets too much into the next cell");
//!
//! // a road edited, and written again
//! let read = nobyaluk::read(&record)?;
//! let mut road = read.road;
//! road.capacity[1] = 1_200;
//! let rows = nobyaluk::rows(&record)?;
//! let wider = nobyaluk::write(road, read.steps as usize, read.state.start(), &rows)?;
//! assert!(nobyaluk::run(&wider, &[])?.ended.total < run.ended.total);
//! # Ok::<(), Box<dyn std::error::Error>>(())
//! ```
#![deny(missing_docs, clippy::undocumented_unsafe_blocks)]

mod calls;
pub mod lent;
mod raw;
mod refusal;
mod refused;
mod rules;
mod types;
pub use calls::*;
pub use refusal::{Operation, Refusal};
pub use refused::{Answer, Refusable, Refused};
pub use rules::*;
pub use types::*;
