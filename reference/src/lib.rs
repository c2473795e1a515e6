//! A second implementation of the metered carriageway, for comparison.
//!
//! It is written from the scope document and its requests alone. Clarity comes before speed.

#![forbid(unsafe_code)]
#![deny(missing_docs)]

pub mod answer;
pub mod as_text;
pub mod draft;
pub mod fill;
pub mod join;
pub mod judge;
pub mod lanes;
pub mod lanes_text;
pub mod laws;
pub mod limits;
pub mod load;
pub mod longest;
pub mod many;
pub mod meter;
pub mod model;
pub mod onward;
pub mod print;
pub mod put;
pub mod record;
pub mod refusals;
pub mod run;
pub mod step;
pub mod street;
pub mod text;
pub mod wanted;
pub mod weigh;
pub mod write;
