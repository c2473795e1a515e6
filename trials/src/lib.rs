//! The trials' cases, and the comparison of a program with the reference. Neither needs the proved engine.

#![forbid(unsafe_code)]

pub mod cases;
pub mod compare;
