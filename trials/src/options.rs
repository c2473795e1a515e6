//! What the program is asked to do.

use std::collections::hash_map::RandomState;
use std::hash::{BuildHasher, Hasher};

pub const USAGE: &str = "usage:
  trials [--count N]
  trials --hand
  trials --seed S [--count N]
  trials --replay FILE
  trials --files DIR
";

/// Cases of a seed.
const COUNT: u64 = 500_000;

#[derive(Debug, PartialEq, Eq)]
pub enum Options {
    All { count: u64 },
    Hand,
    Seed { seed: u64, count: u64 },
    Replay { file: String },
    Files { folder: String },
}

impl Options {
    /// The words of a command line; none if they make no sense.
    pub fn of(words: &[String]) -> Option<Options> {
        let words: Vec<&str> = words.iter().map(String::as_str).collect();
        match words[..] {
            [] => Some(Options::All { count: COUNT }),
            ["--hand"] => Some(Options::Hand),
            ["--count", count] => Some(Options::All {
                count: count.parse().ok()?,
            }),
            ["--seed", seed] => Some(Options::Seed {
                seed: seed.parse().ok()?,
                count: COUNT,
            }),
            ["--seed", seed, "--count", count] | ["--count", count, "--seed", seed] => {
                Some(Options::Seed {
                    seed: seed.parse().ok()?,
                    count: count.parse().ok()?,
                })
            }
            ["--replay", file] => Some(Options::Replay {
                file: file.to_string(),
            }),
            ["--files", folder] => Some(Options::Files {
                folder: folder.to_string(),
            }),
            _ => None,
        }
    }
}

/// A seed that nobody chose.
pub fn new_seed() -> u64 {
    RandomState::new().build_hasher().finish()
}
