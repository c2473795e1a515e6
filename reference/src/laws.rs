//! The meters' laws as text that can be written by hand.
//!
//! One ramp a line; `#` starts a comment; the numbers are 64-bit floats.
//!
//! ```text
//! ramp CELL fixed RATE
//! ramp CELL alinea gain N target N
//! ramp CELL demand-capacity capacity N critical N least N
//! ```
//!
//! A ramp without a line has the fixed rate 0 and releases nothing.

use crate::fill::Laws;
use crate::meter::Law;
use crate::model::Road;
use crate::text::{self, TextError, Words};

/// A warning for each line of a sound text whose cell has no ramp on this road,
/// so that nothing follows its law.
pub fn unused(text: &str, road: &Road) -> Vec<TextError> {
    let cells = text::lines(text).filter_map(|mut words| {
        words.keyword("ramp").ok()?;
        let cell = words.number("the ramp's cell", Road::MAX_CELLS as u64);
        Some((cell.ok()? as usize, words))
    });
    cells
        .filter(|&(cell, _)| cell > road.n || road.ramp[cell - 1] == 0)
        .map(|(cell, words)| words.fault(format!("cell {cell} has no ramp: its law is not used")))
        .collect()
}

/// The laws that a text names.
pub fn laws_of(text: &str) -> Result<Laws, TextError> {
    let mut named = [None; Road::MAX_CELLS];
    for mut words in text::lines(text) {
        words.keyword("ramp")?;
        let cell = words.number("the ramp's cell", Road::MAX_CELLS as u64)? as usize;
        if cell == 0 {
            return words.error("there is no cell 0, only 1 to 64".to_string());
        }
        if named[cell - 1].is_some() {
            return words.error(format!("ramp {cell} is given twice"));
        }
        named[cell - 1] = Some(law(&mut words)?);
        words.end()?;
    }
    Ok(named.map(|law| law.unwrap_or(Law::Fixed { rate: 0.0 })))
}

/// A law by its name and numbers.
fn law(words: &mut Words) -> Result<Law, TextError> {
    match words.word("a law")? {
        "fixed" => Ok(Law::Fixed {
            rate: words.float("the rate")?,
        }),
        "alinea" => Ok(Law::Alinea {
            gain: named(words, "gain")?,
            target: named(words, "target")?,
        }),
        "demand-capacity" => Ok(Law::DemandCapacity {
            capacity: named(words, "capacity")?,
            critical: named(words, "critical")?,
            least: named(words, "least")?,
        }),
        other => words.error(format!("unknown law '{other}'")),
    }
}

/// A name and its number.
fn named(words: &mut Words, name: &str) -> Result<f64, TextError> {
    words.keyword(name)?;
    words.float(name)
}
