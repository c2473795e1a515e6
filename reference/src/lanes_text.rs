//! A table of lanes as text that can be written by hand.
//!
//! One statement a line; `#` starts a comment; the numbers are decimal.
//!
//! ```text
//! cells N                              cells of the road
//! steps T
//! built K [cell CELL]                  K lanes in every cell, or in this one
//! closed LANE cell CELL steps A to B   a lane closed from step A to step B
//! ```
//!
//! The statements come in this order, each of the last two as often as needed.
//! Lanes are numbered from 1; lane 1 is the lowest bit. A cell has 1 to 8 of
//! them. All built lanes are open except the closed ones.

use crate::model::Road;
use crate::text::{self, TextError, Words};

/// Most lanes of a cell.
const MAX_LANES: u64 = 8;

/// The table that a text describes.
pub fn table_of(text: &str) -> Result<Vec<u8>, TextError> {
    let mut works = Works::default();
    for mut words in text::lines(text) {
        works.statement(&mut words)?;
        words.end()?;
    }
    works.finish(text.lines().count())
}

/// The contents of the lines so far.
#[derive(Default)]
struct Works {
    n: Option<usize>,
    steps: Option<usize>,
    built: Vec<u8>,
    /// A row of lanes open for each step, once a lane is closed.
    open: Vec<Vec<u8>>,
}

impl Works {
    fn statement(&mut self, words: &mut Words) -> Result<(), TextError> {
        match words.word("a statement")? {
            "cells" if self.n.is_none() => {
                let n = within(words, "the cells", 1, Road::MAX_CELLS)?;
                self.n = Some(n);
                self.built = vec![0; n];
            }
            "steps" if self.steps.is_none() => {
                self.steps = Some(within(words, "the steps", 1, Road::MAX_STEPS)?);
            }
            "built" if self.open.is_empty() => self.built_line(words)?,
            "closed" => self.closed_line(words)?,
            other => return words.error(format!("'{other}' is not allowed here")),
        }
        Ok(())
    }

    fn built_line(&mut self, words: &mut Words) -> Result<(), TextError> {
        let count = within(words, "the lanes", 1, MAX_LANES as usize)?;
        let lanes = (u8::MAX) >> (MAX_LANES as usize - count);
        if words.done() {
            self.built.fill(lanes);
        } else {
            let cell = self.cell(words)?;
            self.built[cell - 1] = lanes;
        }
        Ok(())
    }

    fn closed_line(&mut self, words: &mut Words) -> Result<(), TextError> {
        let lane = within(words, "the lane", 1, MAX_LANES as usize)?;
        let cell = self.cell(words)?;
        words.keyword("steps")?;
        let last = self.steps.unwrap_or(0).saturating_sub(1);
        let from = within(words, "the first step", 0, last)?;
        words.keyword("to")?;
        let to = within(words, "the last step", from, last)?;
        let bit = 1 << (lane - 1);
        if self.built[cell - 1] & bit == 0 {
            return words.error(format!("cell {cell} has no lane {lane}"));
        }
        if self.open.is_empty() {
            self.open = vec![self.built.clone(); last + 1];
        }
        for row in &mut self.open[from..=to] {
            row[cell - 1] &= !bit;
        }
        Ok(())
    }

    /// `cell` and its number.
    fn cell(&self, words: &mut Words) -> Result<usize, TextError> {
        words.keyword("cell")?;
        within(words, "the cell", 1, self.built.len())
    }

    fn finish(self, last_line: usize) -> Result<Vec<u8>, TextError> {
        let line = last_line.max(1);
        let message = match (self.n, self.steps) {
            (Some(_), Some(steps)) if !self.built.contains(&0) => {
                let all = vec![self.built.clone(); steps];
                let rows = if self.open.is_empty() { all } else { self.open };
                return Ok([self.built, rows.concat()].concat());
            }
            (None, _) => "the text ends without 'cells'".to_string(),
            (_, None) => "the text ends without 'steps'".to_string(),
            _ => "the text ends with a cell that has no lanes".to_string(),
        };
        Err(TextError { line, message })
    }
}

/// The next word as a number between two others.
fn within(words: &mut Words, wanted: &str, least: usize, most: usize) -> Result<usize, TextError> {
    Ok(words.within(wanted, least as u64, most as u64)? as usize)
}
