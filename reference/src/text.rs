//! A record as text that can be written by hand.
//!
//! One statement a line; `#` starts a comment; the numbers are decimal.
//!
//! ```text
//! refused N                                  the record is meant to be refused so
//! version 1|2                                without it the version is 1
//! seconds N                                  a step's seconds, of version 2 alone
//! steps T                                    number of steps, as many as rows
//! gate capacity N [queue N]
//! [repeat K] cell v N w N b N jam N capacity N [ramp N] [held N] [queue N]
//! [repeat K] row [gate N] {ramp CELL [arrivals N] [release N]}
//! [repeat K] row N N N ...                   all 1 + 2n numbers in the record's order
//! damage length|version|cells|steps N        another number in that field
//! damage cut|extra N                         drop or add N bytes at the end
//! damage byte AT N                           another byte, done last
//! ```
//!
//! Cells come from upstream and before the rows. A number that isn't named is 0. A
//! text makes a record that reads: what reading would refuse is a fault of its line.
//! Only a text that begins with `refused N` is taken as it is, as far as the
//! fields can hold its numbers, and must make a record that reading refuses with
//! N. `as_text` is the inverse, from a record to its text.

use crate::draft::{CellDraft, Draft};
use crate::model::Road;
use crate::record;
use std::fmt;

const U16: u64 = u16::MAX as u64;
const U32: u64 = u32::MAX as u64;
const WHOLE: u64 = Road::WHOLE as u64;
const RATE: u64 = Road::MAX_RATE as u64;
const START: u64 = Road::MAX_START_QUEUE as u64;
/// Most bytes of all rows, and that `damage` will add or drop.
const MAX_MADE_BYTES: u64 = 1_000_000;
/// The units of counts and rates, and of speeds, waves and shares.
const PARTS: &str = ", in thousandths of a vehicle";
const THOUSANDTHS: &str = ", in thousandths";

/// A fault in a text and its line, counted from 1.
#[derive(Clone, Debug, PartialEq, Eq)]
pub struct TextError {
    /// Counted from 1.
    pub line: usize,
    /// What is wrong there.
    pub message: String,
}

impl fmt::Display for TextError {
    fn fmt(&self, f: &mut fmt::Formatter) -> fmt::Result {
        write!(f, "line {}: {}", self.line, self.message)
    }
}

/// The text of a file's bytes, which must be UTF-8.
pub fn decoded(bytes: &[u8]) -> Result<&str, TextError> {
    std::str::from_utf8(bytes).map_err(|error| {
        let sound = &bytes[..error.valid_up_to()];
        let line = 1 + sound.iter().filter(|&&byte| byte == b'\n').count();
        let byte = bytes[sound.len()];
        let message = format!("byte {byte} is not UTF-8 text here");
        TextError { line, message }
    })
}

/// The bytes of the record that a text describes.
pub fn record_of(text: &str) -> Result<Vec<u8>, TextError> {
    if without_mark(text).is_empty() {
        let message = "the text is empty".to_string();
        return Err(TextError { line: 1, message });
    }
    let mut sheet = Sheet::default();
    for mut words in lines(text) {
        sheet.statement(&mut words)?;
    }
    sheet.finish(text.lines().count())
}

/// The numbers of a schedule, separated by blanks or line ends.
pub fn schedule_of(text: &str) -> Result<Vec<u32>, TextError> {
    let mut schedule = Vec::new();
    for mut words in lines(text) {
        while !words.done() {
            schedule.push(words.measure("an outflow", PARTS, U32)? as u32);
        }
    }
    Ok(schedule)
}

/// Why a schedule's text, a row a line, isn't T rows of n + 1 numbers: its first
/// line of another length, or the count of its rows.
pub fn schedule_fault(text: &str, n: usize, steps: usize) -> Option<TextError> {
    let width = n + 1;
    for (step, words) in lines(text).enumerate() {
        let found = words.words.len();
        if found != width {
            return Some(words.fault(format!(
                "the row of step {step} should have {width} numbers, gate first, not {found}"
            )));
        }
    }
    let rows = lines(text).count();
    (rows != steps).then(|| TextError {
        line: text.lines().count().max(1),
        message: format!("the schedule has {rows} rows, but the record {steps} steps"),
    })
}

/// A text without the byte-order mark that some editors put first.
fn without_mark(text: &str) -> &str {
    text.strip_prefix('\u{FEFF}').unwrap_or(text)
}

/// The lines that are not empty, without their comments.
pub(crate) fn lines(text: &str) -> impl Iterator<Item = Words<'_>> {
    let text = without_mark(text);
    text.lines().enumerate().filter_map(|(i, line)| {
        let said = line.split('#').next().unwrap_or("");
        let words: Vec<&str> = said.split_whitespace().collect();
        (!words.is_empty()).then_some(Words {
            line: i + 1,
            words,
            at: 0,
        })
    })
}

/// The words of one line, taken one after another.
pub(crate) struct Words<'a> {
    line: usize,
    words: Vec<&'a str>,
    at: usize,
}

impl<'a> Words<'a> {
    /// A fault of this line.
    pub(crate) fn fault(&self, message: String) -> TextError {
        let line = self.line;
        TextError { line, message }
    }

    pub(crate) fn error<T>(&self, message: String) -> Result<T, TextError> {
        Err(self.fault(message))
    }

    pub(crate) fn done(&self) -> bool {
        self.at == self.words.len()
    }

    fn peek(&self) -> Option<&'a str> {
        self.words.get(self.at).copied()
    }

    /// The next word, which must be there.
    pub(crate) fn word(&mut self, wanted: &str) -> Result<&'a str, TextError> {
        match self.peek() {
            Some(word) => {
                self.at += 1;
                Ok(word)
            }
            None => self.error(format!("{wanted} is missing at the end of the line")),
        }
    }

    /// The next word as a number from 0 to `most`.
    pub(crate) fn number(&mut self, wanted: &str, most: u64) -> Result<u64, TextError> {
        self.measure(wanted, "", most)
    }

    /// The same, with the unit in the message.
    fn measure(&mut self, wanted: &str, unit: &str, most: u64) -> Result<u64, TextError> {
        let word = self.word(wanted)?;
        if !is_number(word) {
            return self.error(format!(
                "{wanted} should be a whole number{unit}, not '{word}'"
            ));
        }
        match word.parse::<u64>() {
            Ok(number) if number <= most => Ok(number),
            _ => self.error(format!("{wanted}: {word} is more than {most}")),
        }
    }

    /// The next word as a number between two others.
    pub(crate) fn within(&mut self, wanted: &str, least: u64, most: u64) -> Result<u64, TextError> {
        let number = self.number(wanted, most)?;
        if number < least {
            return self.error(format!("{wanted}: {number} is less than {least}"));
        }
        Ok(number)
    }

    pub(crate) fn end(&self) -> Result<(), TextError> {
        match self.peek() {
            None => Ok(()),
            Some(word) => self.error(format!("'{word}' is too much on this line")),
        }
    }

    /// The next word, which must be this one.
    pub(crate) fn keyword(&mut self, wanted: &str) -> Result<(), TextError> {
        let quoted = format!("'{wanted}'");
        match self.word(&quoted)? {
            word if word == wanted => Ok(()),
            word => self.error(format!("{quoted} is expected here, not '{word}'")),
        }
    }

    /// The next word as a 64-bit float.
    pub(crate) fn float(&mut self, wanted: &str) -> Result<f64, TextError> {
        let word = self.word(wanted)?;
        match word.parse() {
            Ok(number) => Ok(number),
            Err(_) => self.error(format!("{wanted} should be a number, not '{word}'")),
        }
    }

    /// The rest of the line as pairs of key and number, in any order. Gives
    /// the numbers in the order of the keys, 0 for one that isn't named.
    fn pairs(&mut self, keys: &[Key], free: bool) -> Result<Vec<u64>, TextError> {
        let mut found = vec![None; keys.len()];
        while !self.done() {
            let word = self.word("a keyword")?;
            let Some(k) = keys.iter().position(|key| key.name == word) else {
                return self.error(format!("unknown keyword '{word}'"));
            };
            if found[k].is_some() {
                return self.error(format!("'{word}' is given twice"));
            }
            let most = if free { keys[k].field } else { keys[k].limit };
            found[k] = Some(self.measure(word, keys[k].unit, most)?);
        }
        for (key, value) in keys.iter().zip(&found) {
            if key.needed && value.is_none() {
                return self.error(format!("'{}' is missing", key.name));
            }
        }
        Ok(found.into_iter().map(|value| value.unwrap_or(0)).collect())
    }
}

fn is_number(word: &str) -> bool {
    word.bytes().all(|byte| byte.is_ascii_digit())
}

/// A keyword that takes a number.
struct Key {
    name: &'static str,
    unit: &'static str,
    /// The greatest number that reading takes.
    limit: u64,
    /// The greatest number that its field can hold.
    field: u64,
    needed: bool,
}

/// Speed, wave or share.
const fn thousandths(name: &'static str) -> Key {
    Key {
        name,
        unit: THOUSANDTHS,
        limit: WHOLE,
        field: U16,
        needed: true,
    }
}

/// A count or a rate.
const fn parts(name: &'static str, limit: u64, needed: bool) -> Key {
    Key {
        name,
        unit: PARTS,
        limit,
        field: U32,
        needed,
    }
}

const RAMP_MARK: Key = Key {
    name: "ramp",
    unit: "",
    limit: 1,
    field: U16,
    needed: false,
};

const GATE_KEYS: [Key; 2] = [parts("capacity", RATE, true), parts("queue", START, false)];

const CELL_KEYS: [Key; 8] = [
    thousandths("v"),
    thousandths("w"),
    thousandths("b"),
    RAMP_MARK,
    parts("jam", RATE, true),
    parts("capacity", RATE, true),
    parts("held", RATE, false),
    parts("queue", START, false),
];

/// A number other than the one that the text would give.
enum Damage {
    Length(u32),
    Version(u8),
    Cells(u8),
    Steps(u16),
    Cut(usize),
    Extra(usize),
    Byte { line: usize, at: usize, value: u8 },
}

/// The contents of the lines so far.
#[derive(Default)]
struct Sheet {
    /// The line of `refused` and its number.
    refused: Option<(usize, u32)>,
    version: Option<u8>,
    /// The line of `seconds` and its number.
    seconds: Option<(usize, u16)>,
    /// The line of `steps` and its number.
    steps: Option<(usize, u64)>,
    gate: Option<(u32, u32)>,
    cells: Vec<CellDraft>,
    /// The line of the last cell.
    cells_line: usize,
    rows: Vec<Vec<u32>>,
    /// Numbers of all rows.
    numbers: u64,
    damage: Vec<Damage>,
    /// The line of the last damage.
    damage_line: usize,
    /// Some statement was read.
    begun: bool,
}

impl Sheet {
    fn statement(&mut self, words: &mut Words) -> Result<(), TextError> {
        match words.word("a statement")? {
            "refused" => self.refused_line(words)?,
            "version" => self.version_line(words)?,
            "seconds" => self.seconds_line(words)?,
            "steps" => self.steps_line(words)?,
            "gate" => self.gate_line(words)?,
            "cell" => self.cell_lines(words, 1)?,
            "row" => self.row_lines(words, 1)?,
            "damage" => self.damage_line(words)?,
            "repeat" => {
                let count = words.number("the count of repeats", U16)? as usize;
                match words.word("'cell' or 'row'")? {
                    "cell" => self.cell_lines(words, count)?,
                    "row" => self.row_lines(words, count)?,
                    other => return words.error(format!("'{other}' can't be repeated")),
                }
            }
            other => return words.error(format!("unknown statement '{other}'")),
        }
        self.begun = true;
        words.end()
    }

    fn refused_line(&mut self, words: &mut Words) -> Result<(), TextError> {
        if self.begun {
            return words.error("'refused' must come before all other statements".to_string());
        }
        let number = words.number("the refusal's number", U16)? as u32;
        if !matches!(number, 1..=6 | 19) {
            return words.error(format!("reading refuses with 1 to 6 or 19, not {number}"));
        }
        self.refused = Some((words.line, number));
        Ok(())
    }

    /// The record is meant to be refused, so its numbers need only fit their fields.
    fn free(&self) -> bool {
        self.refused.is_some()
    }

    /// The greatest number of a place that has a limit and a field.
    fn most(&self, limit: u64, field: u64) -> u64 {
        if self.free() {
            field
        } else {
            limit
        }
    }

    /// The least number where 0 would be refused.
    fn least(&self) -> u64 {
        u64::from(!self.free())
    }

    fn version_line(&mut self, words: &mut Words) -> Result<(), TextError> {
        if self.version.is_some() {
            return words.error("'version' is given twice".to_string());
        }
        match words.number("version", 2)? {
            0 => words.error("there is no version 0, only 1 and 2".to_string()),
            version => {
                self.version = Some(version as u8);
                Ok(())
            }
        }
    }

    fn seconds_line(&mut self, words: &mut Words) -> Result<(), TextError> {
        if self.seconds.is_some() {
            return words.error("'seconds' is given twice".to_string());
        }
        let most = self.most(u64::from(Road::MAX_SECONDS), U16);
        let seconds = words.within("seconds", self.least(), most)? as u16;
        self.seconds = Some((words.line, seconds));
        Ok(())
    }

    fn steps_line(&mut self, words: &mut Words) -> Result<(), TextError> {
        if self.steps.is_some() {
            return words.error("'steps' is given twice".to_string());
        }
        let most = self.most(Road::MAX_STEPS as u64, U16);
        let steps = words.within("steps", self.least(), most)?;
        self.steps = Some((words.line, steps));
        Ok(())
    }

    fn gate_line(&mut self, words: &mut Words) -> Result<(), TextError> {
        if self.gate.is_some() {
            return words.error("'gate' is given twice".to_string());
        }
        let numbers = words.pairs(&GATE_KEYS, self.free())?;
        self.gate = Some((numbers[0] as u32, numbers[1] as u32));
        Ok(())
    }

    fn cell_lines(&mut self, words: &mut Words, count: usize) -> Result<(), TextError> {
        if !self.rows.is_empty() {
            return words.error("cells must come before the rows".to_string());
        }
        let most = self.most(Road::MAX_CELLS as u64, u64::from(u8::MAX));
        if (self.cells.len() + count) as u64 > most {
            return words.error(format!("a record has at most {most} cells"));
        }
        let numbers = words.pairs(&CELL_KEYS, self.free())?;
        let cell = CellDraft {
            v: numbers[0] as u16,
            w: numbers[1] as u16,
            b: numbers[2] as u16,
            ramp: numbers[3] as u16,
            jam: numbers[4] as u32,
            capacity: numbers[5] as u32,
            held: numbers[6] as u32,
            queue: numbers[7] as u32,
        };
        if !self.free() {
            check_cell(words, &cell)?;
        }
        self.cells.extend(vec![cell; count]);
        self.cells_line = words.line;
        Ok(())
    }

    /// Equal rows, with all numbers or by name.
    fn row_lines(&mut self, words: &mut Words, count: usize) -> Result<(), TextError> {
        let most = self.most(Road::MAX_STEPS as u64, U16);
        if (self.rows.len() + count) as u64 > most {
            return words.error(format!("a record has at most {most} steps"));
        }
        let most = self.most(RATE, U32);
        let row = match words.peek() {
            Some(word) if is_number(word) => plain_row(words, most)?,
            _ => named_row(words, self.cells.len(), most)?,
        };
        if !self.free() {
            self.check_row(words, &row)?;
        }
        self.numbers += (row.len() * count) as u64;
        if 4 * self.numbers > MAX_MADE_BYTES {
            return words.error(format!("the rows take more than {MAX_MADE_BYTES} bytes"));
        }
        self.rows.extend(vec![row; count]);
        Ok(())
    }

    /// A row has 1 + 2n numbers, those of a cell without a ramp 0.
    fn check_row(&self, words: &Words, row: &[u32]) -> Result<(), TextError> {
        let (n, found) = (self.cells.len(), row.len());
        let wanted = 1 + 2 * n;
        if found != wanted {
            return words.error(format!(
                "a row has {wanted} numbers (the gate's arrivals, then arrivals and release \
                 of each cell; cells: {n}), not {found}"
            ));
        }
        let pairs = self.cells.iter().zip(row[1..].chunks(2));
        for (i, (cell, pair)) in pairs.enumerate() {
            for (name, number) in ["arrivals", "release"].iter().zip(pair) {
                if cell.ramp == 0 && *number != 0 {
                    let place = i + 1;
                    return words.error(format!(
                        "cell {place} has no ramp, but {name} of {number} there"
                    ));
                }
            }
        }
        Ok(())
    }

    fn damage_line(&mut self, words: &mut Words) -> Result<(), TextError> {
        let what = words.word("what is damaged")?;
        let damage = match what {
            "length" => Damage::Length(words.number(what, U32)? as u32),
            "version" => Damage::Version(words.number(what, 255)? as u8),
            "cells" => Damage::Cells(words.number(what, 255)? as u8),
            "steps" => Damage::Steps(words.number(what, U16)? as u16),
            "cut" => Damage::Cut(words.number(what, MAX_MADE_BYTES)? as usize),
            "extra" => Damage::Extra(words.number(what, MAX_MADE_BYTES)? as usize),
            "byte" => Damage::Byte {
                line: words.line,
                at: words.number("the byte's number", U32)? as usize,
                value: words.number("the byte", 255)? as u8,
            },
            other => return words.error(format!("unknown damage '{other}'")),
        };
        self.damage.push(damage);
        self.damage_line = words.line;
        Ok(())
    }

    /// The record's bytes, once all lines are read.
    fn finish(self, last_line: usize) -> Result<Vec<u8>, TextError> {
        let missing = |name: &str| TextError {
            line: last_line.max(1),
            message: format!("the text ends without '{name}'"),
        };
        let gate = self.gate.ok_or_else(|| missing("gate"))?;
        let (line, steps) = self.steps.ok_or_else(|| missing("steps"))?;
        let rows = self.rows.len();
        if steps != rows as u64 {
            let message = format!("steps is {steps}, but there are {rows} rows");
            return Err(TextError { line, message });
        }
        if !self.free() {
            let last = self.cells.last().ok_or_else(|| missing("cell"))?;
            check_last_share(last, self.cells_line)?;
            self.check_size(line)?;
        }
        let draft = Draft::new(gate, self.cells, self.rows);
        let draft = match (self.version, self.seconds) {
            (Some(2), Some((_, seconds))) => draft.timed(seconds),
            (Some(2), None) => return Err(missing("seconds")),
            (_, Some((line, _))) => {
                let message = "only version 2 has seconds".to_string();
                return Err(TextError { line, message });
            }
            (_, None) => draft,
        };
        let bytes = encode_damaged(draft, &self.damage)?;
        check_refusal(record::read(&bytes).number, self.refused, self.damage_line)?;
        Ok(bytes)
    }

    /// The record has at most 65,536 bytes; the line is that of `steps`.
    fn check_size(&self, line: usize) -> Result<(), TextError> {
        let version = self.version.unwrap_or(1);
        let (n, steps) = (self.cells.len(), self.rows.len());
        let size = record::size(version, n, steps);
        let most = Road::MAX_BYTES;
        if size <= most {
            return Ok(());
        }
        let room = most - record::size(version, n, 0);
        let fitting = room / (4 + 8 * n);
        let message = format!(
            "steps: {steps} with {n} cells take {size} bytes, more than {most}; \
             {n} cells leave room for {fitting} steps"
        );
        Err(TextError { line, message })
    }
}

/// The last share is 0.
fn check_last_share(last: &CellDraft, line: usize) -> Result<(), TextError> {
    if last.b == 0 {
        return Ok(());
    }
    let message = format!(
        "b of the last cell is {}, where it must be 0: all that leaves it leaves the road",
        last.b
    );
    Err(TextError { line, message })
}

/// Held is at most J, and a queue has its ramp.
fn check_cell(words: &Words, cell: &CellDraft) -> Result<(), TextError> {
    let CellDraft {
        held, jam, queue, ..
    } = *cell;
    if held > jam {
        return words.error(format!("held: {held} is more than jam, {jam}"));
    }
    if queue != 0 && cell.ramp == 0 {
        return words.error(format!(
            "queue: {queue}, but the cell has no ramp (ramp 1 gives it one)"
        ));
    }
    Ok(())
}

/// Reading refuses the record exactly if the text says so. If the text does not, every
/// line was checked before, so the damage is at fault.
fn check_refusal(
    found: u32,
    meant: Option<(usize, u32)>,
    damage_line: usize,
) -> Result<(), TextError> {
    let (line, message) = match (found, meant) {
        (0, None) => return Ok(()),
        (_, Some((_, number))) if found == number => return Ok(()),
        (0, Some((line, _))) => (line, "reading doesn't refuse this record".to_string()),
        (_, Some((line, number))) => (
            line,
            format!("reading refuses this record with {found}, not {number}"),
        ),
        (_, None) => (
            damage_line,
            format!(
                "reading refuses the damaged record with {found}; \
                 a text that is meant so begins with 'refused {found}'"
            ),
        ),
    };
    Err(TextError { line, message })
}

/// A row given as all its numbers, however many.
fn plain_row(words: &mut Words, most: u64) -> Result<Vec<u32>, TextError> {
    let mut row = Vec::new();
    while !words.done() {
        row.push(words.measure("a number of the row", PARTS, most)? as u32);
    }
    Ok(row)
}

/// A row given by names; a number that isn't named is 0.
fn named_row(words: &mut Words, cells: usize, most: u64) -> Result<Vec<u32>, TextError> {
    let mut row = vec![None; 1 + 2 * cells];
    let mut cell = None;
    while !words.done() {
        let word = words.word("a keyword")?;
        let slot = match (word, cell) {
            ("gate", _) => 0,
            ("ramp", _) => {
                cell = Some(ramp_cell(words, cells)?);
                continue;
            }
            ("arrivals", Some(cell)) => 2 * cell - 1,
            ("release", Some(cell)) => 2 * cell,
            ("arrivals" | "release", None) => {
                return words.error(format!("'{word}' should come after 'ramp' and a cell"));
            }
            _ => return words.error(format!("unknown keyword '{word}'")),
        };
        if row[slot].is_some() {
            return words.error(format!("'{word}' is given twice for the same place"));
        }
        row[slot] = Some(words.measure(word, PARTS, most)? as u32);
    }
    Ok(row.into_iter().map(|number| number.unwrap_or(0)).collect())
}

/// The cell that `ramp` names in a row.
fn ramp_cell(words: &mut Words, cells: usize) -> Result<usize, TextError> {
    let cell = words.number("the ramp's cell", U32)? as usize;
    if !(1..=cells).contains(&cell) {
        return words.error(format!("there is no cell {cell}, only 1 to {cells}"));
    }
    Ok(cell)
}

/// The bytes with all damage done, single bytes last.
fn encode_damaged(mut draft: Draft, damage: &[Damage]) -> Result<Vec<u8>, TextError> {
    for item in damage {
        match *item {
            Damage::Length(length) => draft.length = Some(length),
            Damage::Version(version) => draft.version = version,
            Damage::Cells(n) => draft.n = n,
            Damage::Steps(steps) => draft.steps = steps,
            Damage::Cut(count) => draft.cut = count,
            Damage::Extra(count) => draft.extra = count,
            Damage::Byte { .. } => {}
        }
    }
    let mut bytes = draft.encode();
    for item in damage {
        if let Damage::Byte { line, at, value } = *item {
            let size = bytes.len();
            let Some(byte) = bytes.get_mut(at) else {
                let message = format!("there is no byte {at} in a record of {size}");
                return Err(TextError { line, message });
            };
            *byte = value;
        }
    }
    Ok(bytes)
}
