//! A record written as text, the inverse of `text`.
//!
//! Every record of at most 65,536 bytes that consists of a head, whole cells and
//! whole numbers has a text, even if it is refused. The text is canonical:
//! `refused` comes first if reading refuses, zeros that need no name have none,
//! equal rows that follow each other are one line, and `damage` comes last.

use crate::draft::CellDraft;
use crate::model::Road;
use crate::record;
use std::fmt::Write;

/// The text that gives these bytes again, or why there is none.
pub fn text_of(bytes: &[u8]) -> Result<String, String> {
    if bytes.len() > Road::MAX_BYTES {
        return Err(format!("a record has at most {} bytes", Road::MAX_BYTES));
    }
    let values = Values::of(bytes)?;
    let mut out = String::new();
    let number = record::read(bytes).number;
    if number != 0 {
        put(&mut out, format_args!("refused {number}\n"));
    }
    if let Some(seconds) = values.seconds {
        put(&mut out, format_args!("version 2\nseconds {seconds}\n"));
    }
    put(&mut out, format_args!("steps {}\n", values.rows.len()));
    put(&mut out, format_args!("gate capacity {}", values.gate.0));
    put_named(&mut out, "queue", values.gate.1);
    out.push('\n');
    for (i, cell) in values.cells.iter().enumerate() {
        put_cell(&mut out, cell);
        put(&mut out, format_args!("  # cell {}\n", i + 1));
    }
    let mut step = 0;
    for like in values.rows.chunk_by(|a, b| a == b) {
        put_rows(&mut out, &values.cells, like, step);
        step += like.len();
    }
    put_damage(&mut out, bytes, &values);
    Ok(out)
}

/// A record's values as far as its bytes go.
struct Values {
    /// A step's seconds, if the bytes are written as version 2.
    seconds: Option<u16>,
    gate: (u32, u32),
    cells: Vec<CellDraft>,
    rows: Vec<Vec<u32>>,
}

impl Values {
    /// Laid out as byte 4 says. Bytes that say version 2 but are none may still be
    /// written as a version 1 that is damaged there.
    fn of(bytes: &[u8]) -> Result<Values, String> {
        match record::version_of(bytes) {
            2 => Values::laid_out(bytes, 2)
                .or_else(|reason| Values::laid_out(bytes, 1).map_err(|_| reason)),
            _ => Values::laid_out(bytes, 1),
        }
    }

    /// As many cells as byte 5 says and the bytes have, then rows to the end.
    fn laid_out(bytes: &[u8], version: u8) -> Result<Values, String> {
        let (size, head) = (bytes.len(), record::head_bytes(version));
        if size < head {
            return Err(format!(
                "a record of {size} bytes has no whole head, which takes {head}"
            ));
        }
        let n = record::cells_of(bytes);
        let after_cells = record::size(version, n, 0).min(size);
        let cells = whole_cells(&bytes[head..after_cells])?;
        let rows = whole_rows(&bytes[after_cells..], 1 + 2 * n)?;
        let gate = (
            record::u32_at(bytes, head - 8),
            record::u32_at(bytes, head - 4),
        );
        Ok(Values {
            seconds: (version == 2).then(|| record::seconds_of(bytes)),
            gate,
            cells,
            rows,
        })
    }
}

/// The cells in these bytes, which must not end within one.
fn whole_cells(bytes: &[u8]) -> Result<Vec<CellDraft>, String> {
    let parts = bytes.chunks_exact(record::CELL_BYTES);
    if !parts.remainder().is_empty() {
        let cell = 1 + bytes.len() / record::CELL_BYTES;
        return Err(format!("the record ends in the middle of cell {cell}"));
    }
    Ok(parts.map(CellDraft::decode).collect())
}

/// The rows in these bytes, the last perhaps short, but not within a number.
fn whole_rows(bytes: &[u8], width: usize) -> Result<Vec<Vec<u32>>, String> {
    let parts = bytes.chunks_exact(4);
    if !parts.remainder().is_empty() {
        let step = bytes.len() / (4 * width);
        return Err(format!(
            "the record ends in the middle of a number, in the row of step {step}"
        ));
    }
    let numbers: Vec<u32> = parts.map(|part| record::u32_at(part, 0)).collect();
    Ok(numbers.chunks(width).map(<[u32]>::to_vec).collect())
}

/// A cell's line, without its end.
fn put_cell(out: &mut String, cell: &CellDraft) {
    let (v, w, b) = (cell.v, cell.w, cell.b);
    put(out, format_args!("cell v {v} w {w} b {b}"));
    put_named(out, "ramp", u32::from(cell.ramp));
    let (jam, capacity) = (cell.jam, cell.capacity);
    put(out, format_args!(" jam {jam} capacity {capacity}"));
    put_named(out, "held", cell.held);
    put_named(out, "queue", cell.queue);
}

/// One line for equal rows; the first is that of `step`.
fn put_rows(out: &mut String, cells: &[CellDraft], like: &[Vec<u32>], step: usize) {
    let (row, count) = (&like[0], like.len());
    if count > 1 {
        put(out, format_args!("repeat {count} "));
    }
    let whole = row.len() == 1 + 2 * cells.len();
    out.push_str("row");
    if whole {
        put_places(out, row);
    } else {
        row.iter().for_each(|x| put(out, format_args!(" {x}")));
    }
    match count {
        1 => put(out, format_args!("  # step {step}\n")),
        _ => put(
            out,
            format_args!("  # steps {step} to {}\n", step + count - 1),
        ),
    }
}

/// The numbers of a whole row that aren't 0, by name.
fn put_places(out: &mut String, row: &[u32]) {
    put_named(out, "gate", row[0]);
    for (i, pair) in row[1..].chunks(2).enumerate() {
        if pair != [0, 0] {
            put(out, format_args!(" ramp {}", i + 1));
            put_named(out, "arrivals", pair[0]);
            put_named(out, "release", pair[1]);
        }
    }
}

/// A `damage` line for each field of the head that the rest doesn't give.
fn put_damage(out: &mut String, bytes: &[u8], values: &Values) {
    let version = if values.seconds.is_some() { 2 } else { 1 };
    let fields = [
        ("length", record::u32_at(bytes, 0) as usize, bytes.len() - 4),
        ("version", usize::from(bytes[4]), version),
        ("cells", record::cells_of(bytes), values.cells.len()),
        ("steps", record::steps_of(bytes), values.rows.len()),
    ];
    for (name, found, given) in fields {
        if found != given {
            put(out, format_args!("damage {name} {found}\n"));
        }
    }
}

/// A name and its number, if that isn't 0.
fn put_named(out: &mut String, name: &str, number: u32) {
    if number != 0 {
        put(out, format_args!(" {name} {number}"));
    }
}

/// Words at the end of the text.
fn put(out: &mut String, words: std::fmt::Arguments) {
    out.write_fmt(words).expect("a string takes every word");
}
