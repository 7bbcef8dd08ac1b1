//! Batches on a ticket that anybody may have made up.

use super::{are_kinds, is_side};
use crate::mizdrek::Refusal::{self, BadKind, BadSize, BatchOrder, BatchRange, ShortBuffer};
use crate::mizdrek::Ticket;

/// As many lines as are named, from the start.
#[derive(Clone, Copy, Debug)]
pub struct Batch {
    pub row: bool,
    pub start: usize,
    pub count: usize,
}

impl Batch {
    /// How many numbers each of its lines has in a block of this size.
    pub fn side(&self, (w, h): (usize, usize)) -> usize {
        if self.row { w } else { h }
    }

    /// Whether the batch lies within `lines` lines.
    pub fn within(&self, lines: usize) -> bool {
        let placed = match self.count {
            1 => true,
            4 | 8 => self.start.is_multiple_of(4),
            _ => false,
        };
        placed && self.start.checked_add(self.count).is_some_and(|end| end <= lines)
    }

    /// The marks of its lines, if it lies within 32 lines.
    pub fn mask(&self) -> u32 {
        first_lines(self.count) << self.start
    }
}

/// The marks of lines 0 up to `count`.
pub fn first_lines(count: usize) -> u32 {
    ((1u64 << count) - 1) as u32
}

/// A batch lent two buffers of these lengths.
pub fn batch(ticket: &Ticket, batch: &Batch, lengths: [usize; 2]) -> Result<usize, Refusal> {
    let Ticket { w, h, column_kind, row_kind, columns, rows } = *ticket;
    if !is_side(w) || !is_side(h) {
        return Err(BadSize);
    }
    if !are_kinds(w, h, [column_kind, row_kind]) {
        return Err(BadKind);
    }
    if lengths.iter().any(|&length| length < w * h) {
        return Err(ShortBuffer);
    }
    if !batch.within(if batch.row { h } else { w }) {
        return Err(BatchRange);
    }
    let past = columns & !first_lines(w) != 0 || rows & !first_lines(h) != 0;
    let unmarked = columns & first_lines(w) != first_lines(w);
    if past || unmarked && (rows != 0 || batch.row) {
        return Err(BatchOrder);
    }
    Ok(batch.count)
}
