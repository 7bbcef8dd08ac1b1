//! A call under a ticket: a batch that is run, or a preview of it.

use crate::lent::Lent;
use crate::mizdrek::{self, Refusal, Ticket};
use crate::random::Random;
use crate::rules::batch::Batch;
use crate::samples::{filling, length};
use std::hint::black_box;

#[derive(Clone, Copy, Debug)]
pub struct Call {
    pub batch: Batch,
    /// The length of the preview buffer, where the batch isn't run but previewed.
    pub room: Option<usize>,
}

impl Call {
    /// Runs a batch.
    pub fn run(batch: Batch) -> Call {
        Call { batch, room: None }
    }

    /// Previews a batch of a block of this size, into a buffer with the room for it or, at times, without.
    pub fn preview(random: &mut Random, batch: Batch, size: (usize, usize)) -> Call {
        let count = batch.count.min(8) * batch.side(size).min(32);
        Call { batch, room: Some(length(random, count, 4)) }
    }

    /// The name of the function that is called.
    pub fn name(&self) -> &'static str {
        match (self.room, self.batch.row) {
            (None, false) => "mizdrek_column_batch",
            (None, true) => "mizdrek_row_batch",
            (Some(_), false) => "mizdrek_preview_columns",
            (Some(_), true) => "mizdrek_preview_rows",
        }
    }

    /// Makes the call.
    pub fn make(
        &self,
        ticket: &mut Ticket,
        residuals: &Lent<i32>,
        scratch: &mut Lent<i32>,
        output: &mut Lent<i32>,
        preview: &mut Lent<i32>,
    ) -> Result<usize, Refusal> {
        let Batch { row, start, count } = self.batch;
        let (given, shown) = (residuals.read(), preview.write());
        let answer = match (self.room, row) {
            (None, false) => mizdrek::column_batch(ticket, given, scratch.write(), start, count),
            (None, true) => mizdrek::row_batch(ticket, scratch.read(), output.write(), start, count),
            (Some(_), false) => mizdrek::preview_columns(ticket, given, scratch.read(), shown, start, count),
            (Some(_), true) => {
                mizdrek::preview_rows(ticket, scratch.read(), output.read(), shown, start, count)
            }
        };
        // The compiler may take what is lent to be read to be as before: the comparison is to look again.
        black_box((ticket, residuals, scratch, output));
        answer
    }

    /// What the preview buffer holds before: any numbers, which its length settles.
    pub fn preview_before(&self) -> Vec<i32> {
        let room = self.room.unwrap_or(0);
        filling(&mut Random::new(room as u64), room)
    }

    /// What the preview buffer holds after the call, where `all` are all rows or all columns of the block.
    pub fn preview_after(
        &self,
        outcome: Result<usize, Refusal>,
        size: (usize, usize),
        all: &[i32],
    ) -> Vec<i32> {
        let mut preview = self.preview_before();
        if let (Some(_), Ok(count)) = (self.room, outcome) {
            let side = self.batch.side(size);
            let place = self.batch.start * side;
            preview[..count * side].copy_from_slice(&all[place..place + count * side]);
        }
        preview
    }
}

/// A batch that may be good or bad in any way.
pub fn any_batch(random: &mut Random) -> Batch {
    let count = match random.below(8) {
        0 => random.below(40),
        1 => random.pick(&[0, usize::MAX, usize::MAX - 3, 1 << 63]),
        _ => random.pick(&[1, 4, 8]),
    };
    let start = match random.below(8) {
        0 => random.below(40),
        1 => random.pick(&[usize::MAX, usize::MAX - 3, usize::MAX - 7, 1 << 63, 32]),
        _ => random.below(8) * 4,
    };
    Batch { row: random.once_in(2), start, count }
}
