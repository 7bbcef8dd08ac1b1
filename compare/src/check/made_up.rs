//! Single batches and previews on tickets that no opening made, with any numbers in the buffers.

use super::call::{Call, any_batch};
use super::claim::lines;
use super::{Run, block_case::BlockCase};
use crate::difference::{Input, Outcome, same};
use crate::lent::Lent;
use crate::mizdrek::{Refusal, Ticket};
use crate::oracle::{self, SIDES};
use crate::random::Random;
use crate::rules::batch::{self, Batch, first_lines};
use crate::rules::preview;
use crate::samples::{filling, length, samples};

struct Case {
    ticket: Ticket,
    call: Call,
    buffers: BlockCase,
}

pub fn compare(run: &mut Run) -> Outcome {
    faults(run)?;
    for _ in 0..run.count {
        let case = any(&mut run.random);
        compare_case(run, &case)?;
    }
    Ok(())
}

/// Every part of a ticket, of a batch and of a preview good and bad, in all combinations.
fn faults(run: &mut Run) -> Outcome {
    let ranges =
        [(0, 4), (0, 1), (1, 4), (4, 8), (usize::MAX, 1), (0, 0), (0, 2), (usize::MAX - 3, 4), (0, 8)];
    for ticket in tickets() {
        for (start, count) in ranges {
            for row in [false, true] {
                all_calls(run, ticket, Batch { row, start, count })?;
            }
        }
    }
    Ok(())
}

/// Tickets with good and bad sides, kinds and marks.
fn tickets() -> Vec<Ticket> {
    let sizes = [(4, 4), (8, 4), (32, 32), (16, 16), (0, 4), (4, 5), (12, 8), (4, 64), (usize::MAX, 1 << 61)];
    let mut tickets = Vec::new();
    for size in sizes {
        for kinds in [[0, 0], [1, 0], [0, 1], [2, 0], [0, u32::MAX]] {
            for columns in [u32::MAX, first_lines(size.0.min(32)), 0x7, 0] {
                tickets.extend([0, 1, 0x10, u32::MAX].map(|rows| made(size, kinds, columns, rows)));
            }
        }
    }
    tickets
}

/// The batch, and previews of it into buffers that are too short, just long enough and longer.
fn all_calls(run: &mut Run, ticket: Ticket, batch: Batch) -> Outcome {
    let count = ticket.w.saturating_mul(ticket.h).min(1024);
    let short = count.saturating_sub(1);
    let room = batch.count * batch.side((ticket.w, ticket.h)).min(32);
    let rooms = [None, Some(room.saturating_sub(1)), Some(room), Some(room + 5)];
    for lengths in [[count; 3], [short, count, count], [count, short, count], [count, count, short]] {
        for room in rooms {
            let buffers = buffers(&mut run.random, &ticket, lengths);
            compare_case(run, &Case { ticket, call: Call { batch, room }, buffers })?;
        }
    }
    Ok(())
}

fn made((w, h): (usize, usize), [column_kind, row_kind]: [u32; 2], columns: u32, rows: u32) -> Ticket {
    Ticket { w, h, column_kind, row_kind, columns, rows }
}

/// Buffers for a ticket, with any numbers in them: batches wrap.
fn buffers(random: &mut Random, ticket: &Ticket, lengths: [usize; 3]) -> BlockCase {
    BlockCase {
        size: (ticket.w, ticket.h),
        kinds: [ticket.column_kind, ticket.row_kind],
        residuals: samples(random, lengths[0]),
        scratch: samples(random, lengths[1]),
        output: filling(random, lengths[2]),
    }
}

/// A random case, often one that is accepted.
fn any(random: &mut Random) -> Case {
    let (mut size, mut kinds) = random.pick(&oracle::blocks());
    let count = size.0 * size.1;
    let full = first_lines(size.0);
    let columns = match random.below(4) {
        0 => random.next() as u32,
        1 => full & !(1 << random.below(32)),
        _ => full,
    };
    let rows = match random.below(4) {
        0 => random.next() as u32,
        1 => 0,
        _ => random.next() as u32 & first_lines(size.1),
    };
    match random.below(30) {
        0 => size.0 = random.below(70),
        1 => size.1 = random.below(70),
        2 => size.1 = random.pick(&SIDES),
        3 => kinds[random.below(2)] = random.below(3) as u32,
        _ => {}
    }
    let ticket = made(size, kinds, columns, rows);
    let lengths = [(); 3].map(|_| length(random, count, 20));
    let buffers = buffers(random, &ticket, lengths);
    let batch = any_batch(random);
    let call = if random.once_in(2) { Call::run(batch) } else { Call::preview(random, batch, size) };
    Case { ticket, call, buffers }
}

fn compare_case(run: &mut Run, case: &Case) -> Outcome {
    run.case();
    case.compare().map_err(|d| {
        let mut inputs: Vec<Input> = vec![("ticket", &case.ticket), ("call", &case.call)];
        inputs.extend(&case.buffers.inputs()[4..]);
        d.of(case.call.name(), &inputs)
    })
}

impl Case {
    fn compare(&self) -> Outcome {
        let (call, before) = (&self.call, &self.buffers);
        let residuals = Lent::new(&before.residuals);
        let mut scratch = Lent::new(&before.scratch);
        let mut output = Lent::new(&before.output);
        let mut preview = Lent::new(&call.preview_before());
        let mut ticket = self.ticket;
        let answer = call.make(&mut ticket, &residuals, &mut scratch, &mut output, &mut preview);
        let expected = self.expected();
        same("the answer", expected, answer)?;
        let marks = if expected.is_ok() && call.room.is_none() { call.batch.mask() } else { 0 };
        let (columns, rows) = if call.batch.row { (0, marks) } else { (marks, 0) };
        same("the ticket", self.marked(columns, rows), ticket)?;
        let worked = if expected.is_ok() { self.worked() } else { Vec::new() };
        let (w, h) = before.size;
        residuals.holds("residuals", &before.residuals)?;
        scratch.holds("scratch", &lines(&before.scratch, &worked, h, columns))?;
        output.holds("output", &lines(&before.output, &worked, w, rows))?;
        preview.holds("preview", &call.preview_after(expected, before.size, &worked))
    }

    fn expected(&self) -> Result<usize, Refusal> {
        let Call { batch, room } = &self.call;
        let BlockCase { residuals, scratch, output, .. } = &self.buffers;
        let lengths =
            if batch.row { [scratch.len(), output.len()] } else { [residuals.len(), scratch.len()] };
        match *room {
            None => batch::batch(&self.ticket, batch, lengths),
            Some(room) => preview::preview(&self.ticket, batch, lengths, room),
        }
    }

    fn marked(&self, columns: u32, rows: u32) -> Ticket {
        Ticket { columns: self.ticket.columns | columns, rows: self.ticket.rows | rows, ..self.ticket }
    }

    /// All lines that batches of this kind work out, the call's and the others.
    fn worked(&self) -> Vec<i32> {
        let BlockCase { size, kinds, residuals, scratch, .. } = &self.buffers;
        if self.call.batch.row {
            oracle::rows(*size, kinds[1], scratch)
        } else {
            oracle::columns(*size, kinds[0], residuals)
        }
    }
}
