//! Previews: the batch's refusals, and number 3 for the preview buffer too.

use super::batch::{self, Batch};
use crate::mizdrek::Refusal::{self, BadKind, BadSize, ShortBuffer};
use crate::mizdrek::Ticket;

/// Whether a preview buffer of `room` numbers is too short for the lines of a batch. It is judged for 1, 4
/// or 8 lines alone.
pub fn is_short(batch: &Batch, size: (usize, usize), room: usize) -> bool {
    [1, 4, 8].contains(&batch.count) && room < batch.count * batch.side(size)
}

/// A preview into a buffer of `room` numbers, of a batch lent two buffers of these lengths.
pub fn preview(ticket: &Ticket, batch: &Batch, lengths: [usize; 2], room: usize) -> Result<usize, Refusal> {
    match batch::batch(ticket, batch, lengths) {
        // The numbers below 3. Only without them is the ticket's size one that there is.
        Err(lower @ (BadSize | BadKind)) => Err(lower),
        _ if is_short(batch, (ticket.w, ticket.h), room) => Err(ShortBuffer),
        outcome => outcome,
    }
}
