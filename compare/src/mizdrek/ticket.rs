//! A block in batches of lines, in any order, under a ticket.

use super::answer::{Refusal, read};

/// The state of a block that is worked on in batches: its sides, its kinds, and a bit for each line
/// that is done, the lowest for line 0.
#[repr(C)]
#[derive(Clone, Copy, Debug, Default, PartialEq, Eq)]
pub struct Ticket {
    pub w: usize,
    pub h: usize,
    pub column_kind: u32,
    pub row_kind: u32,
    pub columns: u32,
    pub rows: u32,
}

unsafe extern "C" {
    fn mizdrek_open(
        w: usize,
        h: usize,
        column_kind: u32,
        row_kind: u32,
        residuals: *const i32,
        residuals_len: usize,
        scratch: *const i32,
        scratch_len: usize,
        output: *const i32,
        output_len: usize,
        ticket: *mut Ticket,
    ) -> i64;
    fn mizdrek_column_batch(
        ticket: *mut Ticket,
        residuals: *const i32,
        residuals_len: usize,
        scratch: *mut i32,
        scratch_len: usize,
        start: usize,
        count: usize,
    ) -> i64;
    fn mizdrek_row_batch(
        ticket: *mut Ticket,
        scratch: *const i32,
        scratch_len: usize,
        output: *mut i32,
        output_len: usize,
        start: usize,
        count: usize,
    ) -> i64;
}

/// Makes the ticket of a block, with no line done. Writes no buffer.
pub fn open(
    (w, h): (usize, usize),
    [column_kind, row_kind]: [u32; 2],
    residuals: &[i32],
    scratch: &[i32],
    output: &[i32],
    ticket: &mut Ticket,
) -> Result<usize, Refusal> {
    // Each pointer goes with its own slice's length; the ticket is one struct of C's layout.
    read(unsafe {
        mizdrek_open(
            w,
            h,
            column_kind,
            row_kind,
            residuals.as_ptr(),
            residuals.len(),
            scratch.as_ptr(),
            scratch.len(),
            output.as_ptr(),
            output.len(),
            ticket,
        )
    })
}

/// Works out `count` columns from `start` into scratch and marks them. Answers the number of lines.
pub fn column_batch(
    ticket: &mut Ticket,
    residuals: &[i32],
    scratch: &mut [i32],
    start: usize,
    count: usize,
) -> Result<usize, Refusal> {
    let (length, into) = (scratch.len(), scratch.as_mut_ptr());
    // Each pointer goes with its own slice's length; the ticket is one struct of C's layout.
    read(unsafe {
        mizdrek_column_batch(ticket, residuals.as_ptr(), residuals.len(), into, length, start, count)
    })
}

/// Works out `count` rows from `start` into output and marks them. Answers the number of lines.
pub fn row_batch(
    ticket: &mut Ticket,
    scratch: &[i32],
    output: &mut [i32],
    start: usize,
    count: usize,
) -> Result<usize, Refusal> {
    let (length, into) = (output.len(), output.as_mut_ptr());
    // Each pointer goes with its own slice's length; the ticket is one struct of C's layout.
    read(unsafe { mizdrek_row_batch(ticket, scratch.as_ptr(), scratch.len(), into, length, start, count) })
}
