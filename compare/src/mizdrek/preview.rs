//! A look at the lines of a batch before it is run.

use super::answer::{Refusal, read};
use super::ticket::Ticket;

unsafe extern "C" {
    fn mizdrek_preview_columns(
        ticket: *const Ticket,
        residuals: *const i32,
        residuals_len: usize,
        scratch: *const i32,
        scratch_len: usize,
        preview: *mut i32,
        preview_len: usize,
        start: usize,
        count: usize,
    ) -> i64;
    fn mizdrek_preview_rows(
        ticket: *const Ticket,
        scratch: *const i32,
        scratch_len: usize,
        output: *const i32,
        output_len: usize,
        preview: *mut i32,
        preview_len: usize,
        start: usize,
        count: usize,
    ) -> i64;
}

/// Writes the columns that `column_batch` would write to scratch into the front of preview, `h` numbers
/// each. Answers the number of lines.
pub fn preview_columns(
    ticket: &Ticket,
    residuals: &[i32],
    scratch: &[i32],
    preview: &mut [i32],
    start: usize,
    count: usize,
) -> Result<usize, Refusal> {
    // Each pointer goes with its own slice's length; the ticket is one struct of C's layout.
    read(unsafe {
        mizdrek_preview_columns(
            ticket,
            residuals.as_ptr(),
            residuals.len(),
            scratch.as_ptr(),
            scratch.len(),
            preview.as_mut_ptr(),
            preview.len(),
            start,
            count,
        )
    })
}

/// Writes the rows that `row_batch` would write to output into the front of preview, `w` numbers each.
/// Answers the number of lines.
pub fn preview_rows(
    ticket: &Ticket,
    scratch: &[i32],
    output: &[i32],
    preview: &mut [i32],
    start: usize,
    count: usize,
) -> Result<usize, Refusal> {
    // Each pointer goes with its own slice's length; the ticket is one struct of C's layout.
    read(unsafe {
        mizdrek_preview_rows(
            ticket,
            scratch.as_ptr(),
            scratch.len(),
            output.as_ptr(),
            output.len(),
            preview.as_mut_ptr(),
            preview.len(),
            start,
            count,
        )
    })
}
