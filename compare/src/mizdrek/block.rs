//! A whole block.

use super::answer::{Refusal, read};

unsafe extern "C" {
    fn mizdrek_block(
        w: usize,
        h: usize,
        column_kind: u32,
        row_kind: u32,
        residuals: *const i32,
        residuals_len: usize,
        scratch: *mut i32,
        scratch_len: usize,
        output: *mut i32,
        output_len: usize,
    ) -> i64;
}

/// Transforms the first `w * h` residuals, row by row. Writes as many numbers of scratch and of output.
pub fn block(
    (w, h): (usize, usize),
    [column_kind, row_kind]: [u32; 2],
    residuals: &[i32],
    scratch: &mut [i32],
    output: &mut [i32],
) -> Result<usize, Refusal> {
    // Each pointer goes with its own slice's length.
    read(unsafe {
        mizdrek_block(
            w,
            h,
            column_kind,
            row_kind,
            residuals.as_ptr(),
            residuals.len(),
            scratch.as_mut_ptr(),
            scratch.len(),
            output.as_mut_ptr(),
            output.len(),
        )
    })
}
