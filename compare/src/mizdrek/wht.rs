//! The 4x4 Walsh-Hadamard transform.

use super::answer::{Refusal, read};

unsafe extern "C" {
    fn mizdrek_fwht4x4(
        residuals: *const i32,
        residuals_len: usize,
        output: *mut i32,
        output_len: usize,
    ) -> i64;
}

/// Transforms the first 16 residuals into the first 16 numbers of output.
pub fn fwht4x4(residuals: &[i32], output: &mut [i32]) -> Result<usize, Refusal> {
    // Each pointer goes with its own slice's length.
    read(unsafe { mizdrek_fwht4x4(residuals.as_ptr(), residuals.len(), output.as_mut_ptr(), output.len()) })
}
