//! The lighter of two trials.

use super::answer::{Refusal, read};

unsafe extern "C" {
    fn mizdrek_lighter(
        first: *const i32,
        first_len: usize,
        second: *const i32,
        second_len: usize,
        count: usize,
    ) -> i64;
}

/// The first `count` levels of the buffer in which the sum of their magnitudes is the smaller, the first
/// buffer's on a tie: a part of that buffer, no copy.
pub fn lighter<'a>(first: &'a [i32], second: &'a [i32], count: usize) -> Result<&'a [i32], Refusal> {
    // Each pointer goes with its own slice's length.
    let which =
        read(unsafe { mizdrek_lighter(first.as_ptr(), first.len(), second.as_ptr(), second.len(), count) })?;
    Ok(&[first, second][which][..count])
}
