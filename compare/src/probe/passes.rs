//! The lane pass.

use crate::mizdrek::{Refusal, read};

unsafe extern "C" {
    fn probe_lanes(
        side: usize,
        kind: u32,
        shift: i32,
        lines: usize,
        start: usize,
        count: usize,
        src: *const i32,
        src_len: usize,
        dst: *mut i32,
        dst_len: usize,
    ) -> i64;
}

/// The lane pass over `count` lines from `start`, out of `lines` lines.
pub fn lanes(
    (side, kind, shift): (usize, u32, i32),
    (lines, start, count): (usize, usize, usize),
    src: &[i32],
    dst: &mut [i32],
) -> Result<usize, Refusal> {
    // Each pointer goes with its own slice's length.
    read(unsafe {
        probe_lanes(
            side,
            kind,
            shift,
            lines,
            start,
            count,
            src.as_ptr(),
            src.len(),
            dst.as_mut_ptr(),
            dst.len(),
        )
    })
}
