//! A single pass.

use super::answer::{Refusal, read};

unsafe extern "C" {
    fn mizdrek_pass(
        side: usize,
        kind: u32,
        shift: i32,
        lines: usize,
        src: *const i32,
        src_len: usize,
        dst: *mut i32,
        dst_len: usize,
    ) -> i64;
}

/// Transforms `lines` lines of `side` samples: sample k of line j is `src[k * lines + j]`, frequency f
/// of line j goes to `dst[j * side + f]`. Kind 0 is the DCT, 1 the ADST. At shift 0 these are the kernel's sums,
/// at 32 bits.
pub fn pass(
    side: usize,
    kind: u32,
    shift: i32,
    lines: usize,
    src: &[i32],
    dst: &mut [i32],
) -> Result<usize, Refusal> {
    // Each pointer goes with its own slice's length.
    read(unsafe {
        mizdrek_pass(side, kind, shift, lines, src.as_ptr(), src.len(), dst.as_mut_ptr(), dst.len())
    })
}
