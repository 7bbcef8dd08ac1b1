//! The DC scale of a block.

use super::answer::{Refusal, read};

unsafe extern "C" {
    fn mizdrek_dc_tx_scale(w: usize, h: usize) -> i64;
}

/// The exponent of a block's DC scale: 0 to 1 for sides up to 32.
pub fn dc_tx_scale(w: usize, h: usize) -> Result<usize, Refusal> {
    // Numbers alone are passed.
    read(unsafe { mizdrek_dc_tx_scale(w, h) })
}
