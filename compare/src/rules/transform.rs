//! Passes, blocks, openings and the WHT.

use super::{are_kinds, is_side};
use crate::mizdrek::Refusal::{self, BadKind, BadSize, ResidualRange, ShortBuffer};
use crate::oracle::has_kernel;

/// The largest residual, and minus the smallest.
pub const RESIDUAL_LIMIT: i32 = 4095;

/// A pass, by its arguments and the lengths of its two buffers.
pub fn pass(side: usize, kind: u32, shift: i32, lines: usize, lengths: [usize; 2]) -> Result<usize, Refusal> {
    if !is_side(side) || !is_side(lines) || !(0..=15).contains(&shift) {
        return Err(BadSize);
    }
    if !has_kernel(kind, side) {
        return Err(BadKind);
    }
    let count = side * lines;
    if lengths.iter().any(|&length| length < count) {
        return Err(ShortBuffer);
    }
    Ok(count)
}

/// A block or an opening, by its residuals and the lengths of scratch and output.
pub fn block(
    (w, h): (usize, usize),
    kinds: [u32; 2],
    residuals: &[i32],
    lengths: [usize; 2],
) -> Result<usize, Refusal> {
    if !is_side(w) || !is_side(h) {
        return Err(BadSize);
    }
    if !are_kinds(w, h, kinds) {
        return Err(BadKind);
    }
    within_limits(w * h, residuals, &lengths)
}

pub fn fwht4x4(residuals: &[i32], output: usize) -> Result<usize, Refusal> {
    within_limits(16, residuals, &[output])
}

/// The buffers have `count` numbers, and as many residuals are within the limit.
fn within_limits(count: usize, residuals: &[i32], lengths: &[usize]) -> Result<usize, Refusal> {
    if residuals.len() < count || lengths.iter().any(|&length| length < count) {
        return Err(ShortBuffer);
    }
    let limits = -RESIDUAL_LIMIT..=RESIDUAL_LIMIT;
    if residuals[..count].iter().any(|residual| !limits.contains(residual)) {
        return Err(ResidualRange);
    }
    Ok(count)
}
