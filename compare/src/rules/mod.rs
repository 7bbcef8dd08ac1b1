//! Document 01's refusals, read from its table: what each call must answer. Each function tests in the
//! order of the numbers, so that the lowest that applies is given; planes, the reader and the report of
//! records and the choice of a trial have orders of their own.

pub mod batch;
pub mod choice;
pub mod levels;
pub mod plane;
pub mod preview;
pub mod records;
pub mod transform;

use crate::oracle::{ADST, DCT, SIDES};

/// Whether this is a side, a width or a pass's line count.
fn is_side(n: usize) -> bool {
    SIDES.contains(&n)
}

/// Whether the kinds are those of a block of this size.
fn are_kinds(w: usize, h: usize, kinds: [u32; 2]) -> bool {
    kinds.iter().all(|&kind| kind == DCT || kind == ADST && w == h && w != 32)
}
