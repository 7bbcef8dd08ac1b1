//! Blocks of all sixteen sizes, and the squares with ADST.

use super::timing::row;
use crate::av2::fdct;
use crate::mizdrek;
use crate::oracle::{self, ADST, DCT};
use crate::random::Random;
use crate::rules::transform::RESIDUAL_LIMIT;
use crate::samples::residuals;
use std::hint::black_box;

pub fn rows() {
    for (size, kinds) in oracle::blocks() {
        let (w, h) = size;
        let given = residuals(&mut Random::new(5), w * h, RESIDUAL_LIMIT);
        let mut theirs = vec![0; w * h];
        let (mut scratch, mut output) = (vec![0; w * h], vec![0; w * h]);
        let [column, row_name] = kinds.map(|kind| if kind == ADST { "ADST" } else { "DCT" });
        let label = format!("block {w}x{h} {column} {row_name}");
        row(
            &label,
            || rust(black_box(size), black_box(kinds), black_box(&given), black_box(&mut theirs)),
            || {
                let (size, kinds) = black_box((size, kinds));
                let given = black_box(&given);
                let _ = black_box(mizdrek::block(
                    size,
                    kinds,
                    given,
                    black_box(&mut scratch),
                    black_box(&mut output),
                ));
            },
        );
    }
}

/// The Rust's function for the block, without a copy of its result.
fn rust((w, h): (usize, usize), kinds: [u32; 2], given: &[i32], output: &mut [i32]) {
    let [column, row] = kinds.map(|kind| kind == ADST);
    match (kinds, w) {
        ([DCT, DCT], _) => _ = black_box(fdct::dct_block(given, w, h, output)),
        (_, 4) => _ = black_box(fdct::fwd4x4(given.try_into().expect("16 residuals"), column, row)),
        (_, 8) => _ = black_box(fdct::fwd8x8(given.try_into().expect("64 residuals"), column, row)),
        _ => _ = black_box(fdct::fwd16x16(given.try_into().expect("256 residuals"), column, row)),
    }
}
