//! The 4x4 Walsh-Hadamard transform.

use super::timing::row;
use crate::av2::wht;
use crate::mizdrek;
use crate::random::Random;
use crate::rules::transform::RESIDUAL_LIMIT;
use crate::samples::residuals;
use std::hint::black_box;

pub fn rows() {
    let given = residuals(&mut Random::new(5), 16, RESIDUAL_LIMIT);
    let mut output = [0; 16];
    row(
        "WHT 4x4",
        || _ = black_box(wht::fwht4x4(black_box(given.as_slice()).try_into().expect("16 residuals"))),
        || _ = black_box(mizdrek::fwht4x4(black_box(&given), black_box(&mut output))),
    );
}
