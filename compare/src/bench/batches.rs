//! Whole blocks in batches of 8, 4 and 1 lines, opening included, against the Rust's block.

use super::timing::row;
use crate::av2::fdct;
use crate::mizdrek::{self, Ticket};
use crate::oracle::{DCT, SIDES};
use crate::random::Random;
use crate::rules::transform::RESIDUAL_LIMIT;
use crate::samples::residuals;
use std::hint::black_box;

pub fn rows() {
    for w in SIDES {
        for h in SIDES {
            let given = residuals(&mut Random::new(5), w * h, RESIDUAL_LIMIT);
            for count in [8, 4, 1] {
                size(w, h, count, &given);
            }
        }
    }
}

fn size(w: usize, h: usize, count: usize, given: &[i32]) {
    let mut theirs = vec![0; w * h];
    let (mut scratch, mut output) = (vec![0; w * h], vec![0; w * h]);
    row(
        &format!("block {w}x{h} in batches of {count}"),
        || {
            let (w, h) = black_box((w, h));
            black_box(fdct::dct_block(black_box(given), w, h, black_box(&mut theirs)));
        },
        || in_batches(black_box((w, h)), black_box(count), black_box(given), &mut scratch, &mut output),
    );
}

/// Opens a block and runs all its lines, at most `count` at a time.
fn in_batches(
    (w, h): (usize, usize),
    count: usize,
    residuals: &[i32],
    scratch: &mut [i32],
    output: &mut [i32],
) {
    let mut ticket = Ticket::default();
    let _ = mizdrek::open((w, h), [DCT, DCT], residuals, scratch, output, &mut ticket);
    for start in (0..w).step_by(count) {
        let _ = mizdrek::column_batch(&mut ticket, residuals, scratch, start, count.min(w));
    }
    for start in (0..h).step_by(count) {
        let _ = mizdrek::row_batch(&mut ticket, scratch, output, start, count.min(h));
    }
    black_box((&ticket, scratch, output));
}
