//! Passes: the call over 32, 16, 8 and 4 lines; and over 32 the lane pass without its call (less a call of
//! no lines), and 8, 4 and 1 lines at a time.

use super::timing::{row, row_without};
use crate::av2::fdct;
use crate::mizdrek;
use crate::oracle::{ADST, KERNELS};
use crate::probe::passes as ours;
use crate::random::Random;
use crate::samples::residuals;
use std::hint::black_box;

const LINES: usize = 32;
const SHIFT: i32 = 3;

pub fn rows() {
    for (kind, side) in KERNELS {
        for lines in [32, 16, 8, 4] {
            call(kind, side, lines);
        }
        lane_pass(kind, side);
    }
}

fn name(kind: u32, side: usize) -> String {
    format!("{}{side}", if kind == ADST { "ADST" } else { "DCT" })
}

/// The Rust's pass over `lines` lines of `src`.
fn rust(kind: u32, side: usize, lines: usize, src: &[i32]) -> impl FnMut() {
    let mut dst = vec![0; side * lines];
    move || {
        let (side, lines) = black_box((side, lines));
        fdct::pass(kind == ADST, side, black_box(SHIFT), lines, black_box(src), black_box(&mut dst));
    }
}

/// The call over so many lines.
fn call(kind: u32, side: usize, lines: usize) {
    let src = residuals(&mut Random::new(5), side * lines, 4095);
    let mut dst = vec![0; side * lines];
    row(&format!("{} pass of {lines} lines", name(kind, side)), rust(kind, side, lines, &src), || {
        let (side, kind, shift, lines) = black_box((side, kind, SHIFT, lines));
        let _ = black_box(mizdrek::pass(side, kind, shift, lines, black_box(&src), black_box(&mut dst)));
    });
}

/// The lane pass over all lines without its call, and a few lines at a time.
fn lane_pass(kind: u32, side: usize) {
    let name = name(kind, side);
    let src = residuals(&mut Random::new(5), side * LINES, 4095);
    let mut dst = vec![0; side * LINES];
    let some = |count, dst: &mut [i32]| {
        let (kernel, count) = black_box(((side, kind, SHIFT), count));
        let _ = black_box(ours::lanes(kernel, (LINES, 0, count), black_box(&src), black_box(dst)));
    };
    let mut rest = vec![0; side * LINES];
    row_without(
        &format!("{name} lanes, less the call"),
        rust(kind, side, LINES, &src),
        || some(LINES, &mut dst),
        || some(0, &mut rest),
    );
    for count in [8, 4, 1] {
        row(&format!("{name} pass, lanes of {count}"), rust(kind, side, LINES, &src), || {
            let (kernel, count) = black_box(((side, kind, SHIFT), count));
            for start in (0..LINES).step_by(count) {
                let _ = ours::lanes(kernel, (LINES, start, count), black_box(&src), black_box(&mut dst));
            }
        });
    }
}
