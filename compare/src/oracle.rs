//! The Rust's answers in the terms of the comparison.

use crate::av2::{fdct, wht};
use crate::mizdrek::Settings;

/// The sides that there are.
pub const SIDES: [usize; 4] = [4, 8, 16, 32];

/// The kinds by number.
pub const DCT: u32 = 0;
pub const ADST: u32 = 1;

/// Each kind with each side that it has.
pub const KERNELS: [(u32, usize); 7] =
    [(DCT, 4), (DCT, 8), (DCT, 16), (DCT, 32), (ADST, 4), (ADST, 8), (ADST, 16)];

/// Whether the Rust has a kernel of this kind and side.
pub fn has_kernel(kind: u32, side: usize) -> bool {
    KERNELS.contains(&(kind, side))
}

/// The kernel number in row `f`, column `k`.
pub fn kernel(kind: u32, side: usize, f: usize, k: usize) -> i32 {
    fdct::kernel(kind == ADST, side, f, k)
}

/// The numbers that a pass writes. At side 32 the scalar Rust has no shift 0, and the rule stands for it.
pub fn pass(side: usize, kind: u32, shift: i32, lines: usize, src: &[i32]) -> Vec<i32> {
    if (side, shift) == (32, 0) {
        return kernel_sums(side, kind, lines, src);
    }
    let mut dst = vec![0; side * lines];
    fdct::pass(kind == ADST, side, shift, lines, src, &mut dst);
    dst
}

/// The rule for a pass at shift 0: the sums of the Rust's kernel numbers times the samples, at 32 bits.
pub fn kernel_sums(side: usize, kind: u32, lines: usize, src: &[i32]) -> Vec<i32> {
    let product = |j, f, k| i64::from(kernel(kind, side, f, k)) * i64::from(src[k * lines + j]);
    let sum = |j, f| (0..side).map(|k| product(j, f, k)).sum::<i64>() as i32;
    (0..side * lines).map(|place| sum(place / side, place % side)).collect()
}

/// The sixteen sizes, and the kinds of each: DCT both ways, and all other pairs where ADST may be.
pub fn blocks() -> Vec<((usize, usize), [u32; 2])> {
    let mut all = Vec::new();
    for w in SIDES {
        for h in SIDES {
            all.push(((w, h), [DCT, DCT]));
            if w == h && w != 32 {
                all.extend([[DCT, ADST], [ADST, DCT], [ADST, ADST]].map(|kinds| ((w, h), kinds)));
            }
        }
    }
    all
}

/// The numbers that a block's first pass writes to scratch.
pub fn columns((w, h): (usize, usize), kind: u32, residuals: &[i32]) -> Vec<i32> {
    let (first, _) = fdct::fwd_shifts(w, h);
    pass(h, kind, first, w, residuals)
}

/// The numbers that a block's second pass makes of any scratch, scaled where a block is.
pub fn rows((w, h): (usize, usize), kind: u32, scratch: &[i32]) -> Vec<i32> {
    let (_, second) = fdct::fwd_shifts(w, h);
    let mut output = pass(w, kind, second, h, scratch);
    if (w.ilog2() + h.ilog2()) % 2 == 1 {
        for v in &mut output {
            *v = ((5793 * i64::from(*v) + 2048).div_euclid(4096)) as i32;
        }
    }
    output
}

/// The numbers that a block writes to output.
pub fn block((w, h): (usize, usize), kinds: [u32; 2], residuals: &[i32]) -> Vec<i32> {
    if kinds == [DCT, DCT] {
        let mut output = vec![0; w * h];
        fdct::dct_block(residuals, w, h, &mut output);
        return output;
    }
    square(w, kinds, &residuals[..w * h])
}

/// A square block of side 4, 8 or 16 by the Rust's functions for such.
pub fn square(side: usize, kinds: [u32; 2], residuals: &[i32]) -> Vec<i32> {
    let [column, row] = kinds.map(|kind| kind == ADST);
    match side {
        4 => fdct::fwd4x4(exact(residuals), column, row).to_vec(),
        8 => fdct::fwd8x8(exact(residuals), column, row).to_vec(),
        16 => fdct::fwd16x16(exact(residuals), column, row).to_vec(),
        _ => panic!("the Rust has no such square"),
    }
}

pub fn fwht4x4(residuals: &[i32]) -> Vec<i32> {
    wht::fwht4x4(exact(residuals)).to_vec()
}

/// The levels and the magnitudes of a scan.
pub fn levels(
    width: usize,
    step: u32,
    settings: Settings,
    coefficients: &[i32],
    scan: &[u16],
) -> (Vec<f32>, Vec<f32>) {
    let (mut levels, mut magnitudes) = (Vec::new(), Vec::new());
    fdct::quantize_to_levels(
        coefficients,
        width,
        step as i32,
        settings.factor,
        settings.threshold,
        scan,
        settings.dead_zone,
        &mut levels,
        &mut magnitudes,
    );
    (levels, magnitudes)
}

/// A slice of exactly N numbers as the array that it is.
fn exact<const N: usize>(numbers: &[i32]) -> &[i32; N] {
    numbers.try_into().expect("a block of exactly this many residuals")
}
