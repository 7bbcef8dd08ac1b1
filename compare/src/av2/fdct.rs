include!(env!("ORACLE_FDCT"));

// What follows stands in the Rust's module to reach its private names.

/// The kernel number of frequency `f` and sample `k`, as the Rust's passes read it.
pub fn kernel(adst: bool, side: usize, f: usize, k: usize) -> i32 {
    let number = match (adst, side) {
        (false, 4) => DCT4_FWD_KERNEL[f * 4 + k],
        (false, 8) => DCT8_FWD_KERNEL[f * 8 + k],
        (false, 16) => DCT16_FWD_KERNEL[f * 16 + k],
        (false, 32) => DCT32_FWD_KERNEL[f * 32 + k],
        (true, 4) => ADST4_FWD_KERNEL[f * 4 + k],
        (true, 8) => crate::av2::itx::ADST8_KERNEL[k * 8 + f],
        (true, 16) => ADST16_FWD_KERNEL[f * 16 + k],
        _ => panic!("the Rust has no such kernel"),
    };
    i32::from(number)
}

/// One pass of the Rust over `lines` lines.
pub fn pass(adst: bool, side: usize, shift: i32, lines: usize, src: &[i32], dst: &mut [i32]) {
    match (adst, side) {
        (false, _) => fdct_1d_n(side, src, dst, shift, lines, 0),
        (true, 4) => fadst4_1d(src, dst, shift, lines),
        (true, 8) => fadst8_1d(src, dst, shift, lines),
        (true, 16) => fadst16_1d(src, dst, shift, lines),
        _ => panic!("the Rust has no such pass"),
    }
}

/// The Rust's DCT block by its scalar engine, whatever engine it would pick.
pub fn dct_block(resid: &[i32], w: usize, h: usize, out: &mut [i32]) -> usize {
    // It is marked unsafe for the engines that need processor features; this one needs none.
    unsafe { fdct_rect_scalar(resid, w, h, out) }
}
