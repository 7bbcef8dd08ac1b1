//! Steps and levels.

use super::answer::{Refusal, read};
use super::settings::Settings;

unsafe extern "C" {
    fn mizdrek_qstep(index: u32) -> u32;
    fn mizdrek_quantize_one(
        factor: f32,
        threshold: f32,
        dead_zone: f32,
        step: u32,
        coefficient: i32,
        level: *mut f32,
        magnitude: *mut f32,
    ) -> i64;
    fn mizdrek_quantize_to_levels(
        width: usize,
        step: u32,
        factor: f32,
        threshold: f32,
        dead_zone: f32,
        coefficients: *const i32,
        coefficients_len: usize,
        scan: *const u16,
        scan_len: usize,
        levels: *mut f32,
        levels_len: usize,
        magnitudes: *mut f32,
        magnitudes_len: usize,
    ) -> i64;
}

/// The step of an index. Indexes above 255 count as 255.
pub fn qstep(index: u32) -> u32 {
    // A number alone is passed.
    unsafe { mizdrek_qstep(index) }
}

/// Quantizes one coefficient. Answers 1 where it is kept and 0 where it is dropped.
pub fn quantize_one(
    settings: Settings,
    step: u32,
    coefficient: i32,
    level: &mut f32,
    magnitude: &mut f32,
) -> Result<usize, Refusal> {
    let Settings { factor, threshold, dead_zone } = settings;
    // The two results are lent as places of their own.
    read(unsafe { mizdrek_quantize_one(factor, threshold, dead_zone, step, coefficient, level, magnitude) })
}

/// Quantizes the coefficients that the scan names, in its order. Writes one level and one magnitude
/// for each entry and answers their number.
pub fn quantize_to_levels(
    width: usize,
    (step, settings): (u32, Settings),
    coefficients: &[i32],
    scan: &[u16],
    levels: &mut [f32],
    magnitudes: &mut [f32],
) -> Result<usize, Refusal> {
    let Settings { factor, threshold, dead_zone } = settings;
    // Each pointer goes with its own slice's length.
    read(unsafe {
        mizdrek_quantize_to_levels(
            width,
            step,
            factor,
            threshold,
            dead_zone,
            coefficients.as_ptr(),
            coefficients.len(),
            scan.as_ptr(),
            scan.len(),
            levels.as_mut_ptr(),
            levels.len(),
            magnitudes.as_mut_ptr(),
            magnitudes.len(),
        )
    })
}
