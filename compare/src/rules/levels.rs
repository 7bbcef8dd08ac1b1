//! The quantizer.

use super::is_side;
use crate::mizdrek::Refusal::{self, BadSetting, BadSize, CoefficientRange, ScanRange, ShortBuffer};
use crate::mizdrek::Settings;

/// The longest scan.
pub const SCAN_LIMIT: usize = 1024;

/// The largest coefficient, and minus the smallest.
pub const COEFFICIENT_LIMIT: i32 = 1_048_576;

/// The largest step.
pub const STEP_LIMIT: u32 = 1_048_576;

/// Whether step and settings are within their ranges. A NaN is within none; -0.0 counts as 0.
pub fn are_settings(step: u32, settings: Settings) -> bool {
    let Settings { factor, threshold, dead_zone } = settings;
    (1..=STEP_LIMIT).contains(&step)
        && (1.0 / 1024.0..=1024.0).contains(&factor)
        && (0.0..=1_048_576.0).contains(&threshold)
        && (0.0..=0.5).contains(&dead_zone)
}

pub fn is_coefficient(coefficient: i32) -> bool {
    (-COEFFICIENT_LIMIT..=COEFFICIENT_LIMIT).contains(&coefficient)
}

/// The places that a scan means.
pub fn places(width: usize, scan: &[u16]) -> Vec<usize> {
    let direct = scan.get(1).is_some_and(|&second| usize::from(second) == width);
    let place = |&rc: &u16| {
        let rc = usize::from(rc);
        if direct { rc } else { (rc % 32) * width + rc / 32 }
    };
    scan.iter().map(place).collect()
}

/// One place.
pub fn one(step: u32, settings: Settings, coefficient: i32) -> Result<(), Refusal> {
    if !are_settings(step, settings) {
        return Err(BadSetting);
    }
    if !is_coefficient(coefficient) {
        return Err(CoefficientRange);
    }
    Ok(())
}

/// A scan, with the lengths of levels and magnitudes.
pub fn scan(
    width: usize,
    (step, settings): (u32, Settings),
    coefficients: &[i32],
    scan: &[u16],
    lengths: [usize; 2],
) -> Result<usize, Refusal> {
    if !is_side(width) {
        return Err(BadSize);
    }
    if lengths.iter().any(|&length| length < scan.len()) {
        return Err(ShortBuffer);
    }
    if !are_settings(step, settings) {
        return Err(BadSetting);
    }
    let places = places(width, scan);
    if scan.len() > SCAN_LIMIT || places.iter().any(|&place| place >= coefficients.len()) {
        return Err(ScanRange);
    }
    if places.iter().any(|&place| !is_coefficient(coefficients[place])) {
        return Err(CoefficientRange);
    }
    Ok(scan.len())
}
