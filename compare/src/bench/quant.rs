//! The quantizer over whole squares, in both readings of a scan.

use super::timing::row;
use crate::av2::fdct;
use crate::mizdrek::{self, Settings};
use crate::random::Random;
use crate::samples::residuals;
use std::hint::black_box;

const STEP: u32 = 1248;
const SETTINGS: Settings = Settings { factor: 0.125, threshold: 0.625, dead_zone: 0.375 };

pub fn rows() {
    for width in [32, 8, 4] {
        let entries = width * width;
        let direct: Vec<u16> = (0..entries).map(|i| (i % width * width + i / width) as u16).collect();
        let stride: Vec<u16> = (0..entries).map(|i| (i % width + i / width * 32) as u16).collect();
        // Typical coefficients, most of them small, and large ones, all of them kept.
        for (name, limit) in [("small", 9_000), ("large", 900_000)] {
            let coefficients = residuals(&mut Random::new(7), entries, limit);
            scan(&format!("levels of {entries}, {name}, direct"), width, &coefficients, &direct);
            scan(&format!("levels of {entries}, {name}, stride 32"), width, &coefficients, &stride);
        }
    }
}

fn scan(label: &str, width: usize, coefficients: &[i32], scan: &[u16]) {
    let (mut their_levels, mut their_magnitudes) = (Vec::new(), Vec::new());
    let (mut levels, mut magnitudes) = (vec![0.0; scan.len()], vec![0.0; scan.len()]);
    let rust = || {
        let (step, settings) = black_box((STEP, SETTINGS));
        fdct::quantize_to_levels(
            black_box(coefficients),
            black_box(width),
            step as i32,
            settings.factor,
            settings.threshold,
            black_box(scan),
            settings.dead_zone,
            black_box(&mut their_levels),
            black_box(&mut their_magnitudes),
        )
    };
    row(label, rust, || {
        _ = black_box(mizdrek::quantize_to_levels(
            black_box(width),
            black_box((STEP, SETTINGS)),
            black_box(coefficients),
            black_box(scan),
            black_box(&mut levels),
            black_box(&mut magnitudes),
        ));
    });
}
