//! Levels and magnitudes: scans, and single places.

use super::Record;
use crate::mizdrek::Settings;
use crate::oracle::{self, SIDES};
use crate::random::Random;
use crate::rules::levels::{COEFFICIENT_LIMIT, STEP_LIMIT};
use crate::samples::residuals;
use crate::settings::{good_settings, good_step};

/// Document 01's settings, the limits, and some that round a number next to a half.
const SETTINGS: [(u32, Settings); 7] = [
    (16, DOCUMENT_01),
    (1, Settings { factor: 1024.0, threshold: 0.0, dead_zone: 0.5 }),
    (STEP_LIMIT, Settings { factor: 1.0 / 1024.0, threshold: 0.0, dead_zone: 0.0 }),
    (1, Settings { factor: 1.0, threshold: 1_048_576.0, dead_zone: 0.5 }),
    (40, Settings { factor: 1.0, threshold: -0.0, dead_zone: -0.0 }),
    (2, Settings { factor: f32::from_bits(0x3f7f_ffff), threshold: 0.0, dead_zone: 0.5 }),
    (64, Settings { factor: 0.125, threshold: 0.625, dead_zone: 0.36 }),
];

/// The settings of document 01's example.
pub const DOCUMENT_01: Settings = Settings { factor: 1.0, threshold: 0.5, dead_zone: 0.375 };

/// Document 01's coefficients, small ones around them, and the limits.
#[rustfmt::skip]
const COEFFICIENTS: [i32; 16] = [
    9, -24, 7, -9, 0, 1, -1, 8, -8, 24, 40, 33_333, -777_777,
    COEFFICIENT_LIMIT, -COEFFICIENT_LIMIT, COEFFICIENT_LIMIT - 1,
];

/// The sixteen places of a block of width 4, column by column.
const BY_COLUMNS: [u16; 16] = [0, 4, 8, 12, 1, 5, 9, 13, 2, 6, 10, 14, 3, 7, 11, 15];

pub fn records(random: &mut Random) -> Vec<Record> {
    let mut records = Vec::new();
    for (step, settings) in SETTINGS {
        records.extend(COEFFICIENTS.map(|coefficient| one(step, settings, coefficient)));
        records.push(scan(4, step, settings, &COEFFICIENTS, &BY_COLUMNS));
    }
    for _ in 0..100 {
        let (step, settings) = (good_step(random), good_settings(random));
        let limit = i64::from(COEFFICIENT_LIMIT);
        let coefficient = random.within(-limit, limit) as i32;
        records.push(one(step, settings, coefficient >> random.below(20)));
    }
    for w in SIDES {
        for h in SIDES {
            records.extend(block_scans(random, w, h));
        }
    }
    records.push(scan(8, 16, DOCUMENT_01, &[5, 6], &[]));
    records.push(scan(8, 16, DOCUMENT_01, &[5, 600], &[32]));
    records
}

/// A block's places column by column: in the direct reading, by stride 32, or for small ones both.
fn block_scans(random: &mut Random, w: usize, h: usize) -> Vec<Record> {
    let direct: Vec<u16> = (0..w * h).map(|i| (i % h * w + i / h) as u16).collect();
    let by_stride: Vec<u16> = (0..w * h).map(|i| (i / h * 32 + i % h) as u16).collect();
    let scans = match w * h {
        ..=128 => vec![direct, by_stride],
        _ if w < h => vec![direct],
        _ => vec![by_stride],
    };
    let records = scans.iter().map(|places| {
        let coefficients = residuals(random, w * h, 30_000);
        let (threshold, dead_zone) = random.pick(&[(0.5, 0.375), (0.0, 0.5), (0.625, 0.36)]);
        let settings = Settings { factor: 1.0, threshold, dead_zone };
        scan(w, random.pick(&[16, 64, 1248]), settings, &coefficients, places)
    });
    records.collect()
}

fn scan(width: usize, step: u32, settings: Settings, coefficients: &[i32], scan: &[u16]) -> Record {
    let (levels, magnitudes) = oracle::levels(width, step, settings, coefficients, scan);
    let record = Record::new(8).put([width as i64, step.into()]).settings(settings);
    let record = record.list(coefficients).list(scan).put([scan.len() as i64; 3]);
    record.floats(&levels).floats(&magnitudes)
}

fn one(step: u32, settings: Settings, coefficient: i32) -> Record {
    let (level, magnitude) = oracle::levels(4, step, settings, &[coefficient], &[0]);
    let kept = i64::from(magnitude[0] >= settings.threshold);
    let record = Record::new(9).put([step.into()]).settings(settings);
    record.put([coefficient.into(), kept]).floats(&level).floats(&magnitude)
}
