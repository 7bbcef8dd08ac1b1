//! Settings of the quantizer: within their ranges, at their limits, and outside.

use crate::mizdrek::Settings;
use crate::random::Random;
use crate::rules::levels::STEP_LIMIT;

const LEAST_FACTOR: f32 = 1.0 / 1024.0;
const MOST_FACTOR: f32 = 1024.0;
const MOST_THRESHOLD: f32 = 1_048_576.0;
const LEAST_FLOAT: f32 = f32::from_bits(1);

/// Numbers that no range has.
const NOWHERE: [f32; 6] = [
    f32::NAN,
    f32::from_bits(0xffc0_0001),
    f32::INFINITY,
    f32::NEG_INFINITY,
    -1.0,
    f32::from_bits(0x7f80_0001),
];

pub fn good_step(random: &mut Random) -> u32 {
    match random.below(4) {
        0 => random.pick(&[1, 2, 3, 16, 40, 64, 61_440, STEP_LIMIT - 1, STEP_LIMIT]),
        1 => 1 << random.below(21),
        2 => 1 + random.below(2000) as u32,
        _ => 1 + random.below(STEP_LIMIT as usize) as u32,
    }
}

pub fn bad_step(random: &mut Random) -> u32 {
    random.pick(&[0, STEP_LIMIT + 1, 1 << 31, u32::MAX])
}

pub fn good_settings(random: &mut Random) -> Settings {
    let factor = match random.below(3) {
        0 => random.pick(&[LEAST_FACTOR, LEAST_FACTOR.next_up(), MOST_FACTOR, MOST_FACTOR.next_down()]),
        1 => random.pick(&[1.0, 1f32.next_down(), 1f32.next_up(), 0.5, 2.0, 0.75]),
        _ => between(random, LEAST_FACTOR, MOST_FACTOR),
    };
    let threshold = match random.below(3) {
        0 => random.pick(&[0.0, -0.0, LEAST_FLOAT, MOST_THRESHOLD, MOST_THRESHOLD.next_down()]),
        1 => random.pick(&[0.5, 1.0, 0.625, 1.5, 2.0, 100.0]),
        _ => between(random, LEAST_FLOAT, MOST_THRESHOLD),
    };
    let dead_zone = match random.below(3) {
        0 => random.pick(&[0.0, -0.0, LEAST_FLOAT, 0.5, 0.5f32.next_down()]),
        1 => random.pick(&[0.375, 0.36, 0.25, 0.125, 0.45]),
        _ => between(random, LEAST_FLOAT, 0.5),
    };
    Settings { factor, threshold, dead_zone }
}

/// Settings with one number outside its range.
pub fn bad_settings(random: &mut Random) -> Settings {
    let good = good_settings(random);
    let number = random.once_in(2).then(|| random.pick(&NOWHERE));
    match random.below(3) {
        0 => {
            let outside = [LEAST_FACTOR.next_down(), MOST_FACTOR.next_up(), 0.0, -0.0];
            Settings { factor: number.unwrap_or(random.pick(&outside)), ..good }
        }
        1 => {
            let outside = [-LEAST_FLOAT, MOST_THRESHOLD.next_up(), f32::MAX, -1e-9];
            Settings { threshold: number.unwrap_or(random.pick(&outside)), ..good }
        }
        _ => {
            let outside = [-LEAST_FLOAT, 0.5f32.next_up(), 1.0, f32::MAX];
            Settings { dead_zone: number.unwrap_or(random.pick(&outside)), ..good }
        }
    }
}

/// A float from `low` to `high`, both above 0, of any magnitude between them.
fn between(random: &mut Random, low: f32, high: f32) -> f32 {
    f32::from_bits(random.within(i64::from(low.to_bits()), i64::from(high.to_bits())) as u32)
}
