//! The arguments of the quantizer, good and bad.

use super::scans::any_scan;
use crate::difference::Input;
use crate::mizdrek::{Refusal, Settings};
use crate::oracle::SIDES;
use crate::random::Random;
use crate::rules::levels::{self, COEFFICIENT_LIMIT};
use crate::samples::length;
use crate::settings::{bad_settings, bad_step, good_settings, good_step};

pub struct QuantCase {
    pub width: usize,
    pub step: u32,
    pub settings: Settings,
    pub coefficients: Vec<i32>,
    pub scan: Vec<u16>,
    pub levels: Vec<f32>,
    pub magnitudes: Vec<f32>,
}

impl QuantCase {
    /// A random case, mostly one that is accepted.
    pub fn any(random: &mut Random) -> QuantCase {
        let width = random.pick(&SIDES);
        let held = coefficient_count(random, width);
        let coefficients = coefficients(random, held);
        let scan = any_scan(random, width, held);
        let step = good_step(random);
        let mut settings = good_settings(random);
        if random.once_in(3) && held > 0 {
            let coefficient = random.pick(&coefficients);
            settings = at_threshold(random, step, settings, coefficient);
        }
        let [levels, magnitudes] = [(); 2].map(|_| {
            let count = length(random, scan.len(), 30);
            floats(random, count)
        });
        let mut case = QuantCase { width, step, settings, coefficients, scan, levels, magnitudes };
        case.spoil(random);
        case
    }

    /// Makes an argument bad, or a coefficient that the scan may not name, one time in five.
    fn spoil(&mut self, random: &mut Random) {
        let places = levels::places(self.width, &self.scan);
        match random.below(30) {
            0 => self.width = random.below(70),
            1 => self.step = bad_step(random),
            2 => self.settings = bad_settings(random),
            3 if !self.scan.is_empty() => {
                let entry = random.below(self.scan.len());
                self.scan[entry] = random.next() as u16;
            }
            4 if !places.is_empty() => {
                if let Some(named) = self.coefficients.get_mut(random.pick(&places)) {
                    *named = bad_coefficient(random);
                }
            }
            5 if !self.coefficients.is_empty() => {
                let place = random.below(self.coefficients.len());
                self.coefficients[place] = bad_coefficient(random);
            }
            _ => {}
        }
    }

    /// The scan length, or what the call is refused for.
    pub fn expected(&self) -> Result<usize, Refusal> {
        let lengths = [self.levels.len(), self.magnitudes.len()];
        levels::scan(self.width, (self.step, self.settings), &self.coefficients, &self.scan, lengths)
    }

    pub fn inputs(&self) -> [Input<'_>; 7] {
        [
            ("width", &self.width),
            ("step", &self.step),
            ("settings", &self.settings),
            ("coefficients", &self.coefficients),
            ("scan", &self.scan),
            ("levels before", &self.levels),
            ("magnitudes before", &self.magnitudes),
        ]
    }
}

/// How many coefficients are lent.
fn coefficient_count(random: &mut Random, width: usize) -> usize {
    match random.below(12) {
        0 => random.below(40),
        1 => random.below(5000),
        2 => random.pick(&[0, 1, 1023, 1025, 3040, 65_535, 65_536, 65_600]),
        _ => width * random.pick(&SIDES),
    }
}

/// Coefficients within their limit.
fn coefficients(random: &mut Random, count: usize) -> Vec<i32> {
    let coarse = random.below(22);
    (0..count).map(|_| good_coefficient(random, coarse)).collect()
}

/// A coefficient within the limit; the coarser, the smaller.
pub fn good_coefficient(random: &mut Random, coarse: usize) -> i32 {
    if random.once_in(16) {
        return random.pick(&[0, 1, -1, COEFFICIENT_LIMIT, -COEFFICIENT_LIMIT, COEFFICIENT_LIMIT - 1]);
    }
    let limit = i64::from(COEFFICIENT_LIMIT) >> coarse;
    random.within(-limit, limit) as i32
}

pub fn bad_coefficient(random: &mut Random) -> i32 {
    random.pick(&[COEFFICIENT_LIMIT + 1, -COEFFICIENT_LIMIT - 1, i32::MIN, i32::MAX])
}

/// The settings with the threshold at the magnitude of a coefficient, or next to it.
pub fn at_threshold(random: &mut Random, step: u32, settings: Settings, coefficient: i32) -> Settings {
    let magnitude = (coefficient as f32 * (settings.factor / step as f32)).abs();
    let threshold = random.pick(&[magnitude, magnitude.next_up(), magnitude.next_down()]);
    let near = Settings { threshold, ..settings };
    if levels::are_settings(step, near) { near } else { settings }
}

/// Any bit patterns: what levels and magnitudes hold before a call.
pub fn floats(random: &mut Random, count: usize) -> Vec<f32> {
    (0..count).map(|_| f32::from_bits(random.next() as u32)).collect()
}
