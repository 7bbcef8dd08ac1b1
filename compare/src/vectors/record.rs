//! One record of the list.

use crate::mizdrek::Settings;
use std::fmt::{self, Display};

pub struct Record {
    kind: u32,
    numbers: Vec<i64>,
}

impl Record {
    pub fn new(kind: u32) -> Record {
        Record { kind, numbers: Vec::new() }
    }

    /// Adds plain numbers.
    pub fn put<const N: usize>(mut self, numbers: [i64; N]) -> Record {
        self.numbers.extend(numbers);
        self
    }

    /// Adds numbers without their count.
    pub fn all<T: Copy + Into<i64>>(mut self, numbers: &[T]) -> Record {
        self.numbers.extend(numbers.iter().map(|&number| number.into()));
        self
    }

    /// Adds numbers behind their count.
    pub fn list<T: Copy + Into<i64>>(self, numbers: &[T]) -> Record {
        self.put([numbers.len() as i64]).all(numbers)
    }

    /// Adds floats by their bits.
    pub fn floats(mut self, numbers: &[f32]) -> Record {
        self.numbers.extend(numbers.iter().map(|number| i64::from(number.to_bits())));
        self
    }

    /// Adds factor, threshold and dead zone.
    pub fn settings(self, settings: Settings) -> Record {
        self.floats(&[settings.factor, settings.threshold, settings.dead_zone])
    }
}

impl Display for Record {
    fn fmt(&self, out: &mut fmt::Formatter) -> fmt::Result {
        write!(out, "{} {}", self.kind, self.numbers.len())?;
        self.numbers.iter().try_for_each(|number| write!(out, " {number}"))
    }
}
