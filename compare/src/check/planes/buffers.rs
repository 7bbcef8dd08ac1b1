//! What a call is lent, in the library's hands and beside it as the rules have it.

use crate::difference::Outcome;
use crate::lent::Lent;
use crate::mizdrek::Plane;

/// A buffer.
pub struct Buffer {
    pub ours: Lent<i32>,
    pub rules: Vec<i32>,
}

impl Buffer {
    pub fn new(numbers: &[i32]) -> Buffer {
        Buffer { ours: Lent::new(numbers), rules: numbers.to_vec() }
    }

    /// How many of its numbers are lent where at most so many are.
    pub fn length(&self, most: usize) -> usize {
        most.min(self.rules.len())
    }

    /// Compares the whole buffer.
    pub fn compare(&self, what: &str) -> Outcome {
        self.ours.holds(what, &self.rules)
    }
}

/// A plane's record.
#[derive(Clone, Copy)]
pub struct Record {
    pub ours: Plane,
    pub rules: Plane,
}

/// The numbers of a tile's own buffers.
#[derive(Clone, Debug)]
pub struct Numbers {
    pub residuals: Vec<i32>,
    pub scratch: Vec<i32>,
}

/// A tile's own buffers.
pub struct Work {
    pub residuals: Buffer,
    pub scratch: Buffer,
}

impl Work {
    pub fn new(numbers: &Numbers) -> Work {
        Work { residuals: Buffer::new(&numbers.residuals), scratch: Buffer::new(&numbers.scratch) }
    }
}
