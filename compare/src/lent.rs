//! A buffer that is lent to a call. It lies between guards, which show whether the call wrote past its
//! ends, and is compared to the bit.

use crate::difference::{Outcome, same_list};
use std::fmt::{self, Debug};

/// How many guards stand at each end.
const GUARDS: usize = 16;

/// A number of a lent buffer, seen as what is compared and printed of it.
pub trait Number: Copy {
    type Seen: PartialEq + Debug;
    const GUARD: Self;
    fn seen(self) -> Self::Seen;
}

impl Number for i32 {
    type Seen = i32;
    const GUARD: i32 = 0x6a5d_1e55;
    fn seen(self) -> i32 {
        self
    }
}

impl Number for u8 {
    type Seen = u8;
    const GUARD: u8 = 0xb7;
    fn seen(self) -> u8 {
        self
    }
}

impl Number for u16 {
    type Seen = u16;
    const GUARD: u16 = 0x5ead;
    fn seen(self) -> u16 {
        self
    }
}

impl Number for u32 {
    type Seen = u32;
    const GUARD: u32 = 0x9ad5_e11d;
    fn seen(self) -> u32 {
        self
    }
}

impl Number for u64 {
    type Seen = u64;
    const GUARD: u64 = 0xd1b5_4a32_d192_ed03;
    fn seen(self) -> u64 {
        self
    }
}

impl Number for usize {
    type Seen = usize;
    const GUARD: usize = 0xfe1d_9a7e_0b5e_55ed;
    fn seen(self) -> usize {
        self
    }
}

impl Number for f32 {
    type Seen = Float;
    const GUARD: f32 = -7.25e11;
    fn seen(self) -> Float {
        Float(self)
    }
}

/// A float that is compared by its bits and printed with them.
#[derive(Clone, Copy)]
pub struct Float(pub f32);

impl PartialEq for Float {
    fn eq(&self, other: &Float) -> bool {
        self.0.to_bits() == other.0.to_bits()
    }
}

impl Debug for Float {
    fn fmt(&self, out: &mut fmt::Formatter) -> fmt::Result {
        write!(out, "{:?}={:#010x}", self.0, self.0.to_bits())
    }
}

pub struct Lent<T> {
    all: Vec<T>,
}

impl<T: Number> Lent<T> {
    pub fn new(numbers: &[T]) -> Lent<T> {
        let mut all = Vec::with_capacity(numbers.len() + 2 * GUARDS);
        all.resize(GUARDS, T::GUARD);
        all.extend_from_slice(numbers);
        all.resize(numbers.len() + 2 * GUARDS, T::GUARD);
        Lent { all }
    }

    pub fn read(&self) -> &[T] {
        &self.all[GUARDS..self.all.len() - GUARDS]
    }

    pub fn write(&mut self) -> &mut [T] {
        let end = self.all.len() - GUARDS;
        &mut self.all[GUARDS..end]
    }

    /// Compares the whole buffer, and its guards.
    pub fn holds(&self, what: &str, expected: &[T]) -> Outcome {
        same_numbers(what, expected, self.read())?;
        let end = self.all.len() - GUARDS;
        let guards = [&self.all[..GUARDS], &self.all[end..]].concat();
        let place = format!("the {GUARDS} numbers before and the {GUARDS} after {what}");
        same_numbers(&place, &[T::GUARD; 2 * GUARDS], &guards)
    }
}

fn same_numbers<T: Number>(what: &str, expected: &[T], ours: &[T]) -> Outcome {
    let equal = expected.len() == ours.len() && expected.iter().zip(ours).all(|(a, b)| a.seen() == b.seen());
    if equal { Ok(()) } else { same_list(what, &seen(expected), &seen(ours)) }
}

fn seen<T: Number>(numbers: &[T]) -> Vec<T::Seen> {
    numbers.iter().map(|number| number.seen()).collect()
}
