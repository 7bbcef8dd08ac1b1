//! Lists of numbers to work on: full-range samples, and residuals within a limit.

use crate::random::Random;

/// Samples of the whole 32-bit range, in one of several styles.
pub fn samples(random: &mut Random, count: usize) -> Vec<i32> {
    let style = random.below(5);
    let often = 1 + random.below(count.max(1));
    let number = |random: &mut Random| match style {
        0 => random.next() as i32,
        1 => random.within(-9, 9) as i32,
        2 => random.pick(&[i32::MIN, i32::MAX, i32::MIN + 1, -1, 0, 1]),
        3 if random.below(count) < often => 0,
        _ => (random.next() as i32) >> random.below(32),
    };
    (0..count).map(|_| number(random)).collect()
}

/// Numbers from `-limit` to `limit`, in one of several styles.
pub fn residuals(random: &mut Random, count: usize, limit: i32) -> Vec<i32> {
    let style = random.below(6);
    let limit = i64::from(limit);
    let level = random.within(-limit, limit);
    let often = 1 + random.below(count.max(1));
    let number = |random: &mut Random| match style {
        0 => random.pick(&[-limit, limit]),
        1 => random.within(-3, 3),
        2 => (level + random.within(-9, 9)).clamp(-limit, limit),
        3 if random.below(count) < often => 0,
        4 => random.within(-limit, limit) >> random.below(13),
        _ => random.within(-limit, limit),
    };
    (0..count).map(|_| number(random) as i32).collect()
}

/// Any numbers, each unlike its neighbours: what a buffer holds before a call.
pub fn filling(random: &mut Random, count: usize) -> Vec<i32> {
    (0..count).map(|_| random.next() as i32).collect()
}

/// A single number in a list of zeros.
pub fn impulse(count: usize, place: usize, number: i32) -> Vec<i32> {
    let mut list = vec![0; count];
    list[place] = number;
    list
}

/// A length for a buffer of which `count` numbers are needed: mostly that or more, once in `n` times less.
pub fn length(random: &mut Random, count: usize, n: usize) -> usize {
    if random.once_in(n) {
        return if random.once_in(2) { count.saturating_sub(1) } else { random.below(count + 1) };
    }
    count + if random.once_in(2) { 0 } else { random.below(40) }
}
