//! The lighter of two trials of a square, against plain Rust that makes the same tests.

use super::timing::row;
use crate::mizdrek::{self, Refusal};
use crate::oracle::SIDES;
use crate::random::Random;
use crate::rules::choice::MOST;
use crate::rules::records::LEVEL_LIMIT;
use crate::samples::residuals;
use std::hint::black_box;

pub fn rows() {
    for side in SIDES {
        let (random, count) = (&mut Random::new(7), side * side);
        let trials = [(); 2].map(|_| residuals(random, count, 99));
        row(
            &format!("lighter of two by {count} levels"),
            || {
                let ([first, second], count) = black_box((&trials, count));
                _ = black_box(lighter(first, second, count));
            },
            || {
                let ([first, second], count) = black_box((&trials, count));
                _ = black_box(mizdrek::lighter(first, second, count));
            },
        );
    }
}

fn lighter<'a>(first: &'a [i32], second: &'a [i32], count: usize) -> Result<&'a [i32], Refusal> {
    if count > MOST {
        return Err(Refusal::ScanRange);
    }
    let (Some(first), Some(second)) = (first.get(..count), second.get(..count)) else {
        return Err(Refusal::ShortBuffer);
    };
    if !(are_near(first) & are_near(second)) {
        return Err(Refusal::BadRecord);
    }
    Ok(if sum(second) < sum(first) { second } else { first })
}

/// Whether all levels are within the limit. None ends the loop early, so that it works on several at a time.
fn are_near(levels: &[i32]) -> bool {
    levels.iter().fold(true, |near, level| near & (-LEVEL_LIMIT..=LEVEL_LIMIT).contains(level))
}

fn sum(levels: &[i32]) -> u64 {
    levels.iter().map(|level| u64::from(level.unsigned_abs())).sum()
}
