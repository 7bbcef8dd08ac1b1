//! The lighter of two trials, from request A.12 of document 02.

use super::records::LEVEL_LIMIT;
use crate::mizdrek::Refusal::{self, BadRecord, ScanRange, ShortBuffer};

/// The most levels that are held against each other.
pub const MOST: usize = 1024;

/// The first `count` levels of the lighter buffer.
pub fn lighter<'a>(first: &'a [i32], second: &'a [i32], count: usize) -> Result<&'a [i32], Refusal> {
    if count > MOST {
        return Err(ScanRange);
    }
    let trials = [first, second];
    if trials.iter().any(|levels| levels.len() < count) {
        return Err(ShortBuffer);
    }
    let trials = trials.map(|levels| &levels[..count]);
    if trials.concat().iter().any(|level| !(-LEVEL_LIMIT..=LEVEL_LIMIT).contains(level)) {
        return Err(BadRecord);
    }
    // Of two that are alike the first is given.
    let weight = |levels: &&[i32]| levels.iter().map(|&level| i128::from(level).abs()).sum::<i128>();
    Ok(trials.into_iter().min_by_key(weight).expect("two trials"))
}
