//! What the writer refuses: all faults in all combinations, counts that no list has, and random cases.

use super::LEAST;
use super::any_blocks::{any_blocks, far_level, three_blocks};
use super::case::Case;
use crate::check::Run;
use crate::difference::Outcome;
use crate::random::Random;
use crate::samples::length;

/// Sides that there aren't; some are one when cut to fewer bits.
const BAD_SIDES: [usize; 16] =
    [0, 1, 2, 3, 5, 6, 12, 31, 33, 64, 256 + 4, 1 << 32, (1 << 32) + 8, 1 << 63, (1 << 63) + 16, usize::MAX];

/// Counts that no list has; twice some of them wraps.
const COUNTS: [usize; 7] =
    [usize::MAX, usize::MAX - 1, 1 << 62, (1 << 63) - 1, 1 << 63, (1 << 63) + 1, (1 << 63) + 3];

/// The ways in which a call can be bad.
const FAULTS: [fn(&mut Random, &mut Case); 7] = [
    bad_side,
    bad_level,
    bad_number,
    |_, case| shorten(case, 0),
    |_, case| shorten(case, 1),
    |_, case| shorten(case, 2),
    |_, case| shorten(case, 3),
];

/// How many lists have all faults in all combinations.
const LISTS: usize = 40;

pub fn compare(run: &mut Run) -> Outcome {
    for _ in 0..LISTS {
        combinations(run)?;
    }
    for _ in 0..(run.count / 8).max(LEAST) {
        _ = any(&mut run.random).compare(run)?;
    }
    Ok(())
}

/// A list with all faults in all combinations, and with its count and others.
fn combinations(run: &mut Run) -> Outcome {
    let blocks = three_blocks(&mut run.random);
    let count = 1 + run.random.below(3);
    let good = Case::write(&mut run.random, &blocks[..count]);
    for chosen in 0..1 << FAULTS.len() {
        let mut case = good.clone();
        for (_, fault) in FAULTS.iter().enumerate().filter(|(way, _)| chosen >> way & 1 == 1) {
            fault(&mut run.random, &mut case);
        }
        for count in [count, count - 1, count + 1, run.random.pick(&COUNTS)] {
            case.count = Some(count);
            _ = case.compare(run)?;
        }
    }
    Ok(())
}

/// A random case, often one that is accepted.
fn any(random: &mut Random) -> Case {
    let blocks = any_blocks(random);
    let case = Case::write(random, &blocks);
    let lengths = case.lent.map(|needed| length(random, needed, 20));
    let mut case = case.lend(random, lengths);
    for fault in FAULTS {
        if random.once_in(16) {
            fault(random, &mut case);
        }
    }
    match random.below(16) {
        0 => case.count = Some(random.pick(&COUNTS)),
        1 => case.count = Some(random.below(blocks.len() + 9)),
        _ => {}
    }
    case
}

fn bad_side(random: &mut Random, case: &mut Case) {
    if let Some(side) = random.pick_mut(&mut case.list.sides) {
        *side = random.pick(&BAD_SIDES);
    }
}

fn bad_level(random: &mut Random, case: &mut Case) {
    if let Some(level) = random.pick_mut(&mut case.list.levels) {
        *level = far_level(random);
    }
}

/// A number that isn't above the one before.
fn bad_number(random: &mut Random, case: &mut Case) {
    let numbers = &mut case.list.numbers;
    if numbers.len() > 1 {
        let place = random.below(numbers.len() - 1);
        numbers[place + 1] = numbers[place].saturating_sub(random.pick(&[0, 1, 256]));
    }
}

/// Lends one less of a buffer.
fn shorten(case: &mut Case, buffer: usize) {
    case.lent[buffer] = case.lent[buffer].saturating_sub(1);
}
