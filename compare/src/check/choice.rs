//! The lighter of two trials: levels that hardly differ, the largest sums, every place of a level that is
//! refused, lengths and counts around each other, and anything.

use super::Run;
use crate::difference::{Outcome, same};
use crate::lent::Lent;
use crate::mizdrek::{self, Refusal};
use crate::random::Random;
use crate::rules::choice::{self as rules, MOST};
use crate::rules::records::LEVEL_LIMIT;
use crate::samples::{filling, impulse, length, residuals, samples};

/// Counts of levels: of blocks, and around the most.
const COUNTS: [usize; 10] = [0, 1, 2, 3, 16, 64, 255, 1023, 1024, 1025];

/// Levels on both sides of the limit.
const EDGES: [i32; 8] =
    [LEVEL_LIMIT, -LEVEL_LIMIT, LEVEL_LIMIT + 1, -LEVEL_LIMIT - 1, i32::MAX, i32::MIN + 1, i32::MIN, 0];

pub fn compare(run: &mut Run) -> Outcome {
    small(run)?;
    largest(run)?;
    edges(run)?;
    lengths(run)?;
    for _ in 0..run.count {
        let ([first, second], count) = any_trials(&mut run.random);
        compare_case(run, &first, &second, count)?;
    }
    Ok(())
}

/// Every two levels from -3 to 3 against every other two, by none, one and both of them.
fn small(run: &mut Run) -> Outcome {
    let pairs: Vec<[i32; 2]> = (-3..=3).flat_map(|a| (-3..=3).map(move |b| [a, b])).collect();
    for first in &pairs {
        for second in &pairs {
            for count in 0..=2 {
                compare_case(run, first, second, count)?;
            }
        }
    }
    Ok(())
}

/// The largest sums, and one that is smaller by 1 at some place.
fn largest(run: &mut Run) -> Outcome {
    for count in COUNTS {
        for signs in [[1, 1], [-1, -1], [1, -1]] {
            let levels: Vec<i32> = (0..count).map(|place| signs[place % 2] * LEVEL_LIMIT).collect();
            compare_case(run, &levels, &levels, count)?;
            let mut lighter = levels.clone();
            if let Some(level) = run.random.pick_mut(&mut lighter) {
                *level -= level.signum();
            }
            compare_case(run, &levels, &lighter, count)?;
            compare_case(run, &lighter, &levels, count)?;
        }
    }
    Ok(())
}

/// A level near the limit at every place of buffers that go on behind the count.
fn edges(run: &mut Run) -> Outcome {
    for count in COUNTS {
        for place in 0..count + 3 {
            let edge = impulse(count + 3, place, run.random.pick(&EDGES));
            let other = filling(&mut run.random, count + 3);
            let other: Vec<i32> = other.iter().map(|level| level >> 2).collect();
            compare_case(run, &edge, &other, count)?;
            compare_case(run, &other, &edge, count)?;
        }
    }
    Ok(())
}

/// Buffers of lengths around the count, with levels that are refused or aren't.
fn lengths(run: &mut Run) -> Outcome {
    for count in COUNTS.into_iter().chain([1 << 32, usize::MAX]) {
        for _ in 0..200 {
            let trials = [(); 2].map(|_| {
                let length = length(&mut run.random, count.min(MOST + 1), 2);
                if run.random.once_in(2) { vec![1; length] } else { filling(&mut run.random, length) }
            });
            compare_case(run, &trials[0], &trials[1], count)?;
        }
    }
    Ok(())
}

/// Two trials, in one of several styles, and a count.
fn any_trials(random: &mut Random) -> ([Vec<i32>; 2], usize) {
    let count = if random.once_in(3) { random.pick(&COUNTS) } else { random.below(80) };
    let lengths = [(); 2].map(|_| length(random, count, 20));
    let limit = random.pick(&[3, 99, 1 << 20, LEVEL_LIMIT]);
    let first = residuals(random, lengths[0], limit);
    let second = match random.below(4) {
        0 => samples(random, lengths[1]),
        1 => residuals(random, lengths[1], limit),
        _ => alike(random, &first, lengths[1]),
    };
    ([first, second], count)
}

/// Other levels whose magnitudes have the same sum, or one that differs by 1: in other places, with some of one
/// magnitude moved to another, and with other signs.
fn alike(random: &mut Random, levels: &[i32], length: usize) -> Vec<i32> {
    let mut alike: Vec<i32> = levels.iter().map(|level| level.abs()).collect();
    if !alike.is_empty() {
        let [turned, from, to, place] = [(); 4].map(|_| random.below(levels.len()));
        alike.rotate_left(turned);
        let moved = random.within(0, alike[from].min(LEVEL_LIMIT - alike[to]).into()) as i32;
        alike[from] -= moved;
        alike[to] += moved;
        if random.once_in(2) {
            alike[place] += if alike[place] > 0 { -1 } else { 1 };
        }
    }
    alike.iter_mut().for_each(|level| *level *= random.pick(&[1, -1]));
    alike.resize_with(length, || random.next() as i32);
    alike
}

fn compare_case(run: &mut Run, first: &[i32], second: &[i32], count: usize) -> Outcome {
    run.case();
    compare_call(first, second, count)
        .map_err(|d| d.of("mizdrek_lighter", &[("first", &first), ("second", &second), ("count", &count)]))
}

fn compare_call(first: &[i32], second: &[i32], count: usize) -> Outcome {
    let trials = [Lent::new(first), Lent::new(second)];
    let [a, b] = [trials[0].read(), trials[1].read()];
    let ours = mizdrek::lighter(a, b, count);
    same("the part", seen(a, rules::lighter(a, b, count)), seen(a, ours))?;
    trials[0].holds("first", first)?;
    trials[1].holds("second", second)
}

/// Whether a part begins where the first buffer does, and how long it is.
fn seen(first: &[i32], part: Result<&[i32], Refusal>) -> Result<(bool, usize), Refusal> {
    part.map(|part| (part.as_ptr() == first.as_ptr(), part.len()))
}
