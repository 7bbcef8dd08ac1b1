//! Random lists of blocks that the writer accepts.

use crate::oracle::SIDES;
use crate::random::Random;
use crate::rules::records::{Block, LEVEL_LIMIT};
use std::collections::BTreeSet;

/// Block numbers at the ends of bytes and of signed numbers.
pub const NUMBERS: [u32; 13] = [
    0,
    1,
    2,
    255,
    256,
    65_535,
    65_536,
    (1 << 24) - 1,
    1 << 24,
    (1 << 31) - 1,
    1 << 31,
    u32::MAX - 1,
    u32::MAX,
];

/// A few blocks of any size; at times many of the least.
pub fn any_blocks(random: &mut Random) -> Vec<Block> {
    if random.once_in(32) { blocks(random, 300, &[4]) } else { blocks(random, 5, &SIDES) }
}

/// A few blocks of the lesser sizes.
pub fn small_blocks(random: &mut Random) -> Vec<Block> {
    blocks(random, 3, &[4, 8])
}

/// Three blocks of any size, with levels in each.
pub fn three_blocks(random: &mut Random) -> [Block; 3] {
    let first = random.below(1 << 31) as u32 >> random.below(31);
    [1, 2, 3].map(|number| {
        let size = (random.pick(&SIDES), random.pick(&SIDES));
        let mut block = any_block(random, first + number, size);
        let place = random.below(block.levels.len());
        block.levels[place] = any_level(random);
        block
    })
}

/// Up to `most` blocks with these sides.
fn blocks(random: &mut Random, most: usize, sides: &[usize]) -> Vec<Block> {
    let numbers: BTreeSet<u32> = (0..random.below(most + 1)).map(|_| any_number(random)).collect();
    let block = |number| {
        let size = (random.pick(sides), random.pick(sides));
        any_block(random, number, size)
    };
    numbers.into_iter().map(block).collect()
}

pub fn any_number(random: &mut Random) -> u32 {
    if random.once_in(3) { random.pick(&NUMBERS) } else { random.next() as u32 >> random.below(32) }
}

/// A block with anything from no level to all of them.
pub fn any_block(random: &mut Random, number: u32, size: (usize, usize)) -> Block {
    let often = random.pick(&[0, 1, 4, 32, 64]);
    let mut level = || if random.below(64) < often { any_level(random) } else { 0 };
    Block { number, size, levels: (0..size.0 * size.1).map(|_| level()).collect() }
}

/// A level that a record may hold.
pub fn any_level(random: &mut Random) -> i32 {
    let limit = i64::from(LEVEL_LIMIT);
    let level = match random.below(4) {
        0 => random.pick(&[1, 255, 256, 65_536, limit - 1, limit]),
        1 => random.within(1, 9),
        _ => random.within(1, limit),
    };
    if random.once_in(2) { level as i32 } else { -level as i32 }
}

/// A level that neither call takes.
pub fn far_level(random: &mut Random) -> i32 {
    let near = random.pick(&[LEVEL_LIMIT + 1, -LEVEL_LIMIT - 1, i32::MAX, i32::MIN]);
    let any = random.within(i64::from(LEVEL_LIMIT) + 1, i64::from(i32::MAX)) as i32;
    random.pick(&[near, any, -any])
}

/// Levels about every power of two and about the limit, zero and others that no record holds among them.
pub fn edge_levels() -> Vec<i32> {
    let powers = (0..32).map(|power| 1i64 << power);
    let about = powers.flat_map(|power| [power - 1, power, power + 1, i64::from(LEVEL_LIMIT) + power]);
    about.flat_map(|level| [level, -level]).filter_map(|level| i32::try_from(level).ok()).collect()
}
