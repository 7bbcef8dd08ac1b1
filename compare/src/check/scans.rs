//! Scans of both readings: places as they are where the second entry is the width, else by stride 32.

use crate::random::Random;
use crate::rules::levels::SCAN_LIMIT;

/// A scan whose places mostly lie within `held` coefficients.
pub fn any_scan(random: &mut Random, width: usize, held: usize) -> Vec<u16> {
    let count = scan_length(random);
    let direct = random.once_in(2);
    let mut scan: Vec<u16> =
        (0..count)
            .map(|_| {
                if direct {
                    random.below(held.clamp(1, 65_536)) as u16
                } else {
                    by_stride(random, width, held)
                }
            })
            .collect();
    if direct && count > 1 {
        scan[1] = width as u16;
    }
    scan
}

fn scan_length(random: &mut Random) -> usize {
    match random.below(16) {
        0 => random.pick(&[0, 1, 2, SCAN_LIMIT - 1, SCAN_LIMIT]),
        1 => random.pick(&[SCAN_LIMIT + 1, SCAN_LIMIT + 2, 3000]),
        2 => random.below(SCAN_LIMIT + 1),
        _ => random.below(65),
    }
}

/// An entry that means a place below `held` in the reading by stride 32.
fn by_stride(random: &mut Random, width: usize, held: usize) -> u16 {
    let row = random.below(held.div_ceil(width).clamp(1, 32));
    let room = held.saturating_sub(row * width).clamp(1, 2048);
    let room = if random.once_in(9) { room } else { room.min(width) };
    let column = random.below(room);
    (column * 32 + row) as u16
}
