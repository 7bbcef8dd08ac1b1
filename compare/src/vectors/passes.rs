//! Single passes, and the WHT.

use super::Record;
use crate::oracle::{self, KERNELS, SIDES};
use crate::random::Random;
use crate::rules::transform::RESIDUAL_LIMIT;
use crate::samples::{filling, impulse, residuals};

pub fn records(random: &mut Random) -> Vec<Record> {
    let mut records = Vec::new();
    for (kind, side) in KERNELS {
        for shift in 1..=15 {
            records.push(pass((side, kind, shift, 4), &filling(random, side * 4)));
        }
        for lines in SIDES {
            records.push(pass((side, kind, 2, lines), &residuals(random, side * lines, 99)));
        }
        for number in [i32::MIN, i32::MAX, 8_388_608, -1] {
            records.push(pass((side, kind, 1, 4), &vec![number; side * 4]));
        }
    }
    for place in 0..16 {
        records.push(fwht4x4(&impulse(16, place, 1)));
        records.push(fwht4x4(&impulse(16, place, -RESIDUAL_LIMIT)));
        records.push(fwht4x4(&residuals(random, 16 + place, RESIDUAL_LIMIT)));
    }
    records
}

/// Passes at shift 0. At side 32 the rule stands for the Rust.
pub fn unshifted(random: &mut Random) -> Vec<Record> {
    let mut records = Vec::new();
    for (kind, side) in KERNELS {
        records.push(pass((side, kind, 0, 4), &impulse(side * 4, 0, 1)));
        records.push(pass((side, kind, 0, 4), &filling(random, side * 4)));
        for number in [i32::MIN, i32::MAX, 8_388_608, -1] {
            records.push(pass((side, kind, 0, 4), &vec![number; side * 4]));
        }
    }
    records
}

fn pass((side, kind, shift, lines): (usize, u32, i32, usize), src: &[i32]) -> Record {
    let dst = oracle::pass(side, kind, shift, lines, src);
    let arguments = [side as i64, kind.into(), shift.into(), lines as i64];
    Record::new(4).put(arguments).list(src).put([dst.len() as i64, dst.len() as i64]).all(&dst)
}

fn fwht4x4(residuals: &[i32]) -> Record {
    Record::new(6).list(residuals).put([16, 16]).all(&oracle::fwht4x4(&residuals[..16]))
}
