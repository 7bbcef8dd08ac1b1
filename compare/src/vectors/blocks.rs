//! Blocks of all sizes and kinds.

use super::Record;
use crate::oracle;
use crate::random::Random;
use crate::rules::transform::RESIDUAL_LIMIT;
use crate::samples::{impulse, residuals};

/// The smaller a block, the more records of it.
pub fn records(random: &mut Random) -> Vec<Record> {
    let mut records = Vec::new();
    for (size, kinds) in oracle::blocks() {
        let count = size.0 * size.1;
        let flat =
            if count > 128 { vec![-RESIDUAL_LIMIT] } else { vec![1, -1, RESIDUAL_LIMIT, -RESIDUAL_LIMIT] };
        records.extend(flat.iter().map(|&number| block(size, kinds, &vec![number; count])));
        for _ in 0..1 + 128 / count {
            let place = random.below(count);
            records.push(block(size, kinds, &impulse(count, place, RESIDUAL_LIMIT)));
            let limit = random.pick(&[RESIDUAL_LIMIT, 255]);
            records.push(block(size, kinds, &residuals(random, count, limit)));
        }
    }
    records
}

fn block(size: (usize, usize), kinds: [u32; 2], residuals: &[i32]) -> Record {
    let scratch = oracle::columns(size, kinds[0], residuals);
    let output = oracle::block(size, kinds, residuals);
    let count = output.len() as i64;
    let arguments = [size.0 as i64, size.1 as i64, kinds[0].into(), kinds[1].into()];
    Record::new(5).put(arguments).list(residuals).put([count; 3]).all(&scratch).all(&output)
}
