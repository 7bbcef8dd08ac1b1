//! The arguments of a block or an opening, good and bad.

use super::Run;
use crate::difference::{Input, Outcome};
use crate::mizdrek::Refusal;
use crate::oracle::{self, ADST, DCT};
use crate::random::Random;
use crate::rules::transform::{self, RESIDUAL_LIMIT};
use crate::samples::{filling, length, residuals};

pub struct BlockCase {
    pub size: (usize, usize),
    pub kinds: [u32; 2],
    pub residuals: Vec<i32>,
    pub scratch: Vec<i32>,
    pub output: Vec<i32>,
}

impl BlockCase {
    /// A block with buffers a little longer than needed.
    pub fn roomy(
        random: &mut Random,
        size: (usize, usize),
        kinds: [u32; 2],
        residuals: Vec<i32>,
    ) -> BlockCase {
        let more = random.below(9);
        let scratch = filling(random, size.0 * size.1 + more);
        let output = filling(random, size.0 * size.1 + 8 - more);
        BlockCase { size, kinds, residuals, scratch, output }
    }

    /// A random case, mostly one that is accepted.
    pub fn any(random: &mut Random) -> BlockCase {
        let (mut size, mut kinds) = random.pick(&oracle::blocks());
        let count = size.0 * size.1;
        match random.below(40) {
            0 => size.0 = random.below(70),
            1 => size.1 = random.below(70),
            2 => kinds[0] = random.below(3) as u32,
            3 => kinds[1] = random.below(3) as u32,
            _ => {}
        }
        let lengths = [(); 3].map(|_| length(random, count, 30));
        let mut residuals = residuals(random, lengths[0], RESIDUAL_LIMIT);
        if random.once_in(20) && !residuals.is_empty() {
            let place = random.below(residuals.len());
            residuals[place] = random.pick(&[4096, -4096, i32::MAX, i32::MIN]);
        }
        BlockCase {
            size,
            kinds,
            residuals,
            scratch: filling(random, lengths[1]),
            output: filling(random, lengths[2]),
        }
    }

    /// The count of numbers in the block, or what it is refused for.
    pub fn expected(&self) -> Result<usize, Refusal> {
        transform::block(self.size, self.kinds, &self.residuals, [self.scratch.len(), self.output.len()])
    }

    pub fn inputs(&self) -> [Input<'_>; 7] {
        [
            ("w", &self.size.0),
            ("h", &self.size.1),
            ("column_kind", &self.kinds[0]),
            ("row_kind", &self.kinds[1]),
            ("residuals", &self.residuals),
            ("scratch before", &self.scratch),
            ("output before", &self.output),
        ]
    }
}

/// Every argument good and bad, in all combinations.
pub fn refusals(run: &mut Run, compare: fn(&mut Run, &BlockCase) -> Outcome) -> Outcome {
    let sides = [4, 8, 32, 0, 3, 64, usize::MAX];
    for w in sides {
        for h in sides {
            for column in [DCT, ADST, 2] {
                for row in [DCT, ADST, u32::MAX] {
                    bad_buffers(run, (w, h), [column, row], compare)?;
                }
            }
        }
    }
    Ok(())
}

/// Short buffers and bad residuals, each alone and together.
fn bad_buffers(
    run: &mut Run,
    size: (usize, usize),
    kinds: [u32; 2],
    compare: fn(&mut Run, &BlockCase) -> Outcome,
) -> Outcome {
    let count = size.0.saturating_mul(size.1).min(1024);
    let short = count.saturating_sub(1);
    let lengths = [[count; 3], [short, count, count], [count, short, count], [count, count, short], [0; 3]];
    for [in_residuals, in_scratch, in_output] in lengths {
        for (place, number) in [(0, 1), (0, 4096), (short, -4096), (count / 2, i32::MIN)] {
            let mut residuals = residuals(&mut run.random, in_residuals, RESIDUAL_LIMIT);
            if let Some(residual) = residuals.get_mut(place) {
                *residual = number;
            }
            // Just past the block any number may stand.
            residuals.extend((in_residuals == count).then_some(4096));
            let scratch = filling(&mut run.random, in_scratch);
            let output = filling(&mut run.random, in_output);
            compare(run, &BlockCase { size, kinds, residuals, scratch, output })?;
        }
    }
    Ok(())
}
