//! Whole blocks of all sixteen sizes and all kinds.

use super::Run;
use super::block_case::{BlockCase, refusals};
use crate::difference::{Outcome, same, same_list};
use crate::lent::Lent;
use crate::mizdrek;
use crate::oracle::{self, DCT};
use crate::rules::transform::RESIDUAL_LIMIT;
use crate::samples::impulse;

pub fn compare(run: &mut Run) -> Outcome {
    for (size, kinds) in oracle::blocks() {
        patterns(run, size, kinds)?;
        impulses(run, size, kinds)?;
        largest_sums(run, size, kinds)?;
    }
    refusals(run, compare_case)?;
    for _ in 0..run.count {
        let case = BlockCase::any(&mut run.random);
        compare_case(run, &case)?;
    }
    Ok(())
}

fn block(run: &mut Run, size: (usize, usize), kinds: [u32; 2], residuals: Vec<i32>) -> Outcome {
    let case = BlockCase::roomy(&mut run.random, size, kinds, residuals);
    compare_case(run, &case)
}

/// Flat blocks, checkerboards and stripes.
fn patterns(run: &mut Run, size: (usize, usize), kinds: [u32; 2]) -> Outcome {
    let (w, h) = size;
    for number in [RESIDUAL_LIMIT, -RESIDUAL_LIMIT, 1, -1, 0] {
        for pattern in [|_, _| 0, |x, y| x + y, |x, _| x, |_, y| y, |x, y| x / 2 + y / 2] {
            let at = |i: usize| {
                if pattern(i % w, i / w) % 2 == 0 { number } else { -number }
            };
            block(run, size, kinds, (0..w * h).map(at).collect())?;
        }
    }
    Ok(())
}

fn impulses(run: &mut Run, size: (usize, usize), kinds: [u32; 2]) -> Outcome {
    let count = size.0 * size.1;
    for place in 0..count {
        for number in [1, -1, RESIDUAL_LIMIT, -RESIDUAL_LIMIT] {
            block(run, size, kinds, impulse(count, place, number))?;
        }
    }
    Ok(())
}

/// The residuals that make each sum of both passes as large, and as small, as it can be.
fn largest_sums(run: &mut Run, size: (usize, usize), kinds: [u32; 2]) -> Outcome {
    let (w, h) = size;
    let sign = |kind, side, f, k| {
        if oracle::kernel(kind, side, f, k) < 0 { -1 } else { 1 }
    };
    for f in 0..h {
        for g in 0..w {
            let at = |i: usize| RESIDUAL_LIMIT * sign(kinds[0], h, f, i / w) * sign(kinds[1], w, g, i % w);
            let high: Vec<i32> = (0..w * h).map(at).collect();
            let low = high.iter().map(|v| -v).collect();
            block(run, size, kinds, high)?;
            block(run, size, kinds, low)?;
        }
    }
    Ok(())
}

fn compare_case(run: &mut Run, case: &BlockCase) -> Outcome {
    run.case();
    compare_call(case).map_err(|d| d.of("mizdrek_block", &case.inputs()))
}

fn compare_call(case: &BlockCase) -> Outcome {
    let expected = case.expected();
    let residuals = Lent::new(&case.residuals);
    let mut scratch = Lent::new(&case.scratch);
    let mut output = Lent::new(&case.output);
    let answer = mizdrek::block(case.size, case.kinds, residuals.read(), scratch.write(), output.write());
    same("the answer", expected, answer)?;
    residuals.holds("residuals", &case.residuals)?;
    let Ok(count) = expected else {
        scratch.holds("scratch", &case.scratch)?;
        return output.holds("output", &case.output);
    };
    let columns = oracle::columns(case.size, case.kinds[0], &case.residuals);
    let block = oracle::block(case.size, case.kinds, &case.residuals);
    scratch.holds("scratch", &[&columns, &case.scratch[count..]].concat())?;
    output.holds("output", &[&block, &case.output[count..]].concat())?;
    compare_square(case, &output.read()[..count])
}

/// The Rust has a second function for the DCT of small squares.
fn compare_square(case: &BlockCase, output: &[i32]) -> Outcome {
    let (w, h) = case.size;
    if case.kinds != [DCT, DCT] || w != h || w == 32 {
        return Ok(());
    }
    same_list("output, against the squares", &oracle::square(w, case.kinds, &case.residuals[..w * h]), output)
}
