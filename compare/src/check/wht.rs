//! The 4x4 Walsh-Hadamard transform.

use super::Run;
use crate::difference::{Outcome, same};
use crate::lent::Lent;
use crate::mizdrek;
use crate::oracle;
use crate::rules::transform::{self, RESIDUAL_LIMIT};
use crate::samples::{filling, impulse, length, residuals};

pub fn compare(run: &mut Run) -> Outcome {
    patterns(run)?;
    refusals(run)?;
    for _ in 0..run.count {
        let random = &mut run.random;
        let lengths = [(); 2].map(|_| length(random, 16, 20));
        let mut residuals = residuals(random, lengths[0], RESIDUAL_LIMIT);
        if random.once_in(20) && !residuals.is_empty() {
            let place = random.below(residuals.len());
            residuals[place] = random.pick(&[4096, -4096, i32::MAX, i32::MIN]);
        }
        compare_case(run, &residuals, lengths[1])?;
    }
    Ok(())
}

/// Single numbers, and all patterns of the two limits.
fn patterns(run: &mut Run) -> Outcome {
    for place in 0..16 {
        for number in [1, -1, RESIDUAL_LIMIT, -RESIDUAL_LIMIT] {
            compare_case(run, &impulse(16, place, number), 16)?;
        }
    }
    for pattern in 0..1 << 16 {
        let limit = |i| {
            if pattern >> i & 1 == 0 { RESIDUAL_LIMIT } else { -RESIDUAL_LIMIT }
        };
        compare_case(run, &(0..16).map(limit).collect::<Vec<_>>(), 19)?;
    }
    Ok(())
}

/// Every length around 16, with a number outside the limit at every place.
fn refusals(run: &mut Run) -> Outcome {
    for given in 0..20 {
        for lent in 0..20 {
            compare_case(run, &vec![1; given], lent)?;
            for place in 0..given {
                let number = run.random.pick(&[4096, -4096, i32::MIN, i32::MAX]);
                compare_case(run, &impulse(given, place, number), lent)?;
            }
        }
    }
    Ok(())
}

fn compare_case(run: &mut Run, residuals: &[i32], lent: usize) -> Outcome {
    run.case();
    let before = filling(&mut run.random, lent);
    compare_call(residuals, &before)
        .map_err(|d| d.of("mizdrek_fwht4x4", &[("residuals", &residuals), ("output before", &before)]))
}

fn compare_call(residuals: &[i32], before: &[i32]) -> Outcome {
    let given = Lent::new(residuals);
    let mut output = Lent::new(before);
    let answer = mizdrek::fwht4x4(given.read(), output.write());
    let expected = transform::fwht4x4(residuals, before.len());
    same("the answer", expected, answer)?;
    given.holds("residuals", residuals)?;
    match expected {
        Err(_) => output.holds("output", before),
        Ok(count) => {
            output.holds("output", &[&oracle::fwht4x4(&residuals[..count]), &before[count..]].concat())
        }
    }
}
