//! The seven kernels, the sixteen pairs of shifts and the DC scale.

use super::Run;
use crate::av2::fdct;
use crate::difference::{Input, Outcome, same};
use crate::mizdrek::{self, Refusal};
use crate::oracle::{self, KERNELS, SIDES};
use crate::probe::tables as ours;
use crate::random::Random;

/// Every side below this is tried beside the four that there are.
const SIDES_TRIED: usize = 70;

pub fn compare(run: &mut Run) -> Outcome {
    for (kind, side) in KERNELS {
        kernel(run, kind, side)?;
    }
    for w in 0..SIDES_TRIED {
        for h in 0..SIDES_TRIED {
            size(run, w, h)?;
        }
    }
    for _ in 0..run.count {
        let w = any_size(&mut run.random);
        let h = any_size(&mut run.random);
        size(run, w, h)?;
    }
    Ok(())
}

/// Every number of one kernel.
fn kernel(run: &mut Run, kind: u32, side: usize) -> Outcome {
    for f in 0..side {
        for k in 0..side {
            run.case();
            same("the number", oracle::kernel(kind, side, f, k), ours::kernel(kind, side, f, k))
                .map_err(|d| d.of("a kernel", &[("kind", &kind), ("side", &side), ("f", &f), ("k", &k)]))?;
        }
    }
    Ok(())
}

fn size(run: &mut Run, w: usize, h: usize) -> Outcome {
    let known = SIDES.contains(&w) && SIDES.contains(&h);
    let (shifts, scale) = if known {
        let (first, second) = fdct::fwd_shifts(w, h);
        ((first * 16 + second) as u32, Ok(fdct::dc_tx_scale(w, h) as usize))
    } else {
        (0, Err(Refusal::BadSize))
    };
    let inputs: [Input; 2] = [("w", &w), ("h", &h)];
    run.case();
    same("the shifts", shifts, ours::shifts(w, h)).map_err(|d| d.of("probe_shifts", &inputs))?;
    run.case();
    same("the answer", scale, mizdrek::dc_tx_scale(w, h)).map_err(|d| d.of("mizdrek_dc_tx_scale", &inputs))
}

/// A size of any magnitude, with the four sides among them.
fn any_size(random: &mut Random) -> usize {
    match random.below(3) {
        0 => random.pick(&SIDES),
        1 => random.below(64),
        _ => (random.next() >> random.below(64)) as usize,
    }
}
