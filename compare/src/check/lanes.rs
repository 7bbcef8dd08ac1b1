//! The lane pass: some lines of a pass, with every other number of dst kept.

use super::Run;
use crate::difference::{Input, Outcome, same};
use crate::lent::Lent;
use crate::oracle::{self, KERNELS, SIDES};
use crate::probe::passes as ours;
use crate::samples::{filling, samples};

struct Case {
    side: usize,
    kind: u32,
    shift: i32,
    lines: usize,
    start: usize,
    count: usize,
    src: Vec<i32>,
    dst: Vec<i32>,
}

/// Every start of 1, 4, 8, 16 and 32 lines at every size, at shift 0 and at another, and as many random cases as are asked for.
pub fn compare(run: &mut Run) -> Outcome {
    let places = places();
    for (kind, side) in KERNELS {
        for &place in &places {
            random_case(run, (side, kind, 0), place)?;
            let shift = run.random.within(1, 15) as i32;
            random_case(run, (side, kind, shift), place)?;
        }
    }
    for _ in 0..run.count {
        let (kind, side) = run.random.pick(&KERNELS);
        let place = run.random.pick(&places);
        let shift = run.random.within(0, 15) as i32;
        random_case(run, (side, kind, shift), place)?;
    }
    Ok(())
}

/// Line count, start and number of lines, wherever they lie within the line count.
fn places() -> Vec<(usize, usize, usize)> {
    let mut places = Vec::new();
    for lines in SIDES {
        for count in [1, 4, 8, 16, 32] {
            places.extend((0..(lines + 1).saturating_sub(count)).map(|start| (lines, start, count)));
        }
    }
    places
}

fn random_case(
    run: &mut Run,
    (side, kind, shift): (usize, u32, i32),
    (lines, start, count): (usize, usize, usize),
) -> Outcome {
    run.case();
    let random = &mut run.random;
    let more = random.pick(&[0, 0, 9]);
    let src = samples(random, side * lines + more);
    let dst = filling(random, side * lines + more);
    let case = Case { side, kind, shift, lines, start, count, src, dst };
    case.compare().map_err(|d| d.of("probe_lanes", &case.inputs()))
}

impl Case {
    fn compare(&self) -> Outcome {
        let Case { side, kind, shift, lines, start, count, .. } = *self;
        let src = Lent::new(&self.src);
        let mut dst = Lent::new(&self.dst);
        let answer = ours::lanes((side, kind, shift), (lines, start, count), src.read(), dst.write());
        src.holds("src", &self.src)?;
        same("the answer", Ok(count), answer)?;
        let all = oracle::pass(side, kind, shift, lines, &self.src);
        let (first, end) = (start * side, (start + count) * side);
        let mut expected = self.dst.clone();
        expected[first..end].copy_from_slice(&all[first..end]);
        dst.holds("dst", &expected)
    }

    fn inputs(&self) -> [Input<'_>; 8] {
        [
            ("side", &self.side),
            ("kind", &self.kind),
            ("shift", &self.shift),
            ("lines", &self.lines),
            ("start", &self.start),
            ("count", &self.count),
            ("src", &self.src),
            ("dst before", &self.dst),
        ]
    }
}
