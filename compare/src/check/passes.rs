//! Single passes: the call over all lines, then the lane pass.

use super::{Run, lanes};
use crate::difference::{Input, Outcome, same, same_list};
use crate::lent::Lent;
use crate::mizdrek::{self as ours, Refusal};
use crate::oracle::{self, KERNELS, SIDES};
use crate::random::Random;
use crate::rules;
use crate::samples::{filling, impulse, length, samples};

/// Numbers at which sums wrap, or round the other way.
const EDGES: [i32; 8] = [i32::MIN, i32::MAX, -1, 1, 8_388_608, -8_388_608, 1 << 30, i32::MIN + 1];

struct Case {
    side: usize,
    kind: u32,
    shift: i32,
    lines: usize,
    src: Vec<i32>,
    dst: Vec<i32>,
}

pub fn compare(run: &mut Run) -> Outcome {
    for (kind, side) in KERNELS {
        for shift in 0..=15 {
            for lines in SIDES {
                edges(run, (side, kind, shift, lines))?;
            }
        }
        impulses(run, side, kind)?;
    }
    refusals(run)?;
    for _ in 0..run.count {
        let case = any(&mut run.random);
        case.compare(run)?;
    }
    lanes::compare(run)
}

/// All samples at an edge, and edges in turn.
fn edges(run: &mut Run, (side, kind, shift, lines): (usize, u32, i32, usize)) -> Outcome {
    let count = side * lines;
    let mut lists: Vec<Vec<i32>> = EDGES.iter().map(|&edge| vec![edge; count]).collect();
    lists.push((0..count).map(|i| [i32::MIN, i32::MAX][i % 2]).collect());
    lists.push((0..count).map(|i| [i32::MIN, i32::MAX][i / lines % 2]).collect());
    lists.push((0..count).map(|i| EDGES[(i / lines + i % lines) % EDGES.len()]).collect());
    for src in lists {
        let dst = filling(&mut run.random, count + 5);
        Case { side, kind, shift, lines, src, dst }.compare(run)?;
    }
    Ok(())
}

/// One sample that isn't 0, at every place of a line.
fn impulses(run: &mut Run, side: usize, kind: u32) -> Outcome {
    for k in 0..side {
        for edge in EDGES {
            let lines = run.random.pick(&SIDES);
            let shift = run.random.within(0, 15) as i32;
            let src = impulse(side * lines, k * lines + run.random.below(lines), edge);
            let dst = filling(&mut run.random, side * lines);
            Case { side, kind, shift, lines, src, dst }.compare(run)?;
        }
    }
    Ok(())
}

/// Every argument good and bad, in all combinations.
fn refusals(run: &mut Run) -> Outcome {
    for side in [4, 8, 16, 32, 0, 5, 64, usize::MAX] {
        for lines in [4, 8, 32, 0, 1, 12, 64, 1 << 62, usize::MAX] {
            for shift in [0, 1, 15, 16, 32, -1, i32::MIN, i32::MAX] {
                for kind in [0, 1, 2, u32::MAX] {
                    short_buffers(run, (side, kind, shift, lines))?;
                }
            }
        }
    }
    Ok(())
}

fn short_buffers(run: &mut Run, (side, kind, shift, lines): (usize, u32, i32, usize)) -> Outcome {
    let count = side.saturating_mul(lines).min(1024);
    let one_short = count.saturating_sub(1);
    for (src, dst) in [(count, count), (one_short, count), (count, one_short), (0, 0), (one_short, one_short)]
    {
        let src = filling(&mut run.random, src);
        let dst = filling(&mut run.random, dst);
        Case { side, kind, shift, lines, src, dst }.compare(run)?;
    }
    Ok(())
}

/// A random case, mostly one that is accepted.
fn any(random: &mut Random) -> Case {
    let (mut kind, mut side) = random.pick(&KERNELS);
    let mut shift = random.within(0, 15) as i32;
    let mut lines = random.pick(&SIDES);
    let count = side * lines;
    match random.below(40) {
        0 => kind = random.below(4) as u32,
        1 => side = random.below(70),
        2 => lines = random.below(70),
        3 => shift = random.within(-3, 20) as i32,
        _ => {}
    }
    let src = length(random, count, 20);
    let dst = length(random, count, 20);
    Case { side, kind, shift, lines, src: samples(random, src), dst: filling(random, dst) }
}

impl Case {
    fn compare(&self, run: &mut Run) -> Outcome {
        run.case();
        self.compare_call().map_err(|d| d.of("mizdrek_pass", &self.inputs()))
    }

    fn compare_call(&self) -> Outcome {
        let Case { side, kind, shift, lines, .. } = *self;
        let expected = rules::transform::pass(side, kind, shift, lines, [self.src.len(), self.dst.len()]);
        let src = Lent::new(&self.src);
        let mut dst = Lent::new(&self.dst);
        let answer = ours::pass(side, kind, shift, lines, src.read(), dst.write());
        same("the answer", expected, answer)?;
        src.holds("src", &self.src)?;
        if expected.is_ok() && shift == 0 && side != 32 {
            let rust = oracle::pass(side, kind, shift, lines, &self.src);
            same_list("the Rust at shift 0", &oracle::kernel_sums(side, kind, lines, &self.src), &rust)?;
        }
        dst.holds("dst", &self.dst_after(expected))
    }

    /// What dst holds after the call.
    fn dst_after(&self, answer: Result<usize, Refusal>) -> Vec<i32> {
        match answer {
            Err(_) => self.dst.clone(),
            Ok(count) => {
                let written = oracle::pass(self.side, self.kind, self.shift, self.lines, &self.src);
                [&written, &self.dst[count..]].concat()
            }
        }
    }

    fn inputs(&self) -> [Input<'_>; 6] {
        [
            ("side", &self.side),
            ("kind", &self.kind),
            ("shift", &self.shift),
            ("lines", &self.lines),
            ("src", &self.src),
            ("dst before", &self.dst),
        ]
    }
}
