//! Random lists through the writer and the reader, with buffers that just hold them, that are longer, and
//! that are one short.

use super::any_blocks::any_blocks;
use super::case::Case;
use super::{LEAST, both_ways};
use crate::check::Run;
use crate::difference::Outcome;
use crate::rules::records::{self as rules, List};

pub fn compare(run: &mut Run) -> Outcome {
    let end = run.cases() + (run.count / 4).max(LEAST);
    while run.cases() < end {
        let blocks = any_blocks(&mut run.random);
        let list = List::of(&blocks);
        let writing = Case::write(&mut run.random, &blocks);
        lengths(run, &writing, 0)?;
        let reading = Case::read(&mut run.random, &rules::file(&blocks), list.lengths());
        lengths(run, &reading, 1)?;
        both_ways::compare_list(run, &list)?;
    }
    Ok(())
}

/// Makes a call as it is, with its buffers from this one on longer, and with each of them one short.
fn lengths(run: &mut Run, case: &Case, first: usize) -> Outcome {
    _ = case.compare(run)?;
    let mut longer = case.lent;
    longer[first..].iter_mut().for_each(|length| *length += run.random.below(40));
    _ = case.clone().lend(&mut run.random, longer).compare(run)?;
    for buffer in first..4 {
        let mut short = case.clone();
        short.lent[buffer] = short.lent[buffer].saturating_sub(1);
        _ = short.compare(run)?;
    }
    Ok(())
}
