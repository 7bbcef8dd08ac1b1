//! Files that are damaged in any way, and any bytes. What is accepted is written again.

use super::any_blocks::any_blocks;
use super::case::Case;
use super::damage::{any_bytes, damaged};
use super::{LEAST, both_ways};
use crate::check::Run;
use crate::difference::Outcome;
use crate::rules::records::{self as rules, Block, List};
use crate::samples::length;

/// How many times one file is damaged, each time anew.
const TIMES: usize = 8;

pub fn compare(run: &mut Run) -> Outcome {
    let end = run.cases() + (run.count / 2).max(LEAST);
    while run.cases() < end {
        let blocks = any_blocks(&mut run.random);
        for _ in 0..TIMES {
            let bytes = damaged(&mut run.random, &blocks);
            read(run, &bytes, &blocks)?;
        }
        let bytes = any_bytes(&mut run.random);
        read(run, &bytes, &blocks)?;
    }
    Ok(())
}

/// Reads bytes into buffers for their own list, or, where they are refused, for the list of these blocks.
fn read(run: &mut Run, bytes: &[u8], blocks: &[Block]) -> Outcome {
    let own = rules::blocks(bytes);
    let needed = List::of(own.as_deref().unwrap_or(blocks)).lengths();
    let case = Case::read(&mut run.random, bytes, needed);
    let [numbers, sides, levels] = needed.map(|count| length(&mut run.random, count, 12));
    let case = case.lend(&mut run.random, [bytes.len(), numbers, sides, levels]);
    if case.compare(run)?.is_ok() { both_ways::compare_file(run, bytes) } else { Ok(()) }
}
