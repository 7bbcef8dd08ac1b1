//! Any two numbers after each other, and levels about every power of two, written and read.

use super::any_blocks::{NUMBERS, edge_levels, three_blocks};
use super::case::Case;
use crate::check::Run;
use crate::difference::Outcome;
use crate::rules::records::{self as rules, Block, List};

pub fn compare(run: &mut Run) -> Outcome {
    let empty = |number| Block { number, size: (4, 4), levels: vec![0; 16] };
    for before in NUMBERS {
        for number in NUMBERS {
            both(run, &[empty(before), empty(number)])?;
        }
    }
    for level in edge_levels() {
        let mut blocks = three_blocks(&mut run.random);
        let block = &mut blocks[run.random.below(3)];
        let place = run.random.below(block.levels.len());
        block.levels[place] = level;
        both(run, &blocks)?;
    }
    Ok(())
}

/// Writes the blocks, and reads the bytes that they would have.
fn both(run: &mut Run, blocks: &[Block]) -> Outcome {
    _ = Case::write(&mut run.random, blocks).compare(run)?;
    let lengths = List::of(blocks).lengths();
    Case::read(&mut run.random, &rules::file(blocks), lengths).compare(run).map(|_| ())
}
