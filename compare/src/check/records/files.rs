//! Files with every side byte, files that are cut at every place, and files with each bit flipped.

use super::LEAST;
use super::any_blocks::{any_block, small_blocks, three_blocks};
use super::case::Case;
use super::record::{Record, file};
use crate::check::Run;
use crate::difference::Outcome;
use crate::random::Random;
use crate::rules::records::{self as rules, Block, List};

/// How many files have each side byte.
const EACH: usize = 8;

pub fn compare(run: &mut Run) -> Outcome {
    for side in 0..=u8::MAX {
        for _ in 0..EACH {
            side_byte(run, side)?;
        }
    }
    let blocks = three_blocks(&mut run.random);
    cut(run, &blocks)?;
    let end = run.cases() + (run.count / 4).max(LEAST);
    while run.cases() < end {
        let blocks = small_blocks(&mut run.random);
        cut(run, &blocks)?;
        flipped(run, &blocks)?;
    }
    Ok(())
}

/// A record with this side byte, cut by a byte, whole, and with a record behind it.
fn side_byte(run: &mut Run, side: u8) -> Outcome {
    let random = &mut run.random;
    let size = (4 << (side & 3), 4 << (side >> 2 & 3));
    let blocks = [any_block(random, 5, size), any_block(random, 6, (4, 8))];
    let mut records = blocks.each_ref().map(Record::of);
    records[0].side = side;
    let mut case = Case::read(random, &file(&records), List::of(&blocks).lengths());
    let end = file(&records[..1]).len();
    for end in [end - 1, end, case.bytes.len()] {
        case.lent[0] = end;
        _ = case.compare(run)?;
    }
    Ok(())
}

/// Every front part of a file.
fn cut(run: &mut Run, blocks: &[Block]) -> Outcome {
    let mut case = whole(&mut run.random, blocks);
    for end in 0..=case.bytes.len() {
        case.lent[0] = end;
        _ = case.compare(run)?;
    }
    Ok(())
}

/// A file with each of its bits flipped in turn.
fn flipped(run: &mut Run, blocks: &[Block]) -> Outcome {
    let mut case = whole(&mut run.random, blocks);
    for bit in 0..8 * case.bytes.len() {
        case.bytes[bit / 8] ^= 1 << (bit % 8);
        _ = case.compare(run)?;
        case.bytes[bit / 8] ^= 1 << (bit % 8);
    }
    Ok(())
}

/// A file of blocks, read into buffers that just hold them.
fn whole(random: &mut Random, blocks: &[Block]) -> Case {
    Case::read(random, &rules::file(blocks), List::of(blocks).lengths())
}
