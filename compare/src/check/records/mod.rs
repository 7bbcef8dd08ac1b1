//! Block records: lists through the writer and back, what each call refuses, files that are cut or have a bit
//! flipped at every place, files that are damaged in any way, and the report of each of them.

mod any_blocks;
mod both_ways;
mod case;
mod damage;
mod damaged;
mod edges;
mod files;
mod lists;
mod reading;
mod record;
mod report;
mod totals;
mod writing;

use super::Run;
use crate::difference::{Outcome, same};
use crate::rules::records::{Block, List};

/// The fewest random calls of a part: with fewer, some faults don't come up.
const LEAST: u64 = 20_000;

/// Document 02's example.
const EXAMPLE: [u8; 15] = [7, 0, 0, 0, 0, 0x21, 0, 3, 0, 0, 0, 0xff, 0xff, 0xff, 0xff];

pub fn compare(run: &mut Run) -> Outcome {
    example(run)?;
    totals::compare(run)?;
    edges::compare(run)?;
    lists::compare(run)?;
    writing::compare(run)?;
    reading::compare(run)?;
    files::compare(run)?;
    damaged::compare(run)
}

/// The example both ways.
fn example(run: &mut Run) -> Outcome {
    let mut levels = vec![0; 16];
    (levels[0], levels[5]) = (3, -1);
    let list = List::of(&[Block { number: 7, size: (4, 4), levels }]);
    run.case();
    same("its bytes", Ok(EXAMPLE.to_vec()), both_ways::written(&list))
        .map_err(|d| d.of("the example", &[]))?;
    run.case();
    same("its list", Ok(list), both_ways::found(&EXAMPLE)).map_err(|d| d.of("the example", &[]))
}
