//! Planes: making them, sides and pairs of tiles that were made up, histories of both rooms on one record,
//! damaged records, and what one room sees of the other.

mod any_call;
mod buffers;
mod damage;
mod damaged;
mod frame;
mod histories;
mod isolation;
mod making;
mod pairs;
mod sides;
mod tally;
mod tile_call;
mod tile_claim;

use super::Run;
use crate::difference::Outcome;

/// The fewest random calls of a part: with fewer, some answers and faults don't come up.
const LEAST: u64 = 20_000;

pub fn compare(run: &mut Run) -> Outcome {
    making::compare(run)?;
    sides::compare(run)?;
    pairs::compare(run)?;
    histories::compare(run)?;
    damaged::compare(run)?;
    isolation::compare(run)
}
