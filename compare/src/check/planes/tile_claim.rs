//! Condition 3 of a tile, from its opening until it is closed: its batches are those that name its room and
//! number, its output is its places in the plane, row by row.

use super::buffers::Numbers;
use super::tile_call::Answer;
use crate::check::block_case::BlockCase;
use crate::check::call::Call;
use crate::check::claim::Claim;
use crate::difference::{Outcome, same, same_list};
use crate::mizdrek::{Plane, Tile};
use crate::rules::batch::Batch;
use crate::rules::plane::place;

pub struct TileClaim {
    room: u32,
    opening: BlockCase,
    calls: Vec<Call>,
    answers: Vec<Answer>,
}

impl TileClaim {
    /// A tile that was just opened.
    pub fn new(plane: &Plane, tile: &Tile, numbers: &Numbers, output: &[i32]) -> TileClaim {
        let opening = BlockCase {
            size: (tile.ticket.w, tile.ticket.h),
            kinds: [tile.ticket.column_kind, tile.ticket.row_kind],
            residuals: numbers.residuals.clone(),
            scratch: numbers.scratch.clone(),
            output: places(plane, tile, output),
        };
        TileClaim { room: tile.room, opening, calls: Vec::new(), answers: Vec::new() }
    }

    /// Notes a batch that named the tile's number and was lent its own buffers.
    pub fn note(&mut self, room: u32, batch: Batch, answer: Answer) {
        if room == self.room {
            self.calls.push(Call::run(batch));
            self.answers.push(answer);
        }
    }

    /// Compares all answers, and the marks and the two work buffers as they are now.
    pub fn compare(&self, plane: &Plane, tile: &Tile, scratch: &[i32], output: &[i32]) -> Outcome {
        self.compare_claim(tile, scratch, &places(plane, tile, output)).map_err(|d| {
            let mut inputs = self.opening.inputs().to_vec();
            inputs.push(("batches", &self.calls));
            d.of("a tile's batches", &inputs)
        })
    }

    fn compare_claim(&self, tile: &Tile, scratch: &[i32], places: &[i32]) -> Outcome {
        let claim = Claim::new(&self.opening, &self.calls);
        let end = self.calls.len();
        let outcomes: Vec<Answer> = (0..end).map(|i| claim.outcome(i)).collect();
        same_list("the answers", &outcomes, &self.answers)?;
        same("the marks of columns", claim.covered(false, end), tile.ticket.columns)?;
        same("the marks of rows", claim.covered(true, end), tile.ticket.rows)?;
        same_list("scratch", &claim.scratch(end), scratch)?;
        same_list("the tile's places", &claim.output(end), places)
    }
}

/// A tile's places in the plane, row by row.
pub fn places(plane: &Plane, tile: &Tile, output: &[i32]) -> Vec<i32> {
    let rows = (0..tile.ticket.h).map(|j| &output[place(plane, tile, j)..][..tile.ticket.w]);
    rows.collect::<Vec<_>>().concat()
}
