//! Condition 3: what is settled of every list of batches from its opening, with previews between them, out
//! of the list and the opening alone. No call is asked here.

use crate::mizdrek::Refusal::{self, BatchOrder, BatchRange, ShortBuffer};
use crate::oracle;
use crate::rules::batch::first_lines;
use crate::rules::preview::is_short;

use super::block_case::BlockCase;
use super::call::Call;

pub struct Claim<'a> {
    opening: &'a BlockCase,
    calls: &'a [Call],
    outcomes: Vec<Result<usize, Refusal>>,
    columns: Vec<i32>,
    block: Vec<i32>,
}

impl<'a> Claim<'a> {
    pub fn new(opening: &'a BlockCase, calls: &'a [Call]) -> Claim<'a> {
        let columns = oracle::columns(opening.size, opening.kinds[0], &opening.residuals);
        let block = oracle::block(opening.size, opening.kinds, &opening.residuals);
        let mut claim = Claim { opening, calls, outcomes: Vec::new(), columns, block };
        for i in 0..calls.len() {
            let outcome = claim.settle(i);
            claim.outcomes.push(outcome);
        }
        claim
    }

    /// Number 3 to a preview by its buffer's rule; else 5 by its own rule; else 6 to rows with a column that
    /// no accepted column batch before them covers; else the number of lines.
    fn settle(&self, i: usize) -> Result<usize, Refusal> {
        let (w, h) = self.opening.size;
        let Call { batch, room } = self.calls[i];
        if room.is_some_and(|room| is_short(&batch, (w, h), room)) {
            return Err(ShortBuffer);
        }
        if !batch.within(if batch.row { h } else { w }) {
            return Err(BatchRange);
        }
        if batch.row && self.covered(false, i) != first_lines(w) {
            return Err(BatchOrder);
        }
        Ok(batch.count)
    }

    pub fn outcome(&self, i: usize) -> Result<usize, Refusal> {
        self.outcomes[i]
    }

    /// The row lines or column lines that accepted batches before call `i` cover. Previews cover none.
    pub fn covered(&self, row: bool, i: usize) -> u32 {
        let calls = self.calls[..i].iter().zip(&self.outcomes);
        let batches = calls.filter(|(call, _)| call.room.is_none() && call.batch.row == row);
        let accepted = batches.filter(|(_, outcome)| outcome.is_ok());
        accepted.fold(0, |marks, (call, _)| marks | call.batch.mask())
    }

    /// Scratch before call `i`.
    pub fn scratch(&self, i: usize) -> Vec<i32> {
        lines(&self.opening.scratch, &self.columns, self.opening.size.1, self.covered(false, i))
    }

    /// Output before call `i`.
    pub fn output(&self, i: usize) -> Vec<i32> {
        lines(&self.opening.output, &self.block, self.opening.size.0, self.covered(true, i))
    }

    /// The preview buffer after call `i`.
    pub fn preview(&self, i: usize) -> Vec<i32> {
        let call = self.calls[i];
        let all = if call.batch.row { &self.block } else { &self.columns };
        call.preview_after(self.outcomes[i], self.opening.size, all)
    }
}

/// The marked lines of `side` numbers from `new`, all other numbers from `old`.
pub fn lines(old: &[i32], new: &[i32], side: usize, marks: u32) -> Vec<i32> {
    let mut list = old.to_vec();
    for j in (0..32).filter(|j| marks >> j & 1 == 1) {
        list[j * side..(j + 1) * side].copy_from_slice(&new[j * side..(j + 1) * side]);
    }
    list
}
