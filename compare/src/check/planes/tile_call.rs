//! A call on a plane record: an opening, a closing or a batch.

use super::buffers::{Buffer, Numbers, Record, Work};
use crate::difference::{Difference, Input, same};
use crate::mizdrek::{self, Plane, Refusal, Site, Tile};
use crate::oracle;
use crate::rules::batch::Batch;
use crate::rules::plane as rules;
use std::hint::black_box;

pub type Answer = Result<usize, Refusal>;

#[derive(Clone, Debug)]
pub enum Action {
    /// Opens a tile that works in buffers with these numbers.
    Open(Site, Numbers),
    Close(usize),
    Batch(usize, Batch),
}

#[derive(Clone, Debug)]
pub struct TileCall {
    pub room: u32,
    pub action: Action,
    /// The most numbers that are lent of residuals, of scratch and of output.
    pub lent: [usize; 3],
}

/// All numbers of each buffer.
pub const ALL: [usize; 3] = [usize::MAX; 3];

impl TileCall {
    /// The name of the function that is called.
    pub fn name(&self) -> &'static str {
        match self.action {
            Action::Open(..) => "mizdrek_open_tile",
            Action::Close(_) => "mizdrek_close_tile",
            Action::Batch(_, Batch { row: false, .. }) => "mizdrek_tile_columns",
            Action::Batch(_, Batch { row: true, .. }) => "mizdrek_tile_rows",
        }
    }

    /// Makes the call and compares the answer, the record and each buffer.
    pub fn compare(
        &self,
        record: &mut Record,
        work: &mut Work,
        output: &mut Buffer,
    ) -> Result<Answer, Difference> {
        let (before, scratch) = (record.ours, work.scratch.rules.clone());
        let answer = self.compare_call(record, work, output);
        answer.map_err(|d| {
            let inputs: [Input; 7] = [
                ("plane before", &before),
                ("room", &self.room),
                ("action", &self.action),
                ("most lent of residuals, scratch, output", &self.lent),
                ("residuals", &work.residuals.rules),
                ("scratch before", &scratch),
                ("length of output", &output.rules.len()),
            ];
            d.of(self.name(), &inputs)
        })
    }

    fn compare_call(
        &self,
        record: &mut Record,
        work: &mut Work,
        output: &mut Buffer,
    ) -> Result<Answer, Difference> {
        let expected = self.expected(&mut record.rules, work, output);
        let answer = self.make(&mut record.ours, work, output);
        same("the answer", expected, answer)?;
        same("the plane", record.rules, record.ours)?;
        work.residuals.compare("residuals")?;
        work.scratch.compare("scratch")?;
        output.compare("output")?;
        Ok(answer)
    }

    /// How many numbers of residuals, scratch and output are lent.
    fn lengths(&self, work: &Work, output: &Buffer) -> [usize; 3] {
        let [residuals, scratch, all] = self.lent;
        [work.residuals.length(residuals), work.scratch.length(scratch), output.length(all)]
    }

    /// Asks the rules, which change their side of all that is lent.
    fn expected(&self, plane: &mut Plane, work: &mut Work, output: &mut Buffer) -> Answer {
        let [given, scratch, all] = self.lengths(work, output);
        match &self.action {
            Action::Open(site, _) => {
                rules::open(plane, self.room, site, &work.residuals.rules[..given], [scratch, all])
            }
            Action::Close(tile) => rules::close(plane, self.room, *tile),
            Action::Batch(tile, batch) if batch.row => {
                let count = rules::batch(plane, (self.room, *tile), batch, [scratch, all])?;
                write_rows(plane, &plane.tiles[*tile], batch, &work.scratch.rules, &mut output.rules);
                Ok(count)
            }
            Action::Batch(tile, batch) => {
                let count = rules::batch(plane, (self.room, *tile), batch, [given, scratch])?;
                write_columns(&plane.tiles[*tile], batch, work);
                Ok(count)
            }
        }
    }

    /// Asks the library.
    fn make(&self, plane: &mut Plane, work: &mut Work, output: &mut Buffer) -> Answer {
        let [given, scratch, all] = self.lengths(work, output);
        let residuals = &work.residuals.ours.read()[..given];
        let (scratch, output) = (&mut work.scratch.ours.write()[..scratch], &mut output.ours.write()[..all]);
        let answer = match self.action {
            Action::Open(site, _) => mizdrek::open_tile(plane, self.room, site, residuals, scratch, output),
            Action::Close(tile) => mizdrek::close_tile(plane, self.room, tile),
            Action::Batch(tile, Batch { row: false, start, count }) => {
                mizdrek::tile_columns(plane, (self.room, tile), residuals, scratch, start, count)
            }
            Action::Batch(tile, Batch { row: true, start, count }) => {
                mizdrek::tile_rows(plane, (self.room, tile), scratch, output, start, count)
            }
        };
        // The compiler may take what is lent to be read to be as before: the comparison is to look again.
        black_box((plane, residuals, scratch, output));
        answer
    }
}

/// The columns that a batch writes to its tile's scratch.
fn write_columns(tile: &Tile, batch: &Batch, work: &mut Work) {
    let (w, h) = (tile.ticket.w, tile.ticket.h);
    let all = oracle::columns((w, h), tile.ticket.column_kind, &work.residuals.rules);
    let places = batch.start * h..(batch.start + batch.count) * h;
    work.scratch.rules[places.clone()].copy_from_slice(&all[places]);
}

/// The rows that a batch writes to its tile's places in the plane.
fn write_rows(plane: &Plane, tile: &Tile, batch: &Batch, scratch: &[i32], output: &mut [i32]) {
    let (w, h) = (tile.ticket.w, tile.ticket.h);
    let all = oracle::rows((w, h), tile.ticket.row_kind, scratch);
    for j in batch.start..batch.start + batch.count {
        let place = rules::place(plane, tile, j);
        output[place..place + w].copy_from_slice(&all[j * w..(j + 1) * w]);
    }
}
