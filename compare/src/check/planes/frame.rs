//! A frame plane that two rooms work on: its record, its output, and each tile's own buffers.

use super::buffers::{Buffer, Numbers, Record, Work};
use super::tile_call::{Action, Answer, TileCall};
use super::tile_claim::TileClaim;
use crate::difference::{Difference, Outcome};
use crate::mizdrek::{self, Plane, Refusal::ShortBuffer};
use crate::random::Random;
use crate::rules::plane as rules;
use crate::samples::filling;

/// Sides of planes: the least and the greatest, multiples of 4, and others.
const PLANE_SIDES: [usize; 12] = [4, 7, 16, 32, 61, 64, 96, 100, 128, 160, 255, 256];

/// Past the tiles' numbers: the buffers of a tile that is to be opened, and of numbers that there aren't.
const NEW: usize = 16;

pub struct Frame {
    pub record: Record,
    pub output: Buffer,
    /// By number. Where no tile is open there are buffers all the same, for the calls that name it.
    pub works: Vec<Work>,
    claims: Vec<Option<TileClaim>>,
}

impl Frame {
    /// A plane of any size, as made.
    pub fn any(random: &mut Random) -> Frame {
        let (w, h) = (random.pick(&PLANE_SIDES), random.pick(&PLANE_SIDES));
        let more = random.pick(&[0, 0, 9]);
        Frame::new((w, h), &filling(random, w * h + more))
    }

    pub fn new((w, h): (usize, usize), output: &[i32]) -> Frame {
        let mut record = Record { ours: Plane::default(), rules: Plane::default() };
        _ = mizdrek::make_plane(w, h, &mut record.ours);
        _ = rules::make(&mut record.rules, w, h);
        let idle = Numbers { residuals: vec![1; 32 * 32], scratch: vec![2; 32 * 32] };
        Frame {
            record,
            output: Buffer::new(output),
            works: (0..=NEW).map(|_| Work::new(&idle)).collect(),
            claims: (0..NEW).map(|_| None).collect(),
        }
    }

    /// Makes a call on any record, with the buffers here, and compares it.
    pub fn call(&mut self, record: &mut Record, call: &TileCall) -> Result<Answer, Difference> {
        let number = match &call.action {
            Action::Open(_, numbers) => {
                self.works[NEW] = Work::new(numbers);
                NEW
            }
            Action::Close(tile) | Action::Batch(tile, _) => NEW.min(*tile),
        };
        call.compare(record, &mut self.works[number], &mut self.output)
    }

    /// Makes a call on the record here and compares it, and all that was done to a tile that it closes.
    pub fn step(&mut self, call: &TileCall) -> Result<Answer, Difference> {
        let before = self.record.ours;
        let mut record = self.record;
        let answer = self.call(&mut record, call)?;
        self.record = record;
        match (&call.action, answer) {
            (Action::Open(_, numbers), Ok(number)) => self.begin(number, numbers),
            (Action::Close(_), Ok(number)) => self.end(&before, number)?,
            // Number 3 is given where a call isn't lent the whole of the tile's own buffers.
            (Action::Batch(tile, batch), answer) if answer != Err(ShortBuffer) => {
                if let Some(claim) = self.claims.get_mut(*tile).and_then(Option::as_mut) {
                    claim.note(call.room, *batch, answer);
                }
            }
            _ => {}
        }
        Ok(answer)
    }

    /// Keeps the buffers of a tile that was just opened.
    fn begin(&mut self, number: usize, numbers: &Numbers) {
        self.works.swap(number, NEW);
        let plane = &self.record.ours;
        let claim = TileClaim::new(plane, &plane.tiles[number], numbers, self.output.ours.read());
        self.claims[number] = Some(claim);
    }

    /// Compares all that was done to a tile which was open in this record until now.
    fn end(&mut self, plane: &Plane, number: usize) -> Outcome {
        let Some(claim) = self.claims[number].take() else { return Ok(()) };
        let scratch = self.works[number].scratch.ours.read();
        claim.compare(plane, &plane.tiles[number], scratch, self.output.ours.read())
    }

    /// Compares all that was done to the tiles that are still open.
    pub fn finish(&mut self) -> Outcome {
        let plane = self.record.ours;
        (0..NEW).try_for_each(|number| self.end(&plane, number))
    }
}
