//! Openings on records with any sides: number 3 goes by their exact product, then comes 13.

use super::buffers::{Numbers, Record};
use super::frame::Frame;
use super::tile_call::{Action, TileCall};
use crate::check::Run;
use crate::difference::Outcome;
use crate::mizdrek::{Plane, Site};
use crate::oracle::DCT;

/// Sides of a plane and others, with products that wrap among them.
const SIDES: [usize; 12] =
    [0, 1, 3, 4, 255, 256, 257, 1 << 32, 1 << 56, 1 << 63, usize::MAX / 4 + 2, usize::MAX];

/// An output that is longer than the plane of the greatest sides that aren't huge.
const LENGTH: usize = 257 * 257 + 5;

pub fn compare(run: &mut Run) -> Outcome {
    let mut frame = Frame::new((256, 256), &[7; LENGTH]);
    for w in SIDES {
        for h in SIDES {
            let count = w.saturating_mul(h);
            for most in [count.saturating_sub(1), count, usize::MAX] {
                opening(run, &mut frame, (w, h), most)?;
            }
        }
    }
    Ok(())
}

/// Opens a tile on a record of these sides, with at most so many numbers of output.
fn opening(run: &mut Run, frame: &mut Frame, (w, h): (usize, usize), most: usize) -> Outcome {
    run.case();
    let plane = Plane { w, h, ..Plane::default() };
    let site = Site { x: 0, y: 0, w: 4, h: 4, column_kind: DCT, row_kind: DCT };
    let numbers = Numbers { residuals: vec![1; 16], scratch: vec![2; 16] };
    let lent = [usize::MAX, usize::MAX, most];
    let call = TileCall { room: 0, action: Action::Open(site, numbers), lent };
    frame.call(&mut Record { ours: plane, rules: plane }, &call).map(|_| ())
}
