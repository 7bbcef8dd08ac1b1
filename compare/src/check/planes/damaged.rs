//! Calls of each kind on records that were damaged after a history.

use super::LEAST;
use super::any_call::{any_call, any_number, any_opening, any_room, batch_of};
use super::buffers::Record;
use super::damage::damage;
use super::frame::Frame;
use super::tile_call::{ALL, Action, TileCall};
use crate::check::Run;
use crate::difference::Outcome;
use crate::mizdrek::Plane;
use crate::random::Random;

/// How many times the record of one history is damaged, each time anew.
const TIMES: usize = 24;

pub fn compare(run: &mut Run) -> Outcome {
    let end = run.cases() + (run.count / 2).max(LEAST);
    while run.cases() < end {
        let mut frame = Frame::any(&mut run.random);
        for _ in 0..run.random.below(100) {
            run.case();
            let call = any_call(&mut run.random, &frame.record.rules);
            _ = frame.step(&call)?;
        }
        for _ in 0..TIMES {
            damaged(run, &mut frame)?;
        }
    }
    Ok(())
}

/// Damages a copy of the record and lends it to a call of each kind.
fn damaged(run: &mut Run, frame: &mut Frame) -> Outcome {
    let mut plane = frame.record.rules;
    let number = damage(&mut run.random, &mut plane);
    for call in each_kind(&mut run.random, &plane, number) {
        run.case();
        _ = frame.call(&mut Record { ours: plane, rules: plane }, &call)?;
    }
    Ok(())
}

/// Calls of one room, of which most name this number or an open tile.
fn each_kind(random: &mut Random, plane: &Plane, number: usize) -> [TileCall; 4] {
    let room = if random.once_in(2) { any_room(random) } else { plane.tiles[number].room };
    let number = if random.once_in(2) { any_number(random, plane, room) } else { number };
    let batch = batch_of(random, plane, room, number);
    let mut other = batch.clone();
    if let Action::Batch(_, batch) = &mut other.action {
        batch.row = !batch.row;
    }
    let closing = TileCall { room, action: Action::Close(number), lent: ALL };
    [any_opening(random, plane, room), closing, batch, other]
}
