//! No room's answers and tiles depend on the other room's batches, residuals and scratch: two histories with
//! the same accepted openings and closings and the same calls of one room, all else of the other room unlike.

use super::LEAST;
use super::any_call::{any_call, any_opening, any_tile_batch};
use super::buffers::Numbers;
use super::frame::Frame;
use super::tile_call::{ALL, Action, Answer, TileCall};
use super::tile_claim::places;
use crate::check::Run;
use crate::check::claim::lines;
use crate::difference::{Difference, Outcome, same_list};
use crate::mizdrek::{Plane, Tile};
use crate::random::Random;
use crate::rules::plane::is_open;
use crate::rules::transform::RESIDUAL_LIMIT;
use crate::samples::{filling, residuals};

/// A kind that there isn't.
const NO_KIND: u32 = 9;

/// What a room has after one of its calls: the answer, and its tiles by their numbers.
type RoomState = (Answer, Vec<(usize, Tile)>);

pub fn compare(run: &mut Run) -> Outcome {
    let end = run.cases() + (run.count / 4).max(LEAST);
    while run.cases() < end {
        pair(run)?;
    }
    Ok(())
}

/// Plays a history, and then one that the room can't tell from it.
fn pair(run: &mut Run) -> Outcome {
    let room = run.random.below(2) as u32;
    let mut first = Frame::any(&mut run.random);
    let (mut history, mut states) = (Vec::new(), Vec::new());
    for _ in 0..run.random.below(120) {
        run.case();
        let call = any_call(&mut run.random, &first.record.rules);
        let answer = first.step(&call)?;
        states.extend((call.room == room).then(|| (answer, own_tiles(&first.record.ours, room))));
        history.push((call, answer));
    }
    let output = filling(&mut run.random, first.output.rules.len());
    let mut second = Frame::new((first.record.ours.w, first.record.ours.h), &output);
    let again = play_again(run, room, &history, &mut second)?;
    same_list("the room's answers and tiles", &states, &again)
        .and_then(|()| same_list("the room's lines", &own_lines(&first, room), &own_lines(&second, room)))
        .map_err(|d| d.of("a history, played again", &[("room", &room), ("calls and answers", &history)]))
}

/// Plays a history with the other room's part made anew. Gives back what the room had after its calls.
fn play_again(
    run: &mut Run,
    room: u32,
    history: &[(TileCall, Answer)],
    frame: &mut Frame,
) -> Result<Vec<RoomState>, Difference> {
    let mut states = Vec::new();
    for (call, answer) in history {
        for _ in 0..run.random.below(3) {
            run.case();
            let call = idle_call(&mut run.random, 1 - room, &frame.record.rules);
            _ = frame.step(&call)?;
        }
        if call.room == room {
            run.case();
            let answer = frame.step(call)?;
            states.push((answer, own_tiles(&frame.record.ours, room)));
        } else if let (Action::Open(..) | Action::Close(_), Ok(_)) = (&call.action, answer) {
            run.case();
            _ = frame.step(&renewed(&mut run.random, call))?;
        }
    }
    Ok(states)
}

/// A call that opens and closes nothing: a batch, or an opening or a closing that is refused.
fn idle_call(random: &mut Random, room: u32, plane: &Plane) -> TileCall {
    let mut call = match random.below(6) {
        0 => any_opening(random, plane, room),
        1 => {
            let of_other = |tile: &Tile| is_open(tile) && tile.room != room;
            let number = plane.tiles.iter().position(of_other).unwrap_or(16);
            TileCall { room, action: Action::Close(number), lent: ALL }
        }
        _ => any_tile_batch(random, plane, room),
    };
    if let Action::Open(site, _) = &mut call.action {
        site.row_kind = NO_KIND;
    }
    call
}

/// An accepted opening with other residuals and another scratch; a closing as it is.
fn renewed(random: &mut Random, call: &TileCall) -> TileCall {
    let mut call = TileCall { lent: ALL, ..call.clone() };
    if let Action::Open(site, numbers) = &mut call.action {
        let [given, scratch] = [(); 2].map(|_| site.w * site.h + random.below(40));
        *numbers = Numbers {
            residuals: residuals(random, given, RESIDUAL_LIMIT),
            scratch: filling(random, scratch),
        };
    }
    call
}

/// The room's open tiles by their numbers.
fn own_tiles(plane: &Plane, room: u32) -> Vec<(usize, Tile)> {
    let tiles = plane.tiles.into_iter().enumerate();
    tiles.filter(|(_, tile)| is_open(tile) && tile.room == room).collect()
}

/// The scratch of each of the room's open tiles, and its marked rows in the plane among zeros.
fn own_lines(frame: &Frame, room: u32) -> Vec<(Vec<i32>, Vec<i32>)> {
    let plane = &frame.record.ours;
    let of_tile = |(number, tile): (usize, Tile)| {
        let written = places(plane, &tile, frame.output.ours.read());
        let rows = lines(&vec![0; written.len()], &written, tile.ticket.w, tile.ticket.rows);
        (frame.works[number].scratch.ours.read().to_vec(), rows)
    };
    own_tiles(plane, room).into_iter().map(of_tile).collect()
}
