//! Random calls on a plane, mostly such as are accepted, the others bad in any way.

use super::buffers::Numbers;
use super::tile_call::{ALL, Action, TileCall};
use crate::check::block_case::BlockCase;
use crate::check::call::any_batch;
use crate::mizdrek::{Plane, Site, Ticket};
use crate::random::Random;
use crate::rules::batch::{Batch, first_lines};
use crate::rules::plane as rules;

/// The fewer tiles are open, the more often an opening.
pub fn any_call(random: &mut Random, plane: &Plane) -> TileCall {
    let room = any_room(random);
    let open = plane.tiles.iter().filter(|tile| rules::is_open(tile)).count();
    match random.below(16) {
        0 => any_closing(random, plane, room),
        1 => any_opening(random, plane, room),
        _ if random.below(24) >= 5 + open => any_opening(random, plane, room),
        _ => any_tile_batch(random, plane, room),
    }
}

pub fn any_room(random: &mut Random) -> u32 {
    if random.once_in(40) { random.pick(&[2, 3, 1 << 31, u32::MAX]) } else { random.below(2) as u32 }
}

pub fn any_opening(random: &mut Random, plane: &Plane, room: u32) -> TileCall {
    let BlockCase { size: (w, h), kinds, residuals, scratch, .. } = BlockCase::any(random);
    let site = Site { x: 0, y: 0, w, h, column_kind: kinds[0], row_kind: kinds[1] };
    let site = placed(random, plane, site);
    let most = most(random, plane.w.saturating_mul(plane.h));
    TileCall {
        room,
        action: Action::Open(site, Numbers { residuals, scratch }),
        lent: [usize::MAX, usize::MAX, most],
    }
}

fn any_closing(random: &mut Random, plane: &Plane, room: u32) -> TileCall {
    TileCall { room, action: Action::Close(any_number(random, plane, room)), lent: ALL }
}

pub fn any_tile_batch(random: &mut Random, plane: &Plane, room: u32) -> TileCall {
    let number = any_number(random, plane, room);
    batch_of(random, plane, room, number)
}

/// A batch that names this number.
pub fn batch_of(random: &mut Random, plane: &Plane, room: u32, number: usize) -> TileCall {
    let ticket = plane.tiles.get(number).map_or(Ticket::default(), |tile| tile.ticket);
    let batch = if random.once_in(4) { any_batch(random) } else { next_batch(random, &ticket) };
    let numbers = ticket.w.saturating_mul(ticket.h);
    let needed = [numbers, numbers, plane.w.saturating_mul(plane.h)];
    TileCall { room, action: Action::Batch(number, batch), lent: needed.map(|count| most(random, count)) }
}

/// The most that is lent of a buffer of which `count` numbers are needed: mostly all, at times just these, or
/// fewer.
fn most(random: &mut Random, count: usize) -> usize {
    match random.below(40) {
        0 => count.saturating_sub(1),
        1 => random.below(count.max(1)),
        2 | 3 => count,
        _ => usize::MAX,
    }
}

/// The number of a tile: mostly one that is open for the room.
pub fn any_number(random: &mut Random, plane: &Plane, room: u32) -> usize {
    let is_own = |number: &usize| rules::is_open(&plane.tiles[*number]) && plane.tiles[*number].room == room;
    let own: Vec<usize> = (0..16).filter(is_own).collect();
    match random.below(16) {
        0 => random.pick(&[16, 17, 1 << 32, 1 << 63, usize::MAX]),
        1 => random.below(16),
        _ if own.is_empty() => random.below(16),
        _ => random.pick(&own),
    }
}

/// A batch with lines that aren't done: columns first, then rows.
fn next_batch(random: &mut Random, ticket: &Ticket) -> Batch {
    let columns = first_lines(ticket.w.min(32));
    let row = ticket.columns & columns == columns;
    let (lines, marks) = if row { (ticket.h, ticket.rows) } else { (ticket.w, ticket.columns) };
    let lines = lines.clamp(4, 32);
    let left: Vec<usize> = (0..lines).filter(|j| marks >> j & 1 == 0).collect();
    let line = if left.is_empty() { random.below(lines) } else { random.pick(&left) };
    let count = random.pick(&[1, 4, 8, 8, 8]).min(lines);
    let start = if count == 1 { line } else { (line / 4 * 4).min(lines - count) };
    Batch { row, start, count }
}

/// The site at a free place, if one is found in a few tries; at times beside or over a tile, misplaced or
/// outside.
fn placed(random: &mut Random, plane: &Plane, mut site: Site) -> Site {
    for _ in 0..8 {
        site.x = random.below(plane.w / 4 + 1) * 4;
        site.y = random.below(plane.h / 4 + 1) * 4;
        if rules::has_place(plane, &rules::new_tile(0, &site)) {
            break;
        }
    }
    match random.below(20) {
        0 => site.x |= 1 + random.below(3),
        1 => site.y |= 1 + random.below(3),
        2 => site.x = past(random, plane.w, site.w),
        3 => site.y = past(random, plane.h, site.h),
        4 | 5 => {
            let tile = random.pick(&plane.tiles);
            site.x = near(random, tile.x, tile.ticket.w);
            site.y = near(random, tile.y, tile.ticket.h);
        }
        _ => {}
    }
    site
}

/// A start from which `length` places don't all lie within the side.
fn past(random: &mut Random, side: usize, length: usize) -> usize {
    let next = side.saturating_sub(length) / 4 * 4 + 4;
    random.pick(&[next, next, side, 0usize.wrapping_sub(length), usize::MAX - 3, 1 << 63])
}

/// A multiple of 4 from a little before a tile's start to its end.
fn near(random: &mut Random, start: usize, length: usize) -> usize {
    let steps = 3 + length.min(32) / 4;
    start.wrapping_add(4 * random.below(steps)).saturating_sub(8)
}
