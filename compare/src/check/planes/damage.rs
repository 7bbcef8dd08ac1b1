//! Damage to a plane's record, as anybody may do who keeps it.

use crate::mizdrek::{Plane, Ticket, Tile};
use crate::random::Random;
use crate::rules::plane::is_open;

/// Changes one field, at times two; at times fills the closed tiles, in which nothing matters. Gives back the
/// number of a tile that it may have changed.
pub fn damage(random: &mut Random, plane: &mut Plane) -> usize {
    if random.once_in(3) {
        plane.tiles.iter_mut().filter(|tile| !is_open(tile)).for_each(|tile| *tile = any_closed(random));
    }
    if random.once_in(4) {
        one_field(random, plane);
    }
    one_field(random, plane)
}

fn one_field(random: &mut Random, plane: &mut Plane) -> usize {
    let number = random.below(16);
    let Tile { opened, room, x, y, ticket } = &mut plane.tiles[number];
    match random.below(14) {
        0 => plane.w = any_size(random, plane.w),
        1 => plane.h = any_size(random, plane.h),
        2 => *opened = any_word(random, *opened),
        3 => *room = any_word(random, *room),
        4 | 5 => *x = any_size(random, *x),
        6 | 7 => *y = any_size(random, *y),
        8 => ticket.w = any_size(random, ticket.w),
        9 => ticket.h = any_size(random, ticket.h),
        10 => ticket.column_kind = any_word(random, ticket.column_kind),
        11 => ticket.row_kind = any_word(random, ticket.row_kind),
        12 => ticket.columns = any_word(random, ticket.columns),
        _ => ticket.rows = any_word(random, ticket.rows),
    }
    number
}

/// A side or a place, unlike the old one in some way.
fn any_size(random: &mut Random, old: usize) -> usize {
    match random.below(4) {
        0 => random.pick(&[0, 3, 4, 8, 16, 32, 33, 255, 256, 257, 260, usize::MAX, usize::MAX - 3, !31]),
        1 => 1 << random.below(64),
        2 => old.wrapping_add(random.pick(&[1, 4, 8, !0, !3, !7])),
        _ => random.below(70) * 4,
    }
}

/// A mark, a room or a kind, unlike the old one in some way.
fn any_word(random: &mut Random, old: u32) -> u32 {
    match random.below(4) {
        0 => random.pick(&[0, 1, 2, 0xf, u32::MAX, 1 << 31]),
        1 => random.next() as u32,
        _ => old ^ 1 << random.below(32),
    }
}

/// A closed tile that holds anything.
fn any_closed(random: &mut Random) -> Tile {
    let mut size = || any_size(random, 4);
    let (x, y, w, h) = (size(), size(), size(), size());
    let mut word = || any_word(random, 1);
    let (room, column_kind, row_kind, columns, rows) = (word(), word(), word(), word(), word());
    Tile { opened: 0, room, x, y, ticket: Ticket { w, h, column_kind, row_kind, columns, rows } }
}
