//! Planes, from request A.9 of document 02: what each call on a record answers, and the record that it
//! leaves. In openings number 13 comes after 1 to 3 and before 4; elsewhere 13, then 14, come before 3.

use super::batch::{self, Batch};
use super::transform;
use crate::mizdrek::Refusal::{self, BadKind, BadSize, BadTile, ShortBuffer, TileNotOpen};
use crate::mizdrek::{Plane, Site, Ticket, Tile};

/// Making a plane.
pub fn make(plane: &mut Plane, w: usize, h: usize) -> Result<usize, Refusal> {
    if !is_plane_side(w) || !is_plane_side(h) {
        return Err(BadSize);
    }
    *plane = Plane { w, h, ..Plane::default() };
    Ok(0)
}

/// An opening with these residuals, and a scratch and an output of these lengths.
pub fn open(
    plane: &mut Plane,
    room: u32,
    site: &Site,
    residuals: &[i32],
    [scratch, output]: [usize; 2],
) -> Result<usize, Refusal> {
    let kinds = [site.column_kind, site.row_kind];
    let block = transform::block((site.w, site.h), kinds, residuals, [scratch, usize::MAX]);
    if let Err(lower @ (BadSize | BadKind | ShortBuffer)) = block {
        return Err(lower);
    }
    if is_short(plane, output) {
        return Err(ShortBuffer);
    }
    let tile = new_tile(room, site);
    let number = plane.tiles.iter().position(|tile| !is_open(tile)).ok_or(BadTile)?;
    if !has_place(plane, &tile) {
        return Err(BadTile);
    }
    block?;
    plane.tiles[number] = tile;
    Ok(number)
}

/// A closing.
pub fn close(plane: &mut Plane, room: u32, number: usize) -> Result<usize, Refusal> {
    *named(plane, room, number)? = Tile::default();
    Ok(number)
}

/// A batch lent two buffers of these lengths.
pub fn batch(
    plane: &mut Plane,
    (room, number): (u32, usize),
    batch: &Batch,
    lengths: [usize; 2],
) -> Result<usize, Refusal> {
    let short = batch.row && is_short(plane, lengths[1]);
    let ticket = &mut named(plane, room, number)?.ticket;
    if short {
        return Err(ShortBuffer);
    }
    let count = batch::batch(ticket, batch, lengths)?;
    if batch.row {
        ticket.rows |= batch.mask();
    } else {
        ticket.columns |= batch.mask();
    }
    Ok(count)
}

/// Where line `j` of a tile begins in the plane's output.
pub fn place(plane: &Plane, tile: &Tile, j: usize) -> usize {
    (tile.y + j) * plane.w + tile.x
}

pub fn is_open(tile: &Tile) -> bool {
    tile.opened != 0
}

/// The tile that an opening at this site makes.
pub fn new_tile(room: u32, site: &Site) -> Tile {
    let Site { x, y, w, h, column_kind, row_kind } = *site;
    Tile { opened: 1, room, x, y, ticket: Ticket { w, h, column_kind, row_kind, columns: 0, rows: 0 } }
}

/// Whether the record keeps the rules, and would with one tile more, be it a seventeenth.
pub fn has_place(plane: &Plane, tile: &Tile) -> bool {
    let open = plane.tiles.iter().filter(|tile| is_open(tile));
    are_rules_kept((plane.w, plane.h), open.chain([tile]))
}

/// The tile of this number, for a call that must be of its room.
fn named(plane: &mut Plane, room: u32, number: usize) -> Result<&mut Tile, Refusal> {
    let open = plane.tiles.iter().filter(|tile| is_open(tile));
    if !is_room(room) || !are_rules_kept((plane.w, plane.h), open) {
        return Err(BadTile);
    }
    let tile = plane.tiles.get_mut(number).ok_or(TileNotOpen)?;
    if is_open(tile) && tile.room == room { Ok(tile) } else { Err(TileNotOpen) }
}

/// Whether an output of this length is shorter than the plane, whatever its sides are.
fn is_short(plane: &Plane, output: usize) -> bool {
    (output as u128) < plane.w as u128 * plane.h as u128
}

fn is_plane_side(n: usize) -> bool {
    (4..=256).contains(&n)
}

fn is_room(room: u32) -> bool {
    room == 0 || room == 1
}

/// Whether these are sides of a plane, and open tiles of which none breaks a rule and no two overlap.
fn are_rules_kept<'a>((w, h): (usize, usize), mut open: impl Iterator<Item = &'a Tile>) -> bool {
    let mut taken = [0; 64];
    is_plane_side(w)
        && is_plane_side(h)
        && open.all(|tile| {
            is_room(tile.room) && is_sound(&tile.ticket) && lies_in((w, h), tile) && take(&mut taken, tile)
        })
}

/// Whether a ticket breaks no rule of 1, 2 or 6: a column batch with nothing wrong of its own is accepted.
fn is_sound(ticket: &Ticket) -> bool {
    batch::batch(ticket, &Batch { row: false, start: 0, count: 1 }, [usize::MAX; 2]).is_ok()
}

/// Whether a tile lies at multiples of 4 and within these sides.
fn lies_in((w, h): (usize, usize), tile: &Tile) -> bool {
    let fits = |start: usize, length: usize, side: usize| {
        start.is_multiple_of(4) && start.checked_add(length).is_some_and(|end| end <= side)
    };
    fits(tile.x, tile.ticket.w, w) && fits(tile.y, tile.ticket.h, h)
}

/// Takes the places of a tile that lies in the plane, a bit for each square of 4 by 4. Gives back whether
/// all of them were free.
fn take(taken: &mut [u64; 64], tile: &Tile) -> bool {
    let columns = ((1 << (tile.ticket.w / 4)) - 1) << (tile.x / 4);
    let rows = &mut taken[tile.y / 4..][..tile.ticket.h / 4];
    let free = rows.iter().all(|row| row & columns == 0);
    rows.iter_mut().for_each(|row| *row |= columns);
    free
}
