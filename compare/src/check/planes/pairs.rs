//! Every pair of sixteen tiles, the one beside or over the other: as tiles of a record, and as an opening.

use super::buffers::{Numbers, Record};
use super::frame::Frame;
use super::tile_call::{ALL, Action, TileCall};
use crate::check::Run;
use crate::difference::Outcome;
use crate::mizdrek::{Plane, Site, Tile};
use crate::oracle::{DCT, SIDES};
use crate::rules::plane as rules;

/// Both sides of the plane.
const PLANE: usize = 168;

/// From the plane's edge to the first tile, and from each tile's start to the next one's: between any two there
/// is room for a third.
const EDGE: usize = 16;
const STEP: usize = 40;

pub fn compare(run: &mut Run) -> Outcome {
    let mut frame = Frame::new((PLANE, PLANE), &[7; PLANE * PLANE]);
    for moved in 0..16 {
        for other in (0..16).filter(|&other| other != moved) {
            for site in around(&tile(moved), &tile(other)) {
                moved_tile(run, &mut frame, moved, site)?;
                new_tile(run, &mut frame, moved, site)?;
            }
        }
    }
    Ok(())
}

/// Sixteen open tiles, far from each other.
fn spread() -> Plane {
    Plane { w: PLANE, h: PLANE, tiles: std::array::from_fn(tile) }
}

fn tile(number: usize) -> Tile {
    let (column, row) = (number % 4, number / 4);
    let (w, h) = (SIDES[number % 3], SIDES[number / 3 % 3]);
    let (x, y) = (EDGE + column * STEP, EDGE + row * STEP);
    rules::new_tile(number as u32 % 2, &Site { x, y, w, h, column_kind: DCT, row_kind: DCT })
}

/// The places of a tile that touch another, or overlap it by 4, on each side and corner.
fn around(tile: &Tile, other: &Tile) -> Vec<Site> {
    let (w, h) = (tile.ticket.w, tile.ticket.h);
    let starts = |start: usize, end: usize, side: usize| [start - side, start - side + 4, end - 4, end];
    let mut sites = Vec::new();
    for x in starts(other.x, other.x + other.ticket.w, w) {
        for y in starts(other.y, other.y + other.ticket.h, h) {
            sites.push(Site { x, y, w, h, column_kind: DCT, row_kind: DCT });
        }
    }
    sites
}

/// Closes a tile of a record in which one was moved.
fn moved_tile(run: &mut Run, frame: &mut Frame, moved: usize, site: Site) -> Outcome {
    let mut plane = spread();
    plane.tiles[moved] = rules::new_tile(moved as u32 % 2, &site);
    call(run, frame, plane, moved, Action::Close(moved))
}

/// Opens a tile for the one number that is free.
fn new_tile(run: &mut Run, frame: &mut Frame, number: usize, site: Site) -> Outcome {
    let mut plane = spread();
    plane.tiles[number] = Tile::default();
    let numbers = Numbers { residuals: vec![1; site.w * site.h], scratch: vec![2; site.w * site.h] };
    call(run, frame, plane, number, Action::Open(site, numbers))
}

fn call(run: &mut Run, frame: &mut Frame, plane: Plane, number: usize, action: Action) -> Outcome {
    run.case();
    let call = TileCall { room: number as u32 % 2, action, lent: ALL };
    frame.call(&mut Record { ours: plane, rules: plane }, &call).map(|_| ())
}
