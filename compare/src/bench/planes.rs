//! Calls on a tile, with one tile open and with sixteen: batches and the opening against the same calls on a
//! bare ticket; a closing and a refusal alone.

use super::timing::{alone, more};
use crate::mizdrek::{self, Plane, Site, Tile};
use crate::oracle::DCT;
use crate::random::Random;
use crate::rules::batch::first_lines;
use crate::rules::plane::new_tile;
use crate::rules::transform::RESIDUAL_LIMIT;
use crate::samples::residuals;
use std::hint::black_box;

/// Both sides of the plane.
const PLANE: usize = 256;

pub fn rows() {
    for side in [8, 32] {
        for tiles in [1, 16] {
            let label = format!("{side}x{side}, {tiles} open");
            let (plane, last) = (plane(side, tiles), tiles - 1);
            columns(&label, plane, last);
            lines(&label, plane, last);
            opening(&label, plane, last);
            closing(&label, plane, last);
            refused(&label, plane, last);
        }
    }
}

/// A plane with so many tiles open for room 0, all their columns done.
fn plane(side: usize, tiles: usize) -> Plane {
    let mut plane = Plane { w: PLANE, h: PLANE, ..Plane::default() };
    for (number, tile) in plane.tiles.iter_mut().enumerate().take(tiles) {
        *tile = new_tile(0, &site(side, number));
        tile.ticket.columns = first_lines(side);
    }
    plane
}

/// Places for eight tiles to a row.
fn site(side: usize, number: usize) -> Site {
    Site { x: number % 8 * 32, y: number / 8 * 32, w: side, h: side, column_kind: DCT, row_kind: DCT }
}

/// Residuals, or any other numbers, of a tile.
fn numbers(tile: &Tile) -> Vec<i32> {
    residuals(&mut Random::new(5), tile.ticket.w * tile.ticket.h, RESIDUAL_LIMIT)
}

fn columns(label: &str, mut plane: Plane, tile: usize) {
    let mut ticket = plane.tiles[tile].ticket;
    let given = numbers(&plane.tiles[tile]);
    let (mut bare, mut scratch) = (given.clone(), given.clone());
    more(
        &format!("8 columns, {label}"),
        || {
            let (ticket, given, scratch) = black_box((&mut ticket, &given, &mut bare));
            _ = black_box(mizdrek::column_batch(ticket, given, scratch, 0, 8));
        },
        || {
            let (plane, given, scratch) = black_box((&mut plane, &given, &mut scratch));
            _ = black_box(mizdrek::tile_columns(plane, (0, tile), given, scratch, 0, 8));
        },
    );
}

fn lines(label: &str, mut plane: Plane, tile: usize) {
    let mut ticket = plane.tiles[tile].ticket;
    let scratch = numbers(&plane.tiles[tile]);
    let (mut bare, mut output) = (vec![0; PLANE * PLANE], vec![0; PLANE * PLANE]);
    more(
        &format!("8 rows, {label}"),
        || {
            let (ticket, scratch, output) = black_box((&mut ticket, &scratch, &mut bare));
            _ = black_box(mizdrek::row_batch(ticket, scratch, output, 0, 8));
        },
        || {
            let (plane, scratch, output) = black_box((&mut plane, &scratch, &mut output));
            _ = black_box(mizdrek::tile_rows(plane, (0, tile), scratch, output, 0, 8));
        },
    );
}

/// Opens the last tile again and again; its number is made free by one store.
fn opening(label: &str, mut plane: Plane, tile: usize) {
    let Tile { x, y, mut ticket, .. } = plane.tiles[tile];
    let (w, h) = (ticket.w, ticket.h);
    let site = Site { x, y, w, h, column_kind: DCT, row_kind: DCT };
    let given = numbers(&plane.tiles[tile]);
    let (scratch, output) = (given.clone(), vec![0; PLANE * PLANE]);
    more(
        &format!("opening, {label}"),
        || {
            let (given, ticket) = black_box((&given, &mut ticket));
            _ = black_box(mizdrek::open((w, h), [DCT, DCT], given, &scratch, &output, ticket));
        },
        || {
            let (given, plane) = black_box((&given, &mut plane));
            plane.tiles[tile].opened = 0;
            _ = black_box(mizdrek::open_tile(plane, 0, site, given, &scratch, &output));
        },
    );
}

/// Closes the last tile again and again; the tile is put back each time.
fn closing(label: &str, mut plane: Plane, tile: usize) {
    let open = plane.tiles[tile];
    alone(&format!("closing, {label}"), || {
        let plane = black_box(&mut plane);
        plane.tiles[tile] = open;
        _ = black_box(mizdrek::close_tile(plane, 0, tile));
    });
}

/// Rows of a tile that is the other room's: number 14.
fn refused(label: &str, mut plane: Plane, tile: usize) {
    let (scratch, mut output) = (numbers(&plane.tiles[tile]), vec![0; PLANE * PLANE]);
    alone(&format!("refused by 14, {label}"), || {
        let (plane, output) = black_box((&mut plane, &mut output));
        _ = black_box(mizdrek::tile_rows(plane, (1, tile), &scratch, output, 0, 8));
    });
}
