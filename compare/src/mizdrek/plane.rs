//! Two rooms on one frame plane: up to sixteen tiles that share one output, each a block in batches.

use super::answer::{Refusal, read};
use super::ticket::Ticket;

/// One number of a plane. It is open where `opened` isn't 0; a closed one may hold anything.
#[repr(C)]
#[derive(Clone, Copy, Debug, Default, PartialEq, Eq)]
pub struct Tile {
    pub opened: u32,
    pub room: u32,
    pub x: usize,
    pub y: usize,
    pub ticket: Ticket,
}

/// The record that both rooms lend in turn: the plane's sides, and its tiles by their numbers.
#[repr(C)]
#[derive(Clone, Copy, Debug, Default, PartialEq, Eq)]
pub struct Plane {
    pub w: usize,
    pub h: usize,
    pub tiles: [Tile; 16],
}

/// Where a room wants a tile, and the sides and kinds of its block.
#[derive(Clone, Copy, Debug)]
pub struct Site {
    pub x: usize,
    pub y: usize,
    pub w: usize,
    pub h: usize,
    pub column_kind: u32,
    pub row_kind: u32,
}

unsafe extern "C" {
    fn mizdrek_make_plane(w: usize, h: usize, plane: *mut Plane) -> i64;
    fn mizdrek_open_tile(
        plane: *mut Plane,
        room: u32,
        x: usize,
        y: usize,
        w: usize,
        h: usize,
        column_kind: u32,
        row_kind: u32,
        residuals: *const i32,
        residuals_len: usize,
        scratch: *const i32,
        scratch_len: usize,
        output: *const i32,
        output_len: usize,
    ) -> i64;
    fn mizdrek_close_tile(plane: *mut Plane, room: u32, tile: usize) -> i64;
    fn mizdrek_tile_columns(
        plane: *mut Plane,
        room: u32,
        tile: usize,
        residuals: *const i32,
        residuals_len: usize,
        scratch: *mut i32,
        scratch_len: usize,
        start: usize,
        count: usize,
    ) -> i64;
    fn mizdrek_tile_rows(
        plane: *mut Plane,
        room: u32,
        tile: usize,
        scratch: *const i32,
        scratch_len: usize,
        output: *mut i32,
        output_len: usize,
        start: usize,
        count: usize,
    ) -> i64;
}

/// Makes a plane with no tile open.
pub fn make_plane(w: usize, h: usize, plane: &mut Plane) -> Result<usize, Refusal> {
    // The record is one struct of C's layout.
    read(unsafe { mizdrek_make_plane(w, h, plane) })
}

/// Opens a tile with no line done. Answers its number and writes no buffer.
pub fn open_tile(
    plane: &mut Plane,
    room: u32,
    site: Site,
    residuals: &[i32],
    scratch: &[i32],
    output: &[i32],
) -> Result<usize, Refusal> {
    // Each pointer goes with its own slice's length; the record is one struct of C's layout.
    read(unsafe {
        mizdrek_open_tile(
            plane,
            room,
            site.x,
            site.y,
            site.w,
            site.h,
            site.column_kind,
            site.row_kind,
            residuals.as_ptr(),
            residuals.len(),
            scratch.as_ptr(),
            scratch.len(),
            output.as_ptr(),
            output.len(),
        )
    })
}

/// Closes a tile of the room. Answers its number.
pub fn close_tile(plane: &mut Plane, room: u32, tile: usize) -> Result<usize, Refusal> {
    // The record is one struct of C's layout.
    read(unsafe { mizdrek_close_tile(plane, room, tile) })
}

/// Works out `count` columns of a tile from `start` into its scratch and marks them. Answers the number of
/// lines.
pub fn tile_columns(
    plane: &mut Plane,
    (room, tile): (u32, usize),
    residuals: &[i32],
    scratch: &mut [i32],
    start: usize,
    count: usize,
) -> Result<usize, Refusal> {
    let (given, given_len) = (residuals.as_ptr(), residuals.len());
    let (into, length) = (scratch.as_mut_ptr(), scratch.len());
    // Each pointer goes with its own slice's length; the record is one struct of C's layout.
    read(unsafe { mizdrek_tile_columns(plane, room, tile, given, given_len, into, length, start, count) })
}

/// Works out `count` rows of a tile from `start` into its places in output and marks them. Answers the
/// number of lines.
pub fn tile_rows(
    plane: &mut Plane,
    (room, tile): (u32, usize),
    scratch: &[i32],
    output: &mut [i32],
    start: usize,
    count: usize,
) -> Result<usize, Refusal> {
    let (given, given_len) = (scratch.as_ptr(), scratch.len());
    let (into, length) = (output.as_mut_ptr(), output.len());
    // Each pointer goes with its own slice's length; the record is one struct of C's layout.
    read(unsafe { mizdrek_tile_rows(plane, room, tile, given, given_len, into, length, start, count) })
}
