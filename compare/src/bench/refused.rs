//! Calls that their last test refuses: what the tests of a call take, with the call itself.

use super::timing::alone;
use crate::mizdrek::{self, Ticket};
use crate::oracle::{ADST, DCT};
use std::hint::black_box;

/// A residual out of range.
const TOO_LARGE: i32 = 4096;

pub fn rows() {
    let mut given = [0; 64];
    let (mut scratch, mut output) = ([0; 64], [0; 64]);
    given[15] = TOO_LARGE;
    alone("block 4x4, last residual refused", || {
        let kinds = black_box([ADST, ADST]);
        _ = black_box(mizdrek::block((4, 4), kinds, black_box(&given), &mut scratch, &mut output));
    });
    alone("WHT 4x4, last residual refused", || {
        _ = black_box(mizdrek::fwht4x4(black_box(&given), black_box(&mut output)));
    });
    let mut ticket = Ticket { w: 8, h: 8, column_kind: DCT, row_kind: DCT, columns: 0, rows: 0 };
    alone("row batch 8x8 before columns", || {
        _ = black_box(mizdrek::row_batch(black_box(&mut ticket), &scratch, &mut output, 0, 8));
    });
}
