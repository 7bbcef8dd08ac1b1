//! Previews against the batches that they show, on the same lines: the last of the block.

use super::timing::row;
use crate::mizdrek::{self, Refusal, Ticket};
use crate::oracle::{ADST, DCT};
use crate::random::Random;
use crate::rules::batch::first_lines;
use crate::rules::transform::RESIDUAL_LIMIT;
use crate::samples::residuals;
use std::hint::black_box;

/// The blocks, with the kind of both directions.
const BLOCKS: [((usize, usize), u32); 9] = [
    ((4, 4), DCT),
    ((8, 8), DCT),
    ((16, 16), DCT),
    ((32, 32), DCT),
    ((8, 4), DCT),
    ((32, 4), DCT),
    ((4, 32), DCT),
    ((4, 4), ADST),
    ((16, 16), ADST),
];

type Batch = fn(&mut Ticket, &[i32], &mut [i32], usize, usize) -> Result<usize, Refusal>;
type Preview = fn(&Ticket, &[i32], &[i32], &mut [i32], usize, usize) -> Result<usize, Refusal>;

/// The calls of one direction: they are lent what they work from and what the batch writes.
struct Direction {
    name: &'static str,
    batch: Batch,
    preview: Preview,
}

const COLUMNS: Direction =
    Direction { name: "columns", batch: mizdrek::column_batch, preview: mizdrek::preview_columns };
const ROWS: Direction = Direction { name: "rows", batch: mizdrek::row_batch, preview: mizdrek::preview_rows };

pub fn rows() {
    for ((w, h), kind) in BLOCKS {
        let ticket = Ticket { w, h, column_kind: kind, row_kind: kind, columns: first_lines(w), rows: 0 };
        let kind = if kind == ADST { "ADST" } else { "DCT" };
        for (direction, lines) in [(COLUMNS, w), (ROWS, h)] {
            for count in [1, 4, 8].into_iter().filter(|&count| count <= lines) {
                let label = format!("{count} of {lines} {}, {w}x{h} {kind}", direction.name);
                last_lines(&label, &direction, ticket, lines, count);
            }
        }
    }
}

/// Times the last `count` of `lines` lines.
fn last_lines(label: &str, direction: &Direction, ticket: Ticket, lines: usize, count: usize) {
    let numbers = ticket.w * ticket.h;
    let given = residuals(&mut Random::new(5), numbers, RESIDUAL_LIMIT);
    let (mut marked, mut target) = (ticket, vec![0; numbers]);
    let (lent, mut preview) = (vec![0; numbers], vec![0; numbers / lines * count]);
    row(
        label,
        || {
            let (start, count) = black_box((lines - count, count));
            let (ticket, given, target) = black_box((&mut marked, &given, &mut target));
            _ = black_box((direction.batch)(ticket, given, target, start, count));
        },
        || {
            let (start, count) = black_box((lines - count, count));
            let (ticket, given, lent, preview) = black_box((&ticket, &given, &lent, &mut preview));
            _ = black_box((direction.preview)(ticket, given, lent, preview, start, count));
        },
    );
}
