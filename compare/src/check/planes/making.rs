//! Making planes: sides within 4 to 256 and outside.

use super::buffers::Record;
use crate::check::Run;
use crate::difference::{Outcome, same};
use crate::mizdrek::{self, Plane, Ticket, Tile};
use crate::rules::plane as rules;

/// What the caller's record holds before: nothing that a plane as made holds.
const BEFORE: Plane = Plane {
    w: 77,
    h: usize::MAX,
    tiles: [Tile {
        opened: 5,
        room: 9,
        x: usize::MAX,
        y: 3,
        ticket: Ticket { w: 7, h: 1, column_kind: 9, row_kind: 8, columns: 0x5a5a_5a5a, rows: 0xa5a5_a5a5 },
    }; 16],
};

/// Sides that no plane has, with their neighbours that one has.
const SIDES: [usize; 14] =
    [0, 1, 3, 4, 5, 64, 255, 256, 257, 260, 1 << 32, (1 << 32) + 64, 1 << 63, usize::MAX];

pub fn compare(run: &mut Run) -> Outcome {
    for w in SIDES {
        for h in SIDES {
            compare_case(run, w, h)?;
        }
    }
    for _ in 0..run.count / 16 {
        let (w, h) = (run.random.below(300), run.random.below(300));
        compare_case(run, w, h)?;
    }
    Ok(())
}

fn compare_case(run: &mut Run, w: usize, h: usize) -> Outcome {
    run.case();
    compare_call(w, h).map_err(|d| d.of("mizdrek_make_plane", &[("w", &w), ("h", &h)]))
}

fn compare_call(w: usize, h: usize) -> Outcome {
    let mut record = Record { ours: BEFORE, rules: BEFORE };
    let expected = rules::make(&mut record.rules, w, h);
    same("the answer", expected, mizdrek::make_plane(w, h, &mut record.ours))?;
    same("the plane", record.rules, record.ours)
}
