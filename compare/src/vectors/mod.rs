//! Writes a fixed list, most of it the Rust's answers, for a program to replay where there is no Rust.
//!
//! One record to a line, decimal whole numbers with one space between them: the record's kind, the count
//! of the numbers that follow, then these. A list stands behind its length. A float is its 32 bits as
//! a number from 0 to 4294967295. An answer is a count, or minus the number of a refusal; the expected
//! lists stand only behind an answer that is no refusal, and each is as long as the answer says.
//!
//! | kind | arguments | expected |
//! |---|---|---|
//! | 1 kernel | kind, side | the numbers of each frequency in turn: side × side |
//! | 2 shifts | w, h | first, second |
//! | 3 dc_tx_scale | w, h | the answer |
//! | 4 pass | side, kind, shift, lines, src (list), the length of dst | answer, dst |
//! | 5 block | w, h, column kind, row kind, residuals (list), the lengths of scratch and output | answer, scratch, output |
//! | 6 fwht4x4 | residuals (list), the length of output | answer, output |
//! | 7 qstep | index | the step |
//! | 8 levels | width, step, factor, threshold, dead zone, coefficients (list), scan (list), the lengths of levels and magnitudes | answer, levels, magnitudes |
//! | 9 one place | step, factor, threshold, dead zone, coefficient | 1 kept or 0 dropped, level, magnitude |
//!
//! A refused record is one where the Rust panics: a size it doesn't know, a buffer or a scan that leads
//! it past an end. The refusal's number is document 01's. A pass of side 32 at shift 0, which the scalar Rust
//! doesn't have, is answered by the rule.

mod blocks;
mod levels;
mod passes;
mod record;
mod refused;
mod tables;

use crate::random::Random;
use record::Record;
use std::io::{BufWriter, Write, stdout};

/// Writes the list to standard output.
pub fn write(seed: u64) {
    let mut random = Random::new(seed);
    let mut records = tables::records();
    records.extend(passes::records(&mut random));
    records.extend(blocks::records(&mut random));
    records.extend(levels::records(&mut random));
    records.extend(refused::records(&mut random));
    records.extend(passes::unshifted(&mut random));
    let mut out = BufWriter::new(stdout().lock());
    for record in &records {
        writeln!(out, "{record}").expect("standard output takes the list");
    }
    out.flush().expect("standard output takes the list");
}
