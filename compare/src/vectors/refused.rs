//! Calls at which the Rust panics.

use super::Record;
use super::levels::DOCUMENT_01;
use crate::av2::fdct;
use crate::oracle::{self, DCT, KERNELS};
use crate::random::Random;
use crate::rules::{levels, transform};
use crate::samples::residuals;
use std::panic::{AssertUnwindSafe, catch_unwind, set_hook, take_hook};

pub fn records(random: &mut Random) -> Vec<Record> {
    let usual = take_hook();
    set_hook(Box::new(|_| {}));
    let mut records = Vec::new();
    for size in [(0, 0), (4, 0), (5, 4), (4, 5), (2, 2), (12, 12), (33, 32), (128, 4)] {
        records.push(block(size, &residuals(random, 16, 9), 16));
    }
    for size in [(4, 4), (8, 4), (16, 16)] {
        let count = size.0 * size.1;
        records.push(block(size, &residuals(random, count - 1, 9), count));
        records.push(block(size, &residuals(random, count, 9), count - 1));
    }
    for (kind, side) in KERNELS {
        records.push(pass(side, kind, &residuals(random, side * 4 - 1, 9), side * 4));
        records.push(pass(side, kind, &residuals(random, side * 4, 9), side * 4 - 1));
    }
    for side in [0, 3, 5, 31, 128] {
        records.push(pass(side, DCT, &residuals(random, 16, 9), 16));
    }
    records.push(scan(4, &[1, 2, 3], &[0, 4]));
    records.push(scan(4, &[1; 16], &[0, 1, 16]));
    records.push(scan(8, &[], &[0]));
    set_hook(usual);
    records
}

/// Makes sure that the Rust panics.
fn panics(call: impl FnOnce()) {
    assert!(catch_unwind(AssertUnwindSafe(call)).is_err(), "the Rust takes this");
}

fn block((w, h): (usize, usize), residuals: &[i32], output: usize) -> Record {
    panics(|| _ = fdct::dct_block(residuals, w, h, &mut vec![0; output]));
    let refusal = transform::block((w, h), [DCT; 2], residuals, [w * h, output]).expect_err("refused");
    let record = Record::new(5).put([w as i64, h as i64, 0, 0]).list(residuals);
    record.put([(w * h) as i64, output as i64, -refusal.number()])
}

fn pass(side: usize, kind: u32, src: &[i32], dst: usize) -> Record {
    panics(|| fdct::pass(kind == oracle::ADST, side, 1, 4, src, &mut vec![0; dst]));
    let refusal = transform::pass(side, kind, 1, 4, [src.len(), dst]).expect_err("refused");
    Record::new(4).put([side as i64, kind.into(), 1, 4]).list(src).put([dst as i64, -refusal.number()])
}

fn scan(width: usize, coefficients: &[i32], scan: &[u16]) -> Record {
    let (step, settings) = (16, DOCUMENT_01);
    panics(|| _ = oracle::levels(width, step, settings, coefficients, scan));
    let lent = scan.len();
    let refusal = levels::scan(width, (step, settings), coefficients, scan, [lent; 2]).expect_err("refused");
    let record = Record::new(8).put([width as i64, step.into()]).settings(settings);
    record.list(coefficients).list(scan).put([lent as i64, lent as i64, -refusal.number()])
}
