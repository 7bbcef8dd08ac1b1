//! Kernels, shifts, scales and steps.

use super::Record;
use crate::av2::{fdct, quant};
use crate::oracle::{self, KERNELS, SIDES};

pub fn records() -> Vec<Record> {
    let mut records: Vec<Record> = KERNELS.iter().map(|&(kind, side)| kernel(kind, side)).collect();
    for w in SIDES {
        for h in SIDES {
            let (first, second) = fdct::fwd_shifts(w, h);
            records.push(Record::new(2).put([w as i64, h as i64, first.into(), second.into()]));
            records.push(Record::new(3).put([w as i64, h as i64, fdct::dc_tx_scale(w, h).into()]));
        }
    }
    let indexes = (0..=300).chain([1000, 65_536, u32::MAX]);
    records.extend(indexes.map(|index| Record::new(7).put([index.into(), quant::qstep(index).into()])));
    records
}

fn kernel(kind: u32, side: usize) -> Record {
    let numbers: Vec<i32> =
        (0..side * side).map(|i| oracle::kernel(kind, side, i / side, i % side)).collect();
    Record::new(1).put([kind.into(), side as i64]).all(&numbers)
}
