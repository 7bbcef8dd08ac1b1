//! The numbers that the calls stand on.

use crate::oracle::{ADST, DCT};
use std::sync::OnceLock;

unsafe extern "C" {
    fn probe_dct32(table: *mut i8);
    fn probe_adst16(table: *mut i8);
    fn probe_adst8(table: *mut i8);
    fn probe_adst4(table: *mut i8);
    fn probe_shifts(w: usize, h: usize) -> u32;
}

/// What a table is of, and its numbers as Mizdrek has them.
struct Table {
    kind: u32,
    side: usize,
    numbers: Vec<i8>,
}

impl Table {
    fn new(kind: u32, side: usize, fill: unsafe extern "C" fn(*mut i8)) -> Self {
        let mut numbers = vec![0; side * side];
        // Each function writes side × side numbers.
        unsafe { fill(numbers.as_mut_ptr()) };
        Table { kind, side, numbers }
    }

    /// Frequency f, sample k. The DCT is row by row, and the ADST sample by sample.
    fn number(&self, f: usize, k: usize) -> i32 {
        let place = if self.kind == DCT { f * self.side + k } else { k * self.side + f };
        self.numbers[place] as i32
    }
}

fn tables() -> &'static [Table; 4] {
    static TABLES: OnceLock<[Table; 4]> = OnceLock::new();
    TABLES.get_or_init(|| {
        [
            Table::new(DCT, 32, probe_dct32),
            Table::new(ADST, 16, probe_adst16),
            Table::new(ADST, 8, probe_adst8),
            Table::new(ADST, 4, probe_adst4),
        ]
    })
}

/// The kernel number of frequency `f`, sample `k`: row f of a smaller DCT is row 32f / n of the largest, cut to n columns.
pub fn kernel(kind: u32, side: usize, f: usize, k: usize) -> i32 {
    let (side, row) = if kind == DCT { (32, 32 * f / side) } else { (side, f) };
    let table = tables().iter().find(|table| table.kind == kind && table.side == side);
    table.expect("a table of a kind and a side that there are").number(row, k)
}

/// The first shift times 16 plus the second; 0 for a size that there isn't.
pub fn shifts(w: usize, h: usize) -> u32 {
    // Numbers alone are passed.
    unsafe { probe_shifts(w, h) }
}
