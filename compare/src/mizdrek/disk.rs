//! Block records on disk.

use super::answer::{Refusal, read};

unsafe extern "C" {
    fn mizdrek_read_records(
        bytes: *const u8,
        bytes_len: usize,
        numbers: *mut u32,
        numbers_len: usize,
        sides: *mut usize,
        sides_len: usize,
        levels: *mut i32,
        levels_len: usize,
    ) -> i64;
    fn mizdrek_write_records(
        count: usize,
        numbers: *const u32,
        numbers_len: usize,
        sides: *const usize,
        sides_len: usize,
        levels: *const i32,
        levels_len: usize,
        bytes: *mut u8,
        bytes_len: usize,
    ) -> i64;
    fn mizdrek_report(bytes: *const u8, bytes_len: usize, levels: *mut u64, magnitude: *mut u64) -> i64;
}

/// Reads all records of `bytes`. Writes each block's number, its sides, w before h, and its `w * h` levels,
/// block after block. Answers the number of blocks.
pub fn read_records(
    bytes: &[u8],
    numbers: &mut [u32],
    sides: &mut [usize],
    levels: &mut [i32],
) -> Result<usize, Refusal> {
    // Each pointer goes with its own slice's length.
    read(unsafe {
        mizdrek_read_records(
            bytes.as_ptr(),
            bytes.len(),
            numbers.as_mut_ptr(),
            numbers.len(),
            sides.as_mut_ptr(),
            sides.len(),
            levels.as_mut_ptr(),
            levels.len(),
        )
    })
}

/// Writes the first `count` blocks of a list, laid out as `read_records` leaves it, as records. Answers the
/// number of bytes.
pub fn write_records(
    count: usize,
    numbers: &[u32],
    sides: &[usize],
    levels: &[i32],
    bytes: &mut [u8],
) -> Result<usize, Refusal> {
    // Each pointer goes with its own slice's length.
    read(unsafe {
        mizdrek_write_records(
            count,
            numbers.as_ptr(),
            numbers.len(),
            sides.as_ptr(),
            sides.len(),
            levels.as_ptr(),
            levels.len(),
            bytes.as_mut_ptr(),
            bytes.len(),
        )
    })
}

/// Adds up all records of `bytes`: writes how many levels aren't zero, and the sum of their magnitudes.
/// Answers the number of blocks.
pub fn report(bytes: &[u8], levels: &mut u64, magnitude: &mut u64) -> Result<usize, Refusal> {
    // The bytes go with their length, and the two results are lent as places of their own.
    read(unsafe { mizdrek_report(bytes.as_ptr(), bytes.len(), levels, magnitude) })
}
