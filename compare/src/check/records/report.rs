//! The report of any bytes, good or bad.

use crate::difference::{Difference, same};
use crate::lent::Lent;
use crate::mizdrek::{self, Refusal};
use crate::random::Random;
use crate::rules::records as rules;
use std::hint::black_box;

/// The answer, and what the two numbers hold after the call.
pub type Report = (Result<usize, Refusal>, [u64; 2]);

/// Has the first `end` bytes reported, with anything in the two numbers before, and compares all that is
/// lent.
pub fn compare(random: &mut Random, bytes: &[u8], end: usize) -> Result<Report, Difference> {
    let before = [random.next(), random.next()];
    compare_call(bytes, end, before).map_err(|d| {
        d.of(
            "mizdrek_report",
            &[("lent of bytes", &end), ("bytes", &bytes), ("levels and magnitude before", &before)],
        )
    })
}

fn compare_call(bytes: &[u8], end: usize, before: [u64; 2]) -> Result<Report, Difference> {
    let [mut levels, mut magnitude] = before;
    let expected = rules::report(&bytes[..end], &mut levels, &mut magnitude);
    let our_bytes = Lent::new(bytes);
    let mut our_levels = Lent::new(&before[..1]);
    let mut our_magnitude = Lent::new(&before[1..]);
    let answer =
        mizdrek::report(&our_bytes.read()[..end], &mut our_levels.write()[0], &mut our_magnitude.write()[0]);
    // The compiler may take what is lent to be read to be as before: the comparison is to look again.
    black_box(&our_bytes);
    same("the answer", expected, answer)?;
    our_bytes.holds("bytes", bytes)?;
    our_levels.holds("levels", &[levels])?;
    our_magnitude.holds("magnitude", &[magnitude])?;
    Ok((answer, [levels, magnitude]))
}
