//! Flat weights: the quantizer's matrices are left out of the comparison.

#[inline]
pub fn weights(_width: usize, _height: usize) -> Option<&'static [u8]> {
    None
}
