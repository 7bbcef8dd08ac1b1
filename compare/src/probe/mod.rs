//! What the comparison needs of Mizdrek beside its C interface.

pub mod passes;
pub mod tables;
