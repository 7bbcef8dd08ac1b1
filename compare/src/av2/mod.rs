//! The Rust that is compared with, built as it is. Its files are included unchanged; the modules it
//! uses and that are left out of the comparison are supplied here.

#[allow(dead_code, unexpected_cfgs, unsafe_code, clippy::all)]
pub mod fdct;
pub mod itx;
pub mod qm;
#[allow(dead_code)]
pub mod quant;
#[allow(dead_code)]
pub mod wht;
