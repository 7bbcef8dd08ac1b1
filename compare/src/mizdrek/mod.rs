//! Mizdrek's C interface as safe Rust: slices in, a count or a refusal out. A Rust encoder can take
//! this folder as it is.

mod answer;
mod block;
mod choice;
mod disk;
mod levels;
mod pass;
mod plane;
mod preview;
mod scale;
mod settings;
mod ticket;
mod wht;

pub use answer::{Refusal, read};
pub use block::block;
pub use choice::lighter;
pub use disk::{read_records, report, write_records};
pub use levels::{qstep, quantize_one, quantize_to_levels};
pub use pass::pass;
pub use plane::{Plane, Site, Tile, close_tile, make_plane, open_tile, tile_columns, tile_rows};
pub use preview::{preview_columns, preview_rows};
pub use scale::dc_tx_scale;
pub use settings::Settings;
pub use ticket::{Ticket, column_batch, open, row_batch};
pub use wht::fwht4x4;
