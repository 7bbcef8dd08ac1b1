//! Times both sides on the same inputs in one run and prints the ratios: ours/Rust, and preview/batch; of a
//! plane's calls, what they take more than those on a bare ticket; of records, also how many bytes a second.

mod batches;
mod blocks;
mod choice;
mod passes;
mod plain_records;
mod planes;
mod previews;
mod quant;
mod records;
mod refused;
mod timing;
mod wht;

/// A group of rows of the table.
pub struct Group {
    pub name: &'static str,
    /// What its two columns of times are of, and the columns after them.
    columns: &'static [&'static str],
    rows: fn(),
}

const RUST: &[&str] = &["Rust", "ours", "ratio"];
const BATCH: &[&str] = &["batch", "preview", "ratio"];
const BARE: &[&str] = &["bare", "tile", "more"];
const RATES: &[&str] = &["Rust", "ours", "ratio", "Rust GB/s", "ours GB/s"];

/// How wide each column is.
const WIDTHS: [usize; 5] = [10, 10, 6, 10, 10];

/// The groups that have something to time.
pub const GROUPS: &[Group] = &[
    Group { name: "passes", columns: RUST, rows: passes::rows },
    Group { name: "blocks", columns: RUST, rows: blocks::rows },
    Group { name: "tickets", columns: RUST, rows: batches::rows },
    Group { name: "wht", columns: RUST, rows: wht::rows },
    Group { name: "quant", columns: RUST, rows: quant::rows },
    Group { name: "choice", columns: RUST, rows: choice::rows },
    Group { name: "refused", columns: RUST, rows: refused::rows },
    Group { name: "previews", columns: BATCH, rows: previews::rows },
    Group { name: "planes", columns: BARE, rows: planes::rows },
    Group { name: "records", columns: RATES, rows: records::rows },
];

/// Times the named groups, or all.
pub fn bench(names: &[String]) {
    let mut shown = None;
    for group in GROUPS {
        if names.is_empty() || names.iter().any(|name| name == group.name) {
            if shown.replace(group.columns) != Some(group.columns) {
                head(group.columns);
            }
            (group.rows)();
        }
    }
}

/// The line above the table.
fn head(columns: &[&str]) {
    let names = columns.iter().zip(WIDTHS).map(|(name, width)| format!(" {name:>width$}"));
    println!("{:34}{}", "nanoseconds a call", names.collect::<String>());
}
