//! The comparison, a group of calls at a time.

mod block_case;
mod blocks;
mod call;
mod choice;
mod claim;
mod lanes;
mod made_up;
mod one_place;
mod openings;
mod passes;
mod planes;
mod quant;
mod quant_case;
mod records;
mod run;
mod scans;
mod tables;
mod tickets;
mod wht;

use crate::difference::Outcome;
pub use run::Run;

/// A group of calls that are compared together.
pub struct Group {
    pub name: &'static str,
    compare: fn(&mut Run) -> Outcome,
}

/// The groups.
pub const GROUPS: &[Group] = &[
    Group { name: "tables", compare: tables::compare },
    Group { name: "passes", compare: passes::compare },
    Group { name: "blocks", compare: blocks::compare },
    Group { name: "tickets", compare: tickets::compare },
    Group { name: "planes", compare: planes::compare },
    Group { name: "records", compare: records::compare },
    Group { name: "wht", compare: wht::compare },
    Group { name: "quant", compare: quant::compare },
    Group { name: "choice", compare: choice::compare },
];

/// Compares the named groups, or all, up to the first difference. Gives back whether there was none.
pub fn compare(names: &[String], seed: u64, count: u64) -> bool {
    let chosen = |group: &&Group| names.is_empty() || names.iter().any(|name| name == group.name);
    let same = GROUPS.iter().filter(chosen).all(|group| {
        let mut run = Run::new(group.name, seed, count);
        let outcome = (group.compare)(&mut run);
        run.end(outcome)
    });
    println!(
        "seed {seed}, count {count}. ADST8's 64 numbers are reconstructed, and the same on both sides: docs/DIFFERENCES.md"
    );
    same
}
