//! The answers that were given, so that no history is compared in vain.

use super::tile_call::{Action, Answer, TileCall};
use crate::difference::{Outcome, same_list};
use crate::mizdrek::{Plane, Refusal};
use crate::rules::plane as rules;
use std::collections::BTreeSet;

/// What histories must come to: each function accepted (0), and refused by each number that it has.
const ANSWERS: [(&str, &[i64]); 4] = [
    ("mizdrek_open_tile", &[0, 1, 2, 3, 4, 13]),
    ("mizdrek_close_tile", &[0, 13, 14]),
    ("mizdrek_tile_columns", &[0, 3, 5, 13, 14]),
    ("mizdrek_tile_rows", &[0, 3, 5, 6, 13, 14]),
];

/// The refusal of a tile that only its number is wrong with.
const SEVENTEENTH: (&str, i64) = ("a seventeenth tile", 13);

#[derive(Default)]
pub struct Tally {
    seen: BTreeSet<(&'static str, i64)>,
}

impl Tally {
    /// Notes the answer to a call on this record.
    pub fn note(&mut self, plane: &Plane, call: &TileCall, answer: Answer) {
        let number = answer.map_or_else(Refusal::number, |_| 0);
        self.seen.insert((call.name(), number));
        if let (Action::Open(site, _), 13) = (&call.action, number)
            && plane.tiles.iter().all(rules::is_open)
            && rules::has_place(plane, &rules::new_tile(call.room, site))
        {
            self.seen.insert(SEVENTEENTH);
        }
    }

    /// Whether all that must come up has.
    pub fn compare(&self) -> Outcome {
        let each = |&(name, numbers): &(_, &'static [i64])| numbers.iter().map(move |&number| (name, number));
        let answers = ANSWERS.iter().flat_map(each).chain([SEVENTEENTH]);
        let missing: Vec<_> = answers.filter(|answer| !self.seen.contains(answer)).collect();
        same_list("the answers that never came up", &[], &missing).map_err(|d| d.of("the histories", &[]))
    }
}
