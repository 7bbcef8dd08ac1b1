//! One run over a group: its random numbers, its number of cases and its progress.

use crate::difference::Outcome;
use crate::random::Random;
use std::io::{IsTerminal, Write, stderr};

/// The progress line is written anew after so many cases.
const EVERY: u64 = 4096;

pub struct Run {
    name: &'static str,
    seed: u64,
    pub random: Random,
    /// How many random cases are asked for.
    pub count: u64,
    cases: u64,
    shown: bool,
}

impl Run {
    pub fn new(name: &'static str, seed: u64, count: u64) -> Run {
        Run { name, seed, random: Random::new(seed), count, cases: 0, shown: stderr().is_terminal() }
    }

    pub fn cases(&self) -> u64 {
        self.cases
    }

    /// Counts a case that begins.
    pub fn case(&mut self) {
        self.cases += 1;
        if self.shown && self.cases.is_multiple_of(EVERY) {
            eprint!("\r{:8} {:>10} cases", self.name, self.cases);
            let _ = stderr().flush();
        }
    }

    /// Says how the run ended. Gives back whether it ended without a difference.
    pub fn end(&self, outcome: Outcome) -> bool {
        if self.shown {
            eprint!("\r{:32}\r", "");
        }
        match &outcome {
            Ok(()) => println!("{:8} {:>10} cases, no difference", self.name, self.cases),
            Err(difference) => {
                println!("{:8} case {} of seed {}\n{difference}", self.name, self.cases, self.seed)
            }
        }
        outcome.is_ok()
    }
}
