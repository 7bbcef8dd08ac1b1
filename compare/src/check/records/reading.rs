//! What the reader refuses: two records damaged in all combinations, a cut behind them, and short buffers.

use super::any_blocks::{far_level, three_blocks};
use super::case::Case;
use super::record::{Record, file};
use crate::check::Run;
use crate::difference::Outcome;
use crate::random::Random;
use crate::rules::records::List;

/// The ways in which a record can be damaged.
const FAULTS: [fn(&mut Random, &mut [Record], usize); 4] = [
    |random, records, i| records[i].side |= 16 << random.below(4),
    |random, records, i| set_level(random, &mut records[i], 0),
    |random, records, i| {
        let level = far_level(random);
        set_level(random, &mut records[i], level);
    },
    bad_number,
];

/// How many files are damaged in all combinations.
const FILES: usize = 4;

pub fn compare(run: &mut Run) -> Outcome {
    for _ in 0..FILES {
        combinations(run)?;
    }
    Ok(())
}

/// Three records, of which two are damaged.
fn combinations(run: &mut Run) -> Outcome {
    let blocks = three_blocks(&mut run.random);
    let good: Vec<Record> = blocks.iter().map(Record::of).collect();
    let lengths = List::of(&blocks).lengths();
    for first in 0..1 << FAULTS.len() {
        for second in 0..1 << FAULTS.len() {
            let mut records = good.clone();
            let left_out = run.random.below(3);
            let [i, j] = [[1, 2], [0, 2], [0, 1]][left_out];
            damage(&mut run.random, &mut records, i, first);
            damage(&mut run.random, &mut records, j, second);
            cut_and_short(run, &file(&records), lengths)?;
        }
    }
    Ok(())
}

/// Damages a record in the ways whose bit is set.
fn damage(random: &mut Random, records: &mut [Record], i: usize, chosen: usize) {
    for (_, fault) in FAULTS.iter().enumerate().filter(|(way, _)| chosen >> way & 1 == 1) {
        fault(random, records, i);
    }
}

/// The whole file and parts of it, with buffers of these lengths and one less, in all combinations.
fn cut_and_short(run: &mut Run, file: &[u8], lengths: [usize; 3]) -> Outcome {
    let mut case = Case::read(&mut run.random, file, lengths);
    for end in [file.len(), file.len() - 1, run.random.below(file.len())] {
        for short in 0..8 {
            let [numbers, sides, levels] = std::array::from_fn(|i| lengths[i] - (short >> i & 1));
            case.lent = [end, numbers, sides, levels];
            _ = case.compare(run)?;
        }
    }
    Ok(())
}

fn set_level(random: &mut Random, record: &mut Record, number: i32) {
    if let Some(level) = random.pick_mut(&mut record.levels) {
        *level = number;
    }
}

/// A number that isn't above the one before; the first record has none before.
fn bad_number(random: &mut Random, records: &mut [Record], i: usize) {
    if i > 0 {
        records[i].number = records[i - 1].number.saturating_sub(random.pick(&[0, 1, 256]));
    }
}
