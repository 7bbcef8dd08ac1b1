//! Reports that are known without the rules: document 02's, the largest levels, levels that cancel each
//! other, blocks without levels, many blocks, and many of which the last is damaged.

use super::any_blocks::any_level;
use super::record::{Record, file};
use super::{EXAMPLE, report};
use crate::check::Run;
use crate::difference::{Outcome, same};
use crate::mizdrek::Refusal::{self, BadRecord, CutRecord, RecordOrder};
use crate::oracle::SIDES;
use crate::rules::records::{self as rules, Block, LEVEL_LIMIT};

/// How many blocks a long file has: more than 16 bits count.
const MANY: u32 = 70_000;

/// Does some damage to a record of one level.
type Damage = fn(&mut Record);

/// Damages, and why each is refused.
const DAMAGES: [(Damage, Refusal); 5] = [
    (|record| record.levels.clear(), CutRecord),
    (|record| record.side |= 16, BadRecord),
    (|record| record.levels[0] = 0, BadRecord),
    (|record| record.levels[0] = LEVEL_LIMIT + 1, BadRecord),
    (|record| record.number -= 1, RecordOrder),
];

pub fn compare(run: &mut Run) -> Outcome {
    totals(run, "no bytes", &[], [0, 0, 0])?;
    totals(run, "the example", &EXAMPLE, [1, 2, 4])?;
    largest(run)?;
    each_size(run)?;
    many(run)
}

/// Up to 70 blocks with 1,024 levels that are 2^30 from zero.
fn largest(run: &mut Run) -> Outcome {
    for signs in [[1, 1], [-1, -1], [1, -1]] {
        for count in [1, 2, 3, 70] {
            let levels: Vec<i32> = (0..1024).map(|place| signs[place % 2] * LEVEL_LIMIT).collect();
            let block = |number| Block { number, size: (32, 32), levels: levels.clone() };
            let blocks: Vec<Block> = (0..count).map(block).collect();
            let count = u64::from(count);
            totals(run, "the largest levels", &rules::file(&blocks), [count, 1024 * count, count << 40])?;
        }
    }
    Ok(())
}

/// A block of each size with levels whose sum is 0, and blocks without a level.
fn each_size(run: &mut Run) -> Outcome {
    let mut empty = Vec::new();
    for (number, size) in (0..).zip(SIDES.iter().flat_map(|&w| SIDES.map(|h| (w, h)))) {
        let places = size.0 * size.1;
        let level = any_level(&mut run.random);
        let levels = [level, -level].repeat(places / 2);
        let magnitude = places as u64 * u64::from(level.unsigned_abs());
        let bytes = rules::record(&Block { number, size, levels });
        totals(run, "levels that cancel each other", &bytes, [1, places as u64, magnitude])?;
        empty.push(Block { number, size, levels: vec![0; places] });
        totals(run, "no levels", &rules::file(&empty), [empty.len() as u64, 0, 0])?;
    }
    Ok(())
}

/// Blocks with the levels 1, -2, 3, -4, .., and the same with the last one damaged.
fn many(run: &mut Run) -> Outcome {
    let record = |number: u32| {
        let mut levels = vec![0; 16];
        levels[number as usize % 16] = (number as i32 + 1) * if number.is_multiple_of(2) { 1 } else { -1 };
        Record::of(&Block { number, size: (4, 4), levels })
    };
    let good = file(&(0..MANY - 1).map(record).collect::<Vec<Record>>());
    let last = record(MANY - 1);
    let with = |last: Record| [&good[..], &file(&[last])].concat();
    let count = u64::from(MANY);
    totals(run, "many blocks", &with(last.clone()), [count, count, count * (count + 1) / 2])?;
    for (damage, why) in DAMAGES {
        let mut last = last.clone();
        damage(&mut last);
        refused(run, "many blocks, the last damaged", &with(last), why)?;
    }
    Ok(())
}

/// A file with so many blocks and levels, and this sum of magnitudes.
fn totals(run: &mut Run, what: &str, bytes: &[u8], [blocks, levels, magnitude]: [u64; 3]) -> Outcome {
    run.case();
    report::compare(&mut run.random, bytes, bytes.len())
        .and_then(|report| same("the report", (Ok(blocks as usize), [levels, magnitude]), report))
        .map_err(|d| d.of("mizdrek_report", &[("file", &what)]))
}

/// A file that is refused for this reason.
fn refused(run: &mut Run, what: &str, bytes: &[u8], why: Refusal) -> Outcome {
    run.case();
    report::compare(&mut run.random, bytes, bytes.len())
        .and_then(|(answer, _)| same("the answer", Err(why), answer))
        .map_err(|d| d.of("mizdrek_report", &[("file", &what)]))
}
