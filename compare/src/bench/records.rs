//! Reading, writing and reporting the records of a picture of 512 by 512, cut into squares, against plain
//! Rust.

use super::plain_records as rust;
use super::timing::rates;
use crate::mizdrek;
use crate::oracle::SIDES;
use crate::random::Random;
use crate::rules::records::{self as rules, Block, List};
use std::hint::black_box;

/// The places of the picture.
const PLACES: usize = 512 * 512;

/// Whether a block's level at column x, row y isn't zero.
type Standing = fn(&mut Random, usize, usize) -> bool;

/// The rarer the higher the frequency, half the places, and all.
const STYLES: [(&str, Standing); 3] = [
    ("falling", |random, x, y| random.once_in(1 + x + y)),
    ("half", |random, _, _| random.once_in(2)),
    ("all", |_, _, _| true),
];

pub fn rows() {
    for side in SIDES {
        for (name, standing) in STYLES {
            let blocks = picture(&mut Random::new(5), side, standing);
            let (list, file) = (List::of(&blocks), rules::file(&blocks));
            let label = format!("{} of {side}x{side}, {name}", blocks.len());
            reading(&format!("read {label}"), &list, &file);
            writing(&format!("write {label}"), &list, &file);
            reporting(&format!("report {label}"), &file);
        }
    }
}

fn picture(random: &mut Random, side: usize, standing: Standing) -> Vec<Block> {
    let mut block = |number| {
        let mut level = |place: usize| {
            let number = random.within(1, 99) as i32 * random.pick(&[1, -1]);
            if standing(random, place % side, place / side) { number } else { 0 }
        };
        let levels = (0..side * side).map(&mut level).collect();
        Block { number, size: (side, side), levels }
    };
    (0..(PLACES / side / side) as u32).map(&mut block).collect()
}

fn reading(label: &str, list: &List, file: &[u8]) {
    let (mut theirs, mut ours) = (list.clone(), list.clone());
    rates(
        label,
        file.len(),
        || {
            let (file, List { numbers, sides, levels }) = black_box((file, &mut theirs));
            _ = black_box(rust::read(file, numbers, sides, levels));
        },
        || {
            let (file, List { numbers, sides, levels }) = black_box((file, &mut ours));
            _ = black_box(mizdrek::read_records(file, numbers, sides, levels));
        },
    );
}

fn writing(label: &str, list: &List, file: &[u8]) {
    let (mut theirs, mut ours) = (file.to_vec(), file.to_vec());
    rates(
        label,
        file.len(),
        || {
            let (List { numbers, sides, levels }, bytes) = black_box((list, &mut theirs));
            _ = black_box(rust::write(numbers.len(), numbers, sides, levels, bytes));
        },
        || {
            let (List { numbers, sides, levels }, bytes) = black_box((list, &mut ours));
            _ = black_box(mizdrek::write_records(numbers.len(), numbers, sides, levels, bytes));
        },
    );
}

fn reporting(label: &str, file: &[u8]) {
    let (mut levels, mut magnitude) = (0, 0);
    rates(
        label,
        file.len(),
        || _ = black_box(rust::report(black_box(file))),
        || _ = black_box(mizdrek::report(black_box(file), &mut levels, &mut magnitude)),
    );
}
