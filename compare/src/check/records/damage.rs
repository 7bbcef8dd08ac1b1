//! Damage to a file: to the parts of its records, to their order, and to its bytes.

use super::any_blocks::{any_level, any_number, far_level};
use super::record::{Record, file};
use crate::random::Random;
use crate::rules::records::Block;

/// The file of these blocks, damaged in any ways or in none.
pub fn damaged(random: &mut Random, blocks: &[Block]) -> Vec<u8> {
    let mut records: Vec<Record> = blocks.iter().map(Record::of).collect();
    for _ in 0..random.below(3) {
        one_part(random, &mut records);
    }
    if random.once_in(3) {
        order(random, &mut records);
    }
    let mut bytes = file(&records);
    for _ in 0..random.pick(&[0, 0, 1, 2]) {
        one_byte(random, &mut bytes);
    }
    bytes
}

/// Bytes that nobody wrote, mostly zeros or mostly others.
pub fn any_bytes(random: &mut Random) -> Vec<u8> {
    let one_in = random.pick(&[1, 2, 8, 32]);
    (0..random.below(100)).map(|_| if random.once_in(one_in) { random.next() as u8 } else { 0 }).collect()
}

fn one_part(random: &mut Random, records: &mut [Record]) {
    let Some(record) = random.pick_mut(records) else { return };
    match random.below(8) {
        0 => record.side |= 16 << random.below(4),
        1 => record.side = random.next() as u8,
        2 => record.number = any_number(random),
        3 => flip(random, &mut record.map),
        4 => _ = record.levels.pop(),
        5 => record.levels.push(any_level(random)),
        _ => {
            let other = [0, any_level(random), far_level(random)];
            if let Some(level) = random.pick_mut(&mut record.levels) {
                *level = random.pick(&other);
            }
        }
    }
}

/// Swaps two records, repeats one or leaves one out.
fn order(random: &mut Random, records: &mut Vec<Record>) {
    if records.is_empty() {
        return;
    }
    let (i, j) = (random.below(records.len()), random.below(records.len()));
    match random.below(3) {
        0 => records.swap(i, j),
        1 => records.insert(i, records[j].clone()),
        _ => _ = records.remove(i),
    }
}

fn one_byte(random: &mut Random, bytes: &mut Vec<u8>) {
    let place = random.below(bytes.len() + 1);
    match random.below(5) {
        0 => bytes.insert(place, random.next() as u8),
        1 => bytes.truncate(place),
        2 => _ = (place < bytes.len()).then(|| bytes.remove(place)),
        3 => flip(random, bytes),
        _ => {
            if let Some(byte) = random.pick_mut(bytes) {
                *byte = random.next() as u8;
            }
        }
    }
}

fn flip(random: &mut Random, bytes: &mut [u8]) {
    if let Some(byte) = random.pick_mut(bytes) {
        *byte ^= 1 << random.below(8);
    }
}
