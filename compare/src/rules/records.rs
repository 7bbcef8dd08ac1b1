//! Block records, from request A.1 of document 02: what the reader and the writer answer, and what they write
//! where they accept. The reader's number 3 comes after 10 to 12. The report is request A.13's.

use super::is_side;
use crate::mizdrek::Refusal::{self, BadRecord, BadSize, CutRecord, RecordOrder, ShortBuffer};

/// The furthest that a level may be from zero.
pub const LEVEL_LIMIT: i32 = 1 << 30;

/// One block of a list.
#[derive(Clone, Debug)]
pub struct Block {
    pub number: u32,
    pub size: (usize, usize),
    /// By place.
    pub levels: Vec<i32>,
}

/// A list as it is lent.
#[derive(Clone, Debug, Default, PartialEq)]
pub struct List {
    pub numbers: Vec<u32>,
    /// w, then h, for each block.
    pub sides: Vec<usize>,
    /// Block after block, without gaps.
    pub levels: Vec<i32>,
}

impl List {
    pub fn of(blocks: &[Block]) -> List {
        let levels: Vec<&[i32]> = blocks.iter().map(|block| &block.levels[..]).collect();
        List {
            numbers: blocks.iter().map(|block| block.number).collect(),
            sides: blocks.iter().flat_map(|block| [block.size.0, block.size.1]).collect(),
            levels: levels.concat(),
        }
    }

    pub fn lengths(&self) -> [usize; 3] {
        [self.numbers.len(), self.sides.len(), self.levels.len()]
    }
}

/// The reader.
pub fn read(
    bytes: &[u8],
    numbers: &mut [u32],
    sides: &mut [usize],
    levels: &mut [i32],
) -> Result<usize, Refusal> {
    let blocks = blocks(bytes)?;
    let list = List::of(&blocks);
    let lent = [numbers.len(), sides.len(), levels.len()];
    if list.lengths().iter().zip(lent).any(|(&needed, lent)| lent < needed) {
        return Err(ShortBuffer);
    }
    put(&list.numbers, numbers);
    put(&list.sides, sides);
    put(&list.levels, levels);
    Ok(blocks.len())
}

/// The writer.
pub fn write(
    count: usize,
    numbers: &[u32],
    sides: &[usize],
    levels: &[i32],
    bytes: &mut [u8],
) -> Result<usize, Refusal> {
    if sides.iter().take(count.saturating_mul(2)).any(|&side| !is_side(side)) {
        return Err(BadSize);
    }
    let blocks = lent_blocks(count, numbers, sides, levels).ok_or(ShortBuffer)?;
    let file = file(&blocks);
    if bytes.len() < file.len() {
        return Err(ShortBuffer);
    }
    if blocks.iter().flat_map(|block| &block.levels).any(|&level| !is_near(level)) {
        return Err(BadRecord);
    }
    if !blocks.is_sorted_by(|before, block| before.number < block.number) {
        return Err(RecordOrder);
    }
    put(&file, bytes);
    Ok(file.len())
}

/// The report: the totals over the list of blocks. 2^36 bytes or more, which are refused by 16, aren't made
/// here: tests/interface.c lends them.
pub fn report(bytes: &[u8], levels: &mut u64, magnitude: &mut u64) -> Result<usize, Refusal> {
    let blocks = blocks(bytes)?;
    let all = List::of(&blocks).levels;
    *levels = all.iter().filter(|&&level| level != 0).count() as u64;
    *magnitude = all.iter().map(|level| u64::from(level.unsigned_abs())).sum();
    Ok(blocks.len())
}

/// The first `count` blocks of a list, unless a buffer is too short for them.
fn lent_blocks(count: usize, numbers: &[u32], sides: &[usize], levels: &[i32]) -> Option<Vec<Block>> {
    let numbers = numbers.get(..count)?;
    let sides = sides.get(..count.checked_mul(2)?)?;
    let mut left = levels;
    let block = |(&number, side): (&u32, &[usize])| {
        let levels = left.split_off(..side[0] * side[1])?.to_vec();
        Some(Block { number, size: (side[0], side[1]), levels })
    };
    numbers.iter().zip(sides.chunks(2)).map(block).collect()
}

/// The bytes of these blocks.
pub fn file(blocks: &[Block]) -> Vec<u8> {
    blocks.iter().flat_map(record).collect()
}

/// The bytes of one block.
pub fn record(block: &Block) -> Vec<u8> {
    let (w, h) = block.size;
    let level_bits =
        |eight: &[i32]| eight.iter().rev().fold(0, |byte, &level| 2 * byte + u8::from(level != 0));
    let mut record = block.number.to_le_bytes().to_vec();
    record.push((w.ilog2() - 2 + 4 * (h.ilog2() - 2)) as u8);
    record.extend(block.levels.chunks(8).map(level_bits));
    record.extend(block.levels.iter().filter(|&&level| level != 0).flat_map(|level| level.to_le_bytes()));
    record
}

/// The blocks of these bytes. The first damaged record decides, then the lowest number within it.
pub fn blocks(mut bytes: &[u8]) -> Result<Vec<Block>, Refusal> {
    let mut blocks: Vec<Block> = Vec::new();
    while !bytes.is_empty() {
        let record = Record::first(&mut bytes).ok_or(CutRecord)?;
        if !record.is_sound() {
            return Err(BadRecord);
        }
        if blocks.last().is_some_and(|before| before.number >= record.number) {
            return Err(RecordOrder);
        }
        blocks.push(record.block());
    }
    Ok(blocks)
}

/// A record as it stands in the bytes.
struct Record {
    number: u32,
    side: u8,
    /// By place, where the place's bit stands.
    levels: Vec<Option<i32>>,
}

impl Record {
    /// Takes a record off the front of the bytes, unless they end inside it.
    fn first(bytes: &mut &[u8]) -> Option<Record> {
        let number = u32::from_le_bytes(bytes.split_off(..4)?.try_into().ok()?);
        let side = *bytes.split_off_first()?;
        let (w, h) = size(side);
        let map = bytes.split_off(..w * h / 8)?;
        let bits = map.iter().flat_map(|byte| (0..8).map(move |bit| byte >> bit & 1 == 1));
        let standing = bits.clone().filter(|&bit| bit).count();
        let (coded, _) = bytes.split_off(..4 * standing)?.as_chunks();
        let mut coded = coded.iter().map(|&bytes| i32::from_le_bytes(bytes));
        Some(Record { number, side, levels: bits.map(|bit| bit.then(|| coded.next())?).collect() })
    }

    fn is_sound(&self) -> bool {
        self.side < 16 && self.levels.iter().flatten().all(|&level| level != 0 && is_near(level))
    }

    fn block(self) -> Block {
        let levels = self.levels.into_iter().map(Option::unwrap_or_default);
        Block { number: self.number, size: size(self.side), levels: levels.collect() }
    }
}

/// w and h by the lower four bits of a side byte.
fn size(side: u8) -> (usize, usize) {
    (4 << (side % 4), 4 << (side / 4 % 4))
}

fn is_near(level: i32) -> bool {
    i64::from(level).abs() <= i64::from(LEVEL_LIMIT)
}

/// Puts these numbers at the front of a buffer.
fn put<T: Copy>(numbers: &[T], buffer: &mut [T]) {
    buffer[..numbers.len()].copy_from_slice(numbers);
}
