//! The reader, the writer and the report as plain Rust, to be timed against: written to be quick, with all
//! tests before the first number is written.

use crate::mizdrek::Refusal::{self, BadFile, BadRecord, BadSize, CutRecord, RecordOrder, ShortBuffer};

/// The furthest that a level may be from zero.
const LEVEL_LIMIT: u32 = 1 << 30;

/// From so many bytes on, a sum of magnitudes may pass 64 bits.
const TOO_LONG: usize = 1 << 36;

/// A record, looked at where it stands in the bytes.
struct Record<'a> {
    number: u32,
    side: u8,
    map: &'a [u8],
    levels: &'a [[u8; 4]],
}

impl<'a> Record<'a> {
    /// The record at the front of the bytes, and the bytes behind it.
    fn split(bytes: &'a [u8]) -> Result<(Record<'a>, &'a [u8]), Refusal> {
        let (number, rest) = bytes.split_first_chunk().ok_or(CutRecord)?;
        let (&side, rest) = rest.split_first().ok_or(CutRecord)?;
        let (w, h) = size(side);
        let (map, rest) = rest.split_at_checked(w * h / 8).ok_or(CutRecord)?;
        let standing: u32 = map.iter().map(|byte| byte.count_ones()).sum();
        let (levels, rest) = rest.split_at_checked(4 * standing as usize).ok_or(CutRecord)?;
        Ok((Record { number: u32::from_le_bytes(*number), side, map, levels: levels.as_chunks().0 }, rest))
    }

    /// Tests all levels without an early end, which lets the compiler test some at a time.
    fn is_sound(&self) -> bool {
        let levels = self.levels.iter().map(|&level| i32::from_le_bytes(level));
        self.side < 16 && levels.fold(true, |sound, level| sound & (level != 0) & is_near(level))
    }

    /// The sum of the levels' magnitudes, in the same pass as the tests of `is_sound`. Eight sums let the
    /// compiler work on some levels at a time.
    fn magnitude(&self) -> Option<u64> {
        let (mut sums, mut reach) = ([0; 8], 0);
        let mut add = |levels: &[[u8; 4]]| {
            for (sum, &level) in sums.iter_mut().zip(levels) {
                let magnitude = i32::from_le_bytes(level).unsigned_abs();
                // Has a bit from 30 on where the magnitude is 0 or above the limit, a power of two.
                reach |= magnitude.wrapping_sub(1);
                *sum += u64::from(magnitude);
            }
        };
        let (eights, rest) = self.levels.as_chunks::<8>();
        eights.iter().for_each(|eight| add(eight));
        add(rest);
        (self.side < 16 && reach < LEVEL_LIMIT).then(|| sums.iter().sum())
    }

    /// Writes all levels of the block: zeros, then those whose bit stands.
    fn unpack(&self, levels: &mut [i32]) {
        levels.fill(0);
        let mut coded = self.levels.iter();
        for (&byte, eight) in self.map.iter().zip(levels.as_chunks_mut::<8>().0) {
            let mut bits = byte;
            while bits != 0
                && let Some(&level) = coded.next()
            {
                eight[bits.trailing_zeros() as usize] = i32::from_le_bytes(level);
                bits &= bits - 1;
            }
        }
    }
}

pub fn read(
    bytes: &[u8],
    numbers: &mut [u32],
    sides: &mut [usize],
    mut levels: &mut [i32],
) -> Result<usize, Refusal> {
    let (blocks, places) = measure(bytes)?;
    if numbers.len() < blocks || sides.len() < 2 * blocks || levels.len() < places {
        return Err(ShortBuffer);
    }
    let mut rest = bytes;
    for (number, sides) in numbers[..blocks].iter_mut().zip(sides.chunks_exact_mut(2)) {
        let (record, behind) = Record::split(rest)?;
        let (w, h) = size(record.side);
        let (own, left) = levels.split_at_mut(w * h);
        *number = record.number;
        sides.copy_from_slice(&[w, h]);
        record.unpack(own);
        (rest, levels) = (behind, left);
    }
    Ok(blocks)
}

/// How many blocks the bytes have, and how many places, unless a record is damaged.
fn measure(bytes: &[u8]) -> Result<(usize, usize), Refusal> {
    let (mut blocks, mut places) = (0, 0);
    let (mut rest, mut before) = (bytes, None);
    while !rest.is_empty() {
        let (record, behind) = Record::split(rest)?;
        if !record.is_sound() {
            return Err(BadRecord);
        }
        if before.is_some_and(|before| record.number <= before) {
            return Err(RecordOrder);
        }
        let (w, h) = size(record.side);
        blocks += 1;
        places += w * h;
        (rest, before) = (behind, Some(record.number));
    }
    Ok((blocks, places))
}

/// How many blocks the bytes have, how many levels, and the sum of their magnitudes, unless a record is
/// damaged.
pub fn report(bytes: &[u8]) -> Result<(usize, u64, u64), Refusal> {
    if bytes.len() >= TOO_LONG {
        return Err(BadFile);
    }
    let (mut blocks, mut levels, mut magnitude) = (0, 0, 0);
    let (mut rest, mut before) = (bytes, None);
    while !rest.is_empty() {
        let (record, behind) = Record::split(rest)?;
        let sum = record.magnitude().ok_or(BadRecord)?;
        if before.is_some_and(|before| record.number <= before) {
            return Err(RecordOrder);
        }
        blocks += 1;
        levels += record.levels.len() as u64;
        magnitude += sum;
        (rest, before) = (behind, Some(record.number));
    }
    Ok((blocks, levels, magnitude))
}

pub fn write(
    count: usize,
    numbers: &[u32],
    sides: &[usize],
    levels: &[i32],
    bytes: &mut [u8],
) -> Result<usize, Refusal> {
    let twice = count.saturating_mul(2);
    if !sides.iter().take(twice).all(|side| matches!(side, 4 | 8 | 16 | 32)) {
        return Err(BadSize);
    }
    let numbers = numbers.get(..count).ok_or(ShortBuffer)?;
    let (sides, _) = sides.get(..twice).ok_or(ShortBuffer)?.as_chunks();
    let places = sides.iter().map(|[w, h]| w * h).sum();
    let levels = levels.get(..places).ok_or(ShortBuffer)?;
    let standing = levels.iter().filter(|&&level| level != 0).count();
    let total = 5 * count + places / 8 + 4 * standing;
    let bytes = bytes.get_mut(..total).ok_or(ShortBuffer)?;
    if !levels.iter().fold(true, |near, &level| near & is_near(level)) {
        return Err(BadRecord);
    }
    if !numbers.is_sorted_by(|before, number| before < number) {
        return Err(RecordOrder);
    }
    pack(numbers, sides, levels, bytes);
    Ok(total)
}

/// Writes a list into just as many bytes as it takes.
fn pack(numbers: &[u32], sides: &[[usize; 2]], mut levels: &[i32], mut bytes: &mut [u8]) {
    for (number, &[w, h]) in numbers.iter().zip(sides) {
        let (own, left) = levels.split_at(w * h);
        let (head, rest) = bytes.split_at_mut(5);
        head[..4].copy_from_slice(&number.to_le_bytes());
        head[4] = ((w.trailing_zeros() - 2) | (h.trailing_zeros() - 2) << 2) as u8;
        let (map, rest) = rest.split_at_mut(w * h / 8);
        (levels, bytes) = (left, pack_levels(own, map, rest));
    }
}

/// Writes a block's map, and its levels to the front of the rest. Gives back what is left of that.
fn pack_levels<'a>(levels: &[i32], map: &mut [u8], mut rest: &'a mut [u8]) -> &'a mut [u8] {
    for (byte, eight) in map.iter_mut().zip(levels.as_chunks::<8>().0) {
        let mut bits = 0;
        for (bit, &level) in eight.iter().enumerate() {
            if level != 0 {
                bits |= 1 << bit;
                let (place, behind) = rest.split_at_mut(4);
                place.copy_from_slice(&level.to_le_bytes());
                rest = behind;
            }
        }
        *byte = bits;
    }
    rest
}

/// w and h by the lower four bits of a side byte.
fn size(side: u8) -> (usize, usize) {
    (4 << (side & 3), 4 << (side >> 2 & 3))
}

fn is_near(level: i32) -> bool {
    level.unsigned_abs() <= LEVEL_LIMIT
}
