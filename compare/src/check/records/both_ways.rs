//! What is written is read as the same list, and what is read is written as the same bytes: each call on
//! what the other gave, without the rules.

use crate::check::Run;
use crate::difference::{Outcome, same};
use crate::mizdrek::{self, Refusal};
use crate::rules::records::List;

/// Writes a list that is accepted, and reads it back.
pub fn compare_list(run: &mut Run, list: &List) -> Outcome {
    run.case();
    let again = written(list).and_then(|file| found(&file));
    same("the list again", Ok(list.clone()), again)
        .map_err(|d| d.of("a list, written and read", &[("list", list)]))
}

/// Reads a file that is accepted, and writes it again.
pub fn compare_file(run: &mut Run, file: &[u8]) -> Outcome {
    run.case();
    let again = found(file).and_then(|list| written(&list));
    same("the file again", Ok(file.to_vec()), again)
        .map_err(|d| d.of("a file, read and written", &[("file", &file)]))
}

/// The bytes that the writer makes of a list.
pub fn written(list: &List) -> Result<Vec<u8>, Refusal> {
    let List { numbers, sides, levels } = list;
    // No block takes more than five bytes, and five for each level.
    let mut bytes = vec![0xa5; 5 * (numbers.len() + levels.len())];
    let length = mizdrek::write_records(numbers.len(), numbers, sides, levels, &mut bytes)?;
    bytes.truncate(length);
    Ok(bytes)
}

/// The list that the reader finds in a file.
pub fn found(file: &[u8]) -> Result<List, Refusal> {
    // No record takes fewer than seven bytes, and no byte has more than eight places.
    let most = file.len() / 7;
    let (mut numbers, mut sides, mut levels) = (vec![9; most], vec![9; 2 * most], vec![9; 8 * file.len()]);
    let count = mizdrek::read_records(file, &mut numbers, &mut sides, &mut levels)?;
    numbers.truncate(count);
    sides.truncate(2 * count);
    levels.truncate(sides.chunks(2).map(|side| side[0] * side[1]).sum());
    Ok(List { numbers, sides, levels })
}
