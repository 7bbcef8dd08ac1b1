//! A record by its parts, each of which can be damaged.

use crate::rules::records::{self as rules, Block};

#[derive(Clone)]
pub struct Record {
    pub number: u32,
    pub side: u8,
    pub map: Vec<u8>,
    /// Those whose bit stands.
    pub levels: Vec<i32>,
}

impl Record {
    pub fn of(block: &Block) -> Record {
        let bytes = rules::record(block);
        Record {
            number: block.number,
            side: bytes[4],
            map: bytes[5..][..block.levels.len() / 8].to_vec(),
            levels: block.levels.iter().copied().filter(|&level| level != 0).collect(),
        }
    }

    fn bytes(&self) -> Vec<u8> {
        let mut bytes = self.number.to_le_bytes().to_vec();
        bytes.push(self.side);
        bytes.extend(&self.map);
        bytes.extend(self.levels.iter().flat_map(|level| level.to_le_bytes()));
        bytes
    }
}

/// The bytes of these records, one after the other.
pub fn file(records: &[Record]) -> Vec<u8> {
    records.iter().flat_map(Record::bytes).collect()
}
