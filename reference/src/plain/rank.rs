//! Where a key stands among the record lines of a sheet, or would stand: what the look-up's companion answers. Every call
//! that names a key finds its line, or refusal 6, by this answer.

use super::key::Key;
use super::record::Record;
use super::{require, BAD_RECORDS, KEY_OUT_OF_RANGE, NO_LINE};

#[derive(Clone, Copy, Debug, PartialEq, Eq)]
pub struct Rank {
    /// How many record lines have smaller keys.
    pub below: usize,
    /// Whether the key has a line itself.
    pub present: bool,
}

impl Rank {
    /// The rank among these records, or refusal 5.
    pub fn among(records: &[Record], key: &Key) -> Result<Rank, u32> {
        require(key.in_range(), KEY_OUT_OF_RANGE)?;
        let smaller = records.iter().filter(|r| r.key < *key);
        Ok(Rank {
            below: smaller.count(),
            present: records.iter().any(|r| r.key == *key),
        })
    }

    /// The place of the key's line, from 0, or refusal 6.
    pub fn place(&self) -> Result<usize, u32> {
        require(self.present, NO_LINE)?;
        Ok(self.below)
    }

    /// As it is told outside: 1 for a key that has a line, else 0.
    pub fn numbers(&self) -> [u32; 2] {
        [self.below as u32, u32::from(self.present)]
    }
}

/// Tells the answer in a target of two numbers. A refusal leaves the target as it was, and its length goes first.
pub fn tell(answer: Result<Rank, u32>, target: &mut [u32]) -> Result<(), u32> {
    require(target.len() == 2, BAD_RECORDS)?;
    let rank = answer?;
    target.copy_from_slice(&rank.numbers());
    Ok(())
}
