//! The paper read field by field, without regard to speed.

pub mod adding;
pub mod by_place;
pub mod calls;
pub mod close;
pub mod coordinator;
pub mod entry;
pub mod field;
pub mod groups;
pub mod key;
pub mod numbers;
pub mod rank;
pub mod record;
pub mod request;
pub mod spares;
pub mod steps;
pub mod store;
pub mod transaction;
pub mod two_sheets;
pub mod visitor;
pub mod well_formed;
pub mod words;
pub mod writes;
pub mod written;

use key::Key;
use rank::Rank;
use store::Store;

/// Whether bookkeeping stands on the record sheet or on one of its own.
#[derive(Clone, Copy, Debug, PartialEq, Eq)]
pub enum Layout {
    Joined,
    Two,
}

/// What every call answers where no refusal applies.
pub const ACCEPTED: u32 = 0;
/// The record sheet or records to be written break a rule, or a target has another length than needed.
pub const BAD_RECORDS: u32 = 1;
/// The coordinator sheet breaks a rule, or a record names an unissued TxID.
pub const BAD_COORDINATOR: u32 = 2;
/// The transaction is not well formed.
pub const ILL_FORMED: u32 = 3;
/// The call is not for this phase, or the own line is not as the phase wants it.
pub const WRONG_PHASE: u32 = 4;
/// A key field is out of range.
pub const KEY_OUT_OF_RANGE: u32 = 5;
/// No line has the key.
pub const NO_LINE: u32 = 6;
/// A put column is too large.
pub const COLUMN_TOO_LARGE: u32 = 7;
/// Every number of the coordinator sheet is issued.
pub const NUMBERS_SPENT: u32 = 8;
/// A new key, and 8 are held.
pub const TOO_MANY_KEYS: u32 = 9;
/// A put of a key that is not held.
pub const KEY_NOT_HELD: u32 = 10;
/// A put over the greatest version.
pub const VERSION_SPENT: u32 = 11;
/// The line's owner is undecided and has not expired.
pub const BUSY: u32 = 12;
/// The two sheets differ in number of lines or in a key, or a spare stands beside a record line.
pub const SHEETS_DIFFER: u32 = 13;
/// A key to be added has a line.
pub const KEY_HAS_LINE: u32 = 14;
/// No spare is left for a line to be added.
pub const NO_SPARE: u32 = 15;
/// A line to be removed isn't ABSENT of version 0.
pub const NOT_REMOVABLE: u32 = 16;

/// The version of the functions for C: 3.0.0.
pub fn version() -> u32 {
    30_000
}

/// 0 where both sheets are accepted, else the refusal.
pub fn check(records: &[u8], coordinator: &[u8]) -> u32 {
    match Store::read(records, coordinator) {
        Ok(_) => ACCEPTED,
        Err(refusal) => refusal,
    }
}

/// Where the key stands in the sheet, or refusal 1 or 5.
pub fn rank(records: &[u8], key: [u32; 5]) -> Result<Rank, u32> {
    let records = record::read_sheet(records).ok_or(BAD_RECORDS)?;
    Rank::among(&records, &Key::from_numbers(key))
}

/// The key's line as a part of the sheet, LF counted; an empty part where the rank is refused or the key has no line.
pub fn line_of(records: &[u8], key: [u32; 5]) -> &[u8] {
    match rank(records, key).and_then(|rank| rank.place()) {
        Ok(place) => &records[place * record::LINE..][..record::LINE],
        Err(_) => &[],
    }
}

/// The refusal unless what was asked for holds.
fn require(holds: bool, refusal: u32) -> Result<(), u32> {
    holds.then_some(()).ok_or(refusal)
}
