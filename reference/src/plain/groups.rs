//! The groups of a transaction: puts that one atomic write can make.

use super::coordinator::Unit;
use super::key::Key;
use super::transaction::{Entry, Transaction};

/// How many key fields agree within a unit: all those above the unit's own, and that.
fn fields(unit: Unit) -> usize {
    match unit {
        Unit::Record => 5,
        Unit::Partition => 4,
        Unit::Table => 3,
        Unit::Namespace => 2,
        Unit::Storage => 1,
    }
}

/// Whether two keys are of one unit. The storage is compared first, so either's letter will do.
pub fn share_unit(units: &[Unit; 9], one: &Key, other: &Key) -> bool {
    let fields = fields(units[one.storage as usize - 1]);
    one.numbers()[..fields] == other.numbers()[..fields]
}

/// The entries with a put, group by group in rising key order. Keys of one unit are neighbours in that order.
pub fn groups(transaction: &Transaction, units: &[Unit; 9]) -> Vec<Vec<Entry>> {
    let mut puts: Vec<Entry> = transaction.puts().copied().collect();
    puts.sort_by_key(|entry| entry.key);
    puts.chunk_by(|one, other| share_unit(units, &one.key, &other.key))
        .map(<[Entry]>::to_vec)
        .collect()
}
