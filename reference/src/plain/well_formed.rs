//! Which transactions are well formed beside which sheets. Whether a state can be reached isn't asked.

use super::groups::groups;
use super::record::{columns_in_range, MOST_VERSION};
use super::steps::to_validate;
use super::store::Store;
use super::transaction::*;
use super::ILL_FORMED;

/// Refusal 3 unless the transaction is well formed.
pub fn require(transaction: &Transaction, store: &Store) -> Result<(), u32> {
    // The entries tell the places, so they are judged first.
    let good = numbers_fit(transaction, store)
        && entries_fit(transaction, store)
        && phase_fits(transaction)
        && place_fits(transaction, store);
    good.then_some(()).ok_or(ILL_FORMED)
}

fn numbers_fit(transaction: &Transaction, store: &Store) -> bool {
    (1..=store.coordinator.issued).contains(&transaction.number)
        && transaction.serializable <= 1
        && transaction.count as usize <= MOST_ENTRIES
}

fn entries_fit(transaction: &Transaction, store: &Store) -> bool {
    let entries = transaction.held();
    let distinct = |i: usize| transaction.place_of(&entries[i].key) == Some(i);
    entries.iter().all(|entry| entry_fits(entry, store)) && (0..entries.len()).all(distinct)
}

fn entry_fits(entry: &Entry, store: &Store) -> bool {
    let seen = &entry.seen;
    let absence_fits = match entry.absent {
        0 => seen.version >= 1,
        1 => seen.is_absence(),
        _ => false,
    };
    let put_fits = match entry.wrote {
        0 => true,
        1 => columns_in_range(entry.put()) && seen.version < MOST_VERSION,
        _ => false,
    };
    entry.key.in_range()
        && seen.in_range()
        && seen.tx_id <= store.coordinator.issued
        && absence_fits
        && put_fits
}

fn phase_fits(transaction: &Transaction) -> bool {
    let verdict = transaction.verdict;
    match transaction.phase {
        OPEN | PREPARE | CHECK | WITHDRAW => verdict == NO_VERDICT,
        DECIDE => verdict == NO_VERDICT && transaction.puts().next().is_some(),
        FINISH => verdict == COMMITTED,
        UNDO => verdict == ABORTED,
        DONE => verdict == COMMITTED || verdict == ABORTED,
        _ => false,
    }
}

fn place_fits(transaction: &Transaction, store: &Store) -> bool {
    let place = transaction.place as usize;
    match transaction.phase {
        PREPARE | FINISH | UNDO => place < groups(transaction, &store.coordinator.units).len(),
        CHECK => place < to_validate(transaction, &store.coordinator).len(),
        _ => place == 0,
    }
}
