//! The step table: what an advance does in each of the eight phases.

use super::coordinator::{Coordinator, Decision};
use super::groups::groups;
use super::record::{Record, State};
use super::store::Store;
use super::transaction::*;
use super::WRONG_PHASE;

/// One step of a well-formed transaction, or refusal 4.
pub fn advance(store: &mut Store, t: Transaction, now: u32) -> Result<Transaction, u32> {
    match t.phase {
        OPEN => Ok(leave_open(store, t)),
        PREPARE => Ok(prepare(store, t, now)),
        CHECK => Ok(check(store, t)),
        DECIDE => decide(store, t),
        WITHDRAW => withdraw(store, t),
        FINISH => roll(store, t, Decision::Committed, Record::forward),
        UNDO => roll(store, t, Decision::Aborted, Record::back),
        _ => Err(WRONG_PHASE),
    }
}

/// The entries that check goes over, in the order read: those without put that are checked, or whose columns may not be those
/// of their version.
pub fn to_validate(t: &Transaction, coordinator: &Coordinator) -> Vec<Entry> {
    let unsure = |entry: &Entry| coordinator.is_small(entry.key.storage);
    let only_read = t.only_read().copied();
    only_read
        .filter(|entry| t.serializable == 1 || unsure(entry))
        .collect()
}

/// Whether the entry's line is there and still as it was read. Its columns tell more than its version where both were read
/// apart.
pub fn condition(store: &Store, entry: &Entry) -> bool {
    if !store.has_line(&entry.key) {
        return false;
    }
    let record = store.record(&entry.key);
    let read_apart = store.coordinator.is_small(entry.key.storage);
    record.state != State::Prepared
        && record.image.tx_id == entry.seen.tx_id
        && record.image.version == entry.seen.version
        && (!read_apart || record.image.columns() == entry.seen.columns())
}

/// Whether the transaction may leave out the decision: it isn't checked, and no key that it holds was read in two calls.
fn may_use_one_phase(t: &Transaction, coordinator: &Coordinator) -> bool {
    let mut held = t.held().iter();
    t.serializable == 0 && !held.any(|entry| coordinator.is_small(entry.key.storage))
}

/// Replaces all lines of a group if all its conditions hold, else none; answers which.
fn write_group(
    store: &mut Store,
    group: &[Entry],
    write: impl Fn(Record, [u32; 2]) -> Record,
) -> bool {
    let hold = group.iter().all(|entry| condition(store, entry));
    if hold {
        for entry in group {
            let record = write(*store.record(&entry.key), entry.put());
            store.replace(record);
        }
    }
    hold
}

fn leave_open(store: &mut Store, t: Transaction) -> Transaction {
    let to_check = !to_validate(&t, &store.coordinator).is_empty();
    match groups(&t, &store.coordinator.units).as_slice() {
        [] if to_check => t.entering(CHECK),
        [] => t.entering(DONE).with_verdict(COMMITTED),
        [group] if may_use_one_phase(&t, &store.coordinator) => one_phase(store, t, group),
        _ => t.entering(PREPARE),
    }
}

/// One write does it all, so that no other client can find it half done: the own line stays undecided.
fn one_phase(store: &mut Store, t: Transaction, group: &[Entry]) -> Transaction {
    if write_group(store, group, |line, put| line.committed(t.number, put)) {
        t.entering(DONE).with_verdict(COMMITTED)
    } else {
        t.entering(WITHDRAW)
    }
}

fn prepare(store: &mut Store, t: Transaction, now: u32) -> Transaction {
    let groups = groups(&t, &store.coordinator.units);
    let group = &groups[t.place as usize];
    if !write_group(store, group, |line, put| line.prepared(t.number, put, now)) {
        return t.entering(WITHDRAW);
    }
    let to_check = !to_validate(&t, &store.coordinator).is_empty();
    let then = if to_check { CHECK } else { DECIDE };
    t.next_of(groups.len(), t.entering(then))
}

fn check(store: &Store, t: Transaction) -> Transaction {
    let entries = to_validate(&t, &store.coordinator);
    if !condition(store, &entries[t.place as usize]) {
        return t.entering(WITHDRAW);
    }
    let after_last = match t.puts().next() {
        Some(_) => t.entering(DECIDE),
        None => t.entering(DONE).with_verdict(COMMITTED),
    };
    t.next_of(entries.len(), after_last)
}

fn decide(store: &mut Store, t: Transaction) -> Result<Transaction, u32> {
    match store.decision(t.number) {
        Decision::Undecided => {
            store.decide(t.number, Decision::Committed);
            Ok(t.entering(FINISH).with_verdict(COMMITTED))
        }
        Decision::Aborted => Ok(t.entering(UNDO).with_verdict(ABORTED)),
        Decision::Committed => Err(WRONG_PHASE),
    }
}

fn withdraw(store: &mut Store, t: Transaction) -> Result<Transaction, u32> {
    if store.decision(t.number) == Decision::Committed {
        return Err(WRONG_PHASE);
    }
    store.decide(t.number, Decision::Aborted);
    let then = match t.puts().next() {
        Some(_) => UNDO,
        None => DONE,
    };
    Ok(t.entering(then).with_verdict(ABORTED))
}

/// Rolls the group's lines that are still prepared by this number; a visitor may have been there before, and a key need not have
/// a line.
fn roll(
    store: &mut Store,
    t: Transaction,
    wanted: Decision,
    rolled: fn(Record) -> Record,
) -> Result<Transaction, u32> {
    if store.decision(t.number) != wanted {
        return Err(WRONG_PHASE);
    }
    let groups = groups(&t, &store.coordinator.units);
    let group = groups[t.place as usize].iter();
    let there: Vec<&Entry> = group.filter(|entry| store.has_line(&entry.key)).collect();
    for entry in there {
        let record = *store.record(&entry.key);
        if record.state == State::Prepared && record.image.tx_id == t.number {
            store.replace(rolled(record));
        }
    }
    Ok(t.next_of(groups.len(), t.entering(DONE)))
}
