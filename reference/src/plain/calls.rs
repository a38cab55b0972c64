//! The calls on the records of accepted sheets; of these `close`, `add` and `remove` stand apart. Refusals come in the order of
//! their table, and a refused call's changes to the records are dropped.

pub use super::adding::{add, remove};
pub use super::close::close;

use super::key::Key;
use super::record::{columns_in_range, State, MOST_VERSION};
use super::steps;
use super::store::{Store, Visit};
use super::transaction::*;
use super::well_formed;
use super::{
    require, COLUMN_TOO_LARGE, KEY_NOT_HELD, NUMBERS_SPENT, TOO_MANY_KEYS, VERSION_SPENT,
    WRONG_PHASE,
};

/// Issues the next number to a new transaction.
pub fn begin(store: &mut Store, serializable: bool) -> Result<Transaction, u32> {
    let coordinator = &mut store.coordinator;
    let lines = coordinator.decisions.len();
    require((coordinator.issued as usize) < lines, NUMBERS_SPENT)?;
    coordinator.issued += 1;
    Ok(Transaction::begun(coordinator.issued, serializable))
}

/// The place of a line that the transaction may ask for, or refusals 3 to 6.
fn place_to_read(store: &Store, transaction: &Transaction, key: &Key) -> Result<usize, u32> {
    well_formed::require(transaction, store)?;
    require(transaction.phase == OPEN, WRONG_PHASE)?;
    store.place_of(key)
}

/// Whether the read takes two calls: the key is new and its storage can't be read consistently.
fn takes_two_calls(store: &Store, transaction: &Transaction, key: &Key) -> bool {
    store.coordinator.is_small(key.storage) && transaction.place_of(key).is_none()
}

/// Refusal 9 where no other key can be held.
fn require_room(transaction: &Transaction) -> Result<(), u32> {
    require((transaction.count as usize) < MOST_ENTRIES, TOO_MANY_KEYS)
}

/// What the transaction sees of a key. A new key is visited and then held, unless that takes a second call: then the columns
/// are answered as they stand.
pub fn read(
    store: &mut Store,
    transaction: Transaction,
    key: Key,
    now: u32,
) -> Result<(Transaction, Reading), u32> {
    let place = place_to_read(store, &transaction, &key)?;
    if takes_two_calls(store, &transaction, &key) {
        require_room(&transaction)?;
        let columns = store.records[place].image.columns();
        return Ok((transaction, Reading::First(columns)));
    }
    read_whole(store, transaction, place, now)
}

/// The second call of a read, with the columns that the first is to have answered. It is held beside them which version the
/// line has now; an ABSENT line has no columns. Where a read takes one call, this is that read, and the columns are ignored.
pub fn second(
    store: &mut Store,
    transaction: Transaction,
    key: Key,
    now: u32,
    columns: [u32; 2],
) -> Result<(Transaction, Reading), u32> {
    let place = place_to_read(store, &transaction, &key)?;
    if !takes_two_calls(store, &transaction, &key) {
        return read_whole(store, transaction, place, now);
    }
    require(columns_in_range(columns), COLUMN_TOO_LARGE)?;
    require_room(&transaction)?;
    if store.visit(place, now)? == Visit::Again {
        return Ok((transaction, Reading::Again));
    }
    let mut line = store.records[place];
    if line.state != State::Absent {
        [line.image.column_1, line.image.column_2] = columns;
    }
    Ok(holding(transaction, Entry::read(&line)))
}

/// The read in one call, of a key that has its line at this place.
fn read_whole(
    store: &mut Store,
    transaction: Transaction,
    place: usize,
    now: u32,
) -> Result<(Transaction, Reading), u32> {
    let key = store.records[place].key;
    if let Some(held) = transaction.place_of(&key) {
        return Ok((transaction, transaction.entries[held].reading()));
    }
    require_room(&transaction)?;
    if store.visit(place, now)? == Visit::Again {
        return Ok((transaction, Reading::Again));
    }
    Ok(holding(transaction, Entry::read(&store.records[place])))
}

/// The transaction with another entry, and what a read of it answers.
fn holding(mut transaction: Transaction, entry: Entry) -> (Transaction, Reading) {
    transaction.entries[transaction.count as usize] = entry;
    transaction.count += 1;
    (transaction, entry.reading())
}

/// Sets the columns that the transaction is to write to a key it holds. The line isn't looked at.
pub fn put(
    store: &Store,
    mut transaction: Transaction,
    key: Key,
    columns: [u32; 2],
) -> Result<Transaction, u32> {
    well_formed::require(&transaction, store)?;
    require(transaction.phase == OPEN, WRONG_PHASE)?;
    store.place_of(&key)?;
    require(columns_in_range(columns), COLUMN_TOO_LARGE)?;
    let held = transaction.place_of(&key).ok_or(KEY_NOT_HELD)?;
    let entry = &mut transaction.entries[held];
    require(entry.seen.version < MOST_VERSION, VERSION_SPENT)?;
    [entry.put_1, entry.put_2] = columns;
    entry.wrote = 1;
    Ok(transaction)
}

/// One step of the step table.
pub fn advance(store: &mut Store, transaction: Transaction, now: u32) -> Result<Transaction, u32> {
    well_formed::require(&transaction, store)?;
    steps::advance(store, transaction, now)
}

/// Turns a transaction that has decided nothing yet to withdraw. It writes nothing: withdraw does.
pub fn abort(store: &Store, transaction: Transaction) -> Result<Transaction, u32> {
    well_formed::require(&transaction, store)?;
    match transaction.phase {
        OPEN | PREPARE | CHECK | DECIDE => Ok(transaction.entering(WITHDRAW)),
        _ => Err(WRONG_PHASE),
    }
}

/// Lazy recovery of the key's line.
pub fn visit(store: &mut Store, key: Key, now: u32) -> Result<Visit, u32> {
    let place = store.place_of(&key)?;
    store.visit(place, now)
}
