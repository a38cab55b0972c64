//! What clients ask for: the next call of a transaction, or one that comes from nowhere.

use super::adding::add_or_remove;
use super::arguments::{any_key, clock_for, columns, first_columns, limit, prepared};
use super::expiry::clock_for_step;
use super::random::Random;
use super::transactions::{forged, full};
use crate::plain::key::Key;
use crate::plain::record::{Record, MOST_VERSION};
use crate::plain::request::Request;
use crate::plain::store::Store;
use crate::plain::transaction::{Transaction, MOST_ENTRIES, OPEN};

/// A client at work on a transaction.
#[derive(Clone, Copy)]
pub struct Client {
    /// The state of its number that may be handed on.
    pub transaction: Transaction,
    /// How many keys it reads before it advances.
    pub appetite: u32,
    /// Whether it puts to all of them first, so that it has several groups.
    pub thorough: bool,
    /// The key of the last read that takes a second call, and the columns that its first was answered.
    pub first: Option<(Key, [u32; 2])>,
}

impl Client {
    pub fn new(random: &mut Random, transaction: Transaction) -> Client {
        let thorough = random.once_in(2);
        Client {
            transaction,
            appetite: match thorough {
                true => random.pick(&[2, 3, 3, 4]),
                false => random.pick(&[0, 1, 1, 2, 2, 3, 3, 4, 9]),
            },
            thorough,
            first: None,
        }
    }

    /// The second call of a read whose first was answered, most often. Others may have come between.
    fn second(&self, random: &mut Random, records: &[Record]) -> Option<Request> {
        let (key, columns) = self.first?;
        let transaction = self.transaction;
        let is_new = transaction.phase == OPEN && transaction.place_of(&key).is_none();
        (is_new && !random.once_in(4)).then(|| Request::Second {
            transaction,
            key,
            now: clock_for(random, &key, records),
            columns,
        })
    }

    /// The keys that a thorough client still has to put before it advances. A checked transaction keeps one to be checked.
    fn unput(&self) -> Vec<Key> {
        let transaction = &self.transaction;
        if !self.thorough || transaction.phase != OPEN {
            return Vec::new();
        }
        let held = transaction.held().iter();
        let held = held.skip(transaction.serializable as usize);
        let left = held.filter(|entry| entry.wrote == 0 && entry.seen.version < MOST_VERSION);
        left.map(|entry| entry.key).collect()
    }

    /// The next call of the transaction, at times one that does not go with its phase.
    pub fn request(&self, random: &mut Random, store: &Store) -> Request {
        let records = &store.records;
        if let Some(second) = self.second(random, records) {
            return second;
        }
        let transaction = self.transaction;
        let hungry = transaction.phase == OPEN && transaction.count < self.appetite;
        let held = transaction.held();
        let unput = self.unput();
        let kind = match random.below(32) {
            0 => Kind::Abort,
            1 => Kind::Put,
            2 => Kind::Read,
            3..=18 if hungry => Kind::Read,
            19..=28 if transaction.phase == OPEN && !held.is_empty() => Kind::Put,
            _ if hungry => Kind::Read,
            5.. if !unput.is_empty() => Kind::Put,
            _ if random.once_in(4) => Kind::Close,
            _ => Kind::Advance,
        };
        let key = match kind {
            Kind::Put if !unput.is_empty() && !random.once_in(4) => random.pick(&unput),
            Kind::Put if !held.is_empty() && !random.once_in(8) => random.pick(held).key,
            _ => any_key(random, records),
        };
        kind.request(random, transaction, key, store)
    }
}

pub fn begin(random: &mut Random) -> Request {
    Request::Begin {
        serializable: random.once_in(2),
    }
}

/// A visit, an adding or a removing, or a call with a transaction made of one of these, which nobody may hand on now.
pub fn stray(random: &mut Random, old: &[Transaction], store: &Store) -> Request {
    let records = &store.records;
    match random.below(12) {
        0..=3 => return visit(random, records),
        4 => return add_or_remove(random, &[], store),
        _ => {}
    }
    let old = match old.len() {
        0 => Transaction::begun(1, true),
        // The last ones, since the sheets are still near them.
        n => old[n - 1 - random.below(n.min(12))],
    };
    let transaction = match random.below(16) {
        0..=3 => old,
        4 | 5 => return read_beyond(random, old, store),
        _ => forged(random, old, store),
    };
    let kind = random.pick(&[
        Kind::Read,
        Kind::Put,
        Kind::Advance,
        Kind::Advance,
        Kind::Abort,
        Kind::Close,
    ]);
    let held = &transaction.entries[..MOST_ENTRIES.min(transaction.count as usize)];
    let key = match kind {
        Kind::Put if !held.is_empty() && random.once_in(2) => random.pick(held).key,
        _ => any_key(random, records),
    };
    kind.request(random, transaction, key, store)
}

/// A read; where letters may be small, either of its calls.
pub fn read(
    random: &mut Random,
    transaction: Transaction,
    key: Key,
    now: u32,
    store: &Store,
) -> Request {
    if !store.coordinator.has_small() || random.once_in(2) {
        return Request::Read {
            transaction,
            key,
            now,
        };
    }
    Request::Second {
        transaction,
        key,
        now,
        columns: first_columns(random, &key, &store.records),
    }
}

/// A read of another key by a transaction that may hold no more, of a PREPARED line if there is one.
fn read_beyond(random: &mut Random, old: Transaction, store: &Store) -> Request {
    let records = &store.records;
    let transaction = full(random, old, records);
    let others = records.iter();
    let others = others.filter(|line| transaction.place_of(&line.key).is_none());
    let others: Vec<Record> = others.copied().collect();
    let prepared = prepared(&others);
    let key = match prepared.len() {
        1.. if !random.once_in(3) => random.pick(&prepared).key,
        _ => any_key(random, if others.is_empty() { records } else { &others }),
    };
    let now = clock_for(random, &key, records);
    read(random, transaction, key, now, store)
}

/// A visit, of a prepared line more often.
pub fn visit(random: &mut Random, records: &[Record]) -> Request {
    let prepared = prepared(records);
    let key = match prepared.len() {
        1.. if random.once_in(2) => random.pick(&prepared).key,
        _ => any_key(random, records),
    };
    Request::Visit {
        key,
        now: clock_for(random, &key, records),
    }
}

/// The calls that take a transaction.
#[derive(Clone, Copy)]
enum Kind {
    Read,
    Put,
    Advance,
    Abort,
    Close,
}

impl Kind {
    fn request(
        self,
        random: &mut Random,
        transaction: Transaction,
        key: Key,
        store: &Store,
    ) -> Request {
        let records = &store.records;
        match self {
            Kind::Read => {
                let now = clock_for(random, &key, records);
                read(random, transaction, key, now, store)
            }
            Kind::Put => Request::Put {
                transaction,
                key,
                columns: columns(random, !may_put(&transaction, &key)),
            },
            Kind::Advance => Request::Advance {
                transaction,
                now: clock_for_step(random, transaction.number, records),
            },
            Kind::Abort => Request::Abort { transaction },
            Kind::Close => Request::Close {
                transaction,
                now: clock_for_step(random, transaction.number, records),
                limit: limit(random),
            },
        }
    }
}

/// Whether the key is among the entries that count, as far as there are any, and its version isn't spent.
fn may_put(transaction: &Transaction, key: &Key) -> bool {
    let count = (transaction.count as usize).min(MOST_ENTRIES);
    let mut held = transaction.entries[..count].iter();
    held.any(|entry| entry.key == *key && entry.seen.version < MOST_VERSION)
}
