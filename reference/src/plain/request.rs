//! A call with its arguments as data, so that lists of calls can be made, kept and handed to the sequential model.

use super::calls;
use super::key::Key;
use super::store::{Store, Visit};
use super::transaction::{Reading, Transaction};

#[derive(Clone, Copy, Debug, PartialEq, Eq)]
pub enum Request {
    Begin {
        serializable: bool,
    },
    /// On two sheets the first call of a read.
    Read {
        transaction: Transaction,
        key: Key,
        now: u32,
    },
    /// The second call of a read, on two sheets only.
    Second {
        transaction: Transaction,
        key: Key,
        now: u32,
        columns: [u32; 2],
    },
    Put {
        transaction: Transaction,
        key: Key,
        columns: [u32; 2],
    },
    Advance {
        transaction: Transaction,
        now: u32,
    },
    Abort {
        transaction: Transaction,
    },
    Close {
        transaction: Transaction,
        now: u32,
        limit: u32,
    },
    Visit {
        key: Key,
        now: u32,
    },
    Add {
        key: Key,
    },
    Remove {
        key: Key,
    },
}

#[derive(Clone, Copy, Debug, PartialEq, Eq)]
pub enum Answer {
    /// Of begin, put, advance and abort.
    Returned(Transaction),
    Read(Transaction, Reading),
    Visited(Visit),
    /// Of add and remove, which have nothing to tell.
    Done,
    /// With the number of writes made.
    Closed(Transaction, u32),
}

impl Request {
    /// Makes the call on a record sheet: its answer, or the refusal. It writes only if it was accepted.
    pub fn make(&self, records: &mut [u8], coordinator: &mut [u8]) -> Result<Answer, u32> {
        let mut store = Store::read(records, coordinator)?;
        let answer = self.on(&mut store)?;
        store.write(records, coordinator);
        Ok(answer)
    }

    /// The same on a plain sheet and a bookkeeping sheet.
    pub fn make_on_two(
        &self,
        plain: &mut [u8],
        bookkeeping: &mut [u8],
        coordinator: &mut [u8],
    ) -> Result<Answer, u32> {
        let mut store = Store::read_two(plain, bookkeeping, coordinator)?;
        let answer = self.on(&mut store)?;
        store.write_two(plain, bookkeeping, coordinator);
        Ok(answer)
    }

    /// The call on the records of accepted sheets.
    pub fn on(&self, store: &mut Store) -> Result<Answer, u32> {
        let read = |(transaction, reading)| Answer::Read(transaction, reading);
        match *self {
            Request::Begin { serializable } => {
                calls::begin(store, serializable).map(Answer::Returned)
            }
            Request::Read {
                transaction,
                key,
                now,
            } => calls::read(store, transaction, key, now).map(read),
            Request::Second {
                transaction,
                key,
                now,
                columns,
            } => calls::second(store, transaction, key, now, columns).map(read),
            Request::Put {
                transaction,
                key,
                columns,
            } => calls::put(store, transaction, key, columns).map(Answer::Returned),
            Request::Advance { transaction, now } => {
                calls::advance(store, transaction, now).map(Answer::Returned)
            }
            Request::Abort { transaction } => {
                calls::abort(store, transaction).map(Answer::Returned)
            }
            Request::Close {
                transaction,
                now,
                limit,
            } => calls::close(store, transaction, now, limit)
                .map(|(transaction, writes)| Answer::Closed(transaction, writes)),
            Request::Visit { key, now } => calls::visit(store, key, now).map(Answer::Visited),
            Request::Add { key } => calls::add(store, key).map(|()| Answer::Done),
            Request::Remove { key } => calls::remove(store, key).map(|()| Answer::Done),
        }
    }

    /// The transaction that the call takes.
    pub fn taken(&self) -> Option<&Transaction> {
        match self {
            Request::Read { transaction, .. }
            | Request::Second { transaction, .. }
            | Request::Put { transaction, .. }
            | Request::Advance { transaction, .. }
            | Request::Abort { transaction }
            | Request::Close { transaction, .. } => Some(transaction),
            Request::Begin { .. }
            | Request::Visit { .. }
            | Request::Add { .. }
            | Request::Remove { .. } => None,
        }
    }
}

impl Answer {
    /// The transaction that the call returns.
    pub fn returned(&self) -> Option<&Transaction> {
        match self {
            Answer::Returned(transaction)
            | Answer::Read(transaction, _)
            | Answer::Closed(transaction, _) => Some(transaction),
            Answer::Visited(_) | Answer::Done => None,
        }
    }
}
