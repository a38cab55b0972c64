//! The transaction as a caller keeps it: numbers only, so that any memory lent is one, well formed or not.
//!
//! Its fields lie in memory in the order written, as a caller in C has them.

pub use super::entry::{Entry, Reading};
use super::key::Key;

/// The most keys that a transaction holds.
pub const MOST_ENTRIES: usize = 8;

/// The most transactions in a list that a client lends (document 01: a station).
pub const MOST_LISTED: usize = 16;

pub const OPEN: u32 = 0;
pub const PREPARE: u32 = 1;
pub const CHECK: u32 = 2;
pub const DECIDE: u32 = 3;
pub const WITHDRAW: u32 = 4;
pub const FINISH: u32 = 5;
pub const UNDO: u32 = 6;
pub const DONE: u32 = 7;

pub const NO_VERDICT: u32 = 0;
pub const COMMITTED: u32 = 1;
pub const ABORTED: u32 = 2;

#[derive(Clone, Copy, Debug, PartialEq, Eq)]
#[repr(C)]
pub struct Transaction {
    pub number: u32,
    /// 1 if what was only read is validated too, which the paper calls checked; else 0.
    pub serializable: u32,
    pub phase: u32,
    /// A group, or in check an entry to be validated.
    pub place: u32,
    pub verdict: u32,
    /// The entries that count; those past it mean nothing.
    pub count: u32,
    pub entries: [Entry; MOST_ENTRIES],
}

impl Transaction {
    /// A transaction just begun. Entries that mean nothing are all 0.
    pub fn begun(number: u32, serializable: bool) -> Transaction {
        Transaction {
            number,
            serializable: u32::from(serializable),
            phase: OPEN,
            place: 0,
            verdict: NO_VERDICT,
            count: 0,
            entries: [Entry::unused(); MOST_ENTRIES],
        }
    }

    /// The fields before the entries.
    pub fn fields(&self) -> [u32; 6] {
        [
            self.number,
            self.serializable,
            self.phase,
            self.place,
            self.verdict,
            self.count,
        ]
    }

    /// The same entries under other fields.
    pub fn with_fields(self, fields: [u32; 6]) -> Transaction {
        let [number, serializable, phase, place, verdict, count] = fields;
        Transaction {
            number,
            serializable,
            phase,
            place,
            verdict,
            count,
            ..self
        }
    }

    /// The entries that count.
    pub fn held(&self) -> &[Entry] {
        &self.entries[..self.count as usize]
    }

    /// The place of a key among the entries.
    pub fn place_of(&self, key: &Key) -> Option<usize> {
        self.held().iter().position(|entry| entry.key == *key)
    }

    pub fn puts(&self) -> impl Iterator<Item = &Entry> {
        self.held().iter().filter(|entry| entry.wrote == 1)
    }

    /// The entries without put, in the order read.
    pub fn only_read(&self) -> impl Iterator<Item = &Entry> {
        self.held().iter().filter(|entry| entry.wrote == 0)
    }

    /// A new phase starts at place 0.
    pub fn entering(self, phase: u32) -> Transaction {
        Transaction {
            phase,
            place: 0,
            ..self
        }
    }

    pub fn with_verdict(self, verdict: u32) -> Transaction {
        Transaction { verdict, ..self }
    }

    /// The next place of this phase if it has that many, else what follows the last.
    pub fn next_of(self, places: usize, after_last: Transaction) -> Transaction {
        let place = self.place + 1;
        if (place as usize) < places {
            Transaction { place, ..self }
        } else {
            after_last
        }
    }
}
