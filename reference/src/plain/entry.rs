//! A key that a transaction holds: what was read of it, and what is to be written to it.

use super::key::Key;
use super::record::{Image, Record, State, NOTHING};

/// Its fields lie in memory in the order written, as a caller in C has them.
#[derive(Clone, Copy, Debug, PartialEq, Eq)]
#[repr(C)]
pub struct Entry {
    pub key: Key,
    /// The line as it was read.
    pub seen: Image,
    /// 1 if the line was ABSENT, which its version doesn't tell; else 0.
    pub absent: u32,
    /// 1 with a put, 0 without; then the put columns mean nothing.
    pub wrote: u32,
    pub put_1: u32,
    pub put_2: u32,
}

/// What a read answers.
#[derive(Clone, Copy, Debug, PartialEq, Eq)]
pub enum Reading {
    Absent,
    Columns([u32; 2]),
    /// The line's owner was aborted only now: the key is not held, and to be read again.
    Again,
    /// On two sheets: what stood there at the first call of a read that takes two. The key is not held.
    First([u32; 2]),
}

impl Entry {
    /// An entry that no key was read into.
    pub fn unused() -> Entry {
        Entry {
            key: Key::from_numbers([0; 5]),
            seen: NOTHING,
            absent: 0,
            wrote: 0,
            put_1: 0,
            put_2: 0,
        }
    }

    /// A line just read.
    pub fn read(line: &Record) -> Entry {
        Entry {
            key: line.key,
            seen: line.image,
            absent: u32::from(line.state == State::Absent),
            ..Entry::unused()
        }
    }

    /// From the numbers of a replay, in which absence stands before the image.
    pub fn from_numbers(n: [u32; 13]) -> Entry {
        Entry {
            key: Key::from_numbers([n[0], n[1], n[2], n[3], n[4]]),
            absent: n[5],
            seen: Image {
                version: n[6],
                tx_id: n[7],
                column_1: n[8],
                column_2: n[9],
            },
            wrote: n[10],
            put_1: n[11],
            put_2: n[12],
        }
    }

    pub fn numbers(&self) -> [u32; 13] {
        let [storage, namespace, table, partition, clustering] = self.key.numbers();
        let seen = &self.seen;
        [
            storage,
            namespace,
            table,
            partition,
            clustering,
            self.absent,
            seen.version,
            seen.tx_id,
            seen.column_1,
            seen.column_2,
            self.wrote,
            self.put_1,
            self.put_2,
        ]
    }

    pub fn put(&self) -> [u32; 2] {
        [self.put_1, self.put_2]
    }

    /// The entry as last put, else as first read.
    pub fn reading(&self) -> Reading {
        if self.wrote == 1 {
            Reading::Columns(self.put())
        } else if self.absent == 1 {
            Reading::Absent
        } else {
            Reading::Columns(self.seen.columns())
        }
    }
}
