//! The sequential model, document 01's plain book: what the record sheet comes to once every line has been visited.
//!
//! It is told what each call was asked and answered and never sees the sheets after the first. Adding and removing do nothing to
//! it: a key without a line, here or in the sheet, counts as ABSENT of version 0.

use crate::plain::key::Key;
use crate::plain::record::{self, Record};
use crate::plain::request::{Answer, Request};
use crate::plain::transaction::{Transaction, COMMITTED, NO_VERDICT};
use std::collections::{BTreeMap, BTreeSet};

/// The last columns put to each key by one number, which document 01 calls its page.
type WriteSet = BTreeMap<Key, [u32; 2]>;

/// Lines by their keys.
type Lines = BTreeMap<Key, Record>;

pub struct SequentialModel {
    lines: Lines,
    /// A write set for each number begun in the list.
    write_sets: BTreeMap<u32, WriteSet>,
    committed: BTreeSet<u32>,
}

fn by_key(records: &[Record]) -> Lines {
    records.iter().map(|line| (line.key, *line)).collect()
}

/// The key's line, or what a key without one counts as.
fn line_of(lines: &Lines, key: &Key) -> Record {
    let line = lines.get(key).copied();
    line.unwrap_or(Record::absent(*key))
}

impl SequentialModel {
    /// The model before the first call, or nothing where the record sheet isn't accepted.
    pub fn new(records: &[u8]) -> Option<SequentialModel> {
        Some(SequentialModel {
            lines: by_key(&record::read_sheet(records)?),
            write_sets: BTreeMap::new(),
            committed: BTreeSet::new(),
        })
    }

    /// Notes one call. Refused ones change nothing.
    pub fn note(&mut self, request: &Request, answer: &Result<Answer, u32>) {
        let Ok(answer) = answer else { return };
        if let (Request::Begin { .. }, Some(begun)) = (request, answer.returned()) {
            self.write_sets.insert(begun.number, WriteSet::new());
        }
        if let Request::Put {
            transaction,
            key,
            columns,
        } = request
        {
            if let Some(write_set) = self.write_sets.get_mut(&transaction.number) {
                write_set.insert(*key, *columns);
            }
        }
        if let (Some(taken), Some(returned)) = (request.taken(), answer.returned()) {
            self.note_verdict(taken, returned);
        }
    }

    fn note_verdict(&mut self, taken: &Transaction, returned: &Transaction) {
        if taken.verdict != NO_VERDICT || returned.verdict != COMMITTED {
            return;
        }
        self.committed.insert(taken.number);
        let Some(write_set) = self.write_sets.get(&taken.number) else {
            return;
        };
        for (key, columns) in write_set {
            let line = line_of(&self.lines, key);
            let line = line.committed(taken.number, *columns);
            self.lines.insert(*key, line);
        }
    }

    /// The first key whose line in this sheet is another than in the model. Every key of either is compared.
    pub fn difference(&self, records: &[Record]) -> Option<Key> {
        let sheet = by_key(records);
        let keys = self.lines.keys().chain(sheet.keys());
        let keys: BTreeSet<Key> = keys.copied().collect();
        let differs = |key: &Key| line_of(&self.lines, key) != line_of(&sheet, key);
        keys.into_iter().find(differs)
    }

    /// The numbers begun in the list that have puts.
    pub fn with_puts(&self) -> impl Iterator<Item = u32> + '_ {
        let write_sets = self.write_sets.iter();
        let with_puts = write_sets.filter(|(_, write_set)| !write_set.is_empty());
        with_puts.map(|(number, _)| *number)
    }

    pub fn is_committed(&self, number: u32) -> bool {
        self.committed.contains(&number)
    }
}
