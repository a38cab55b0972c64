//! How many of demand 3's lists left a number that no visit can decide, and in how many keys came and went.

use super::adding::Removed;
use super::{named, unseen};
use crate::plain::key::Key;
use crate::plain::store::Store;
use std::collections::BTreeSet;
use std::fmt;

/// What a list leaves before its closing visits. Of one that leaves more nothing is claimed, so that it need not be seen.
const KINDS: [&str; 2] = [
    "no number without a reading",
    "such numbers, all decided by their own clients",
];

/// What became of keys in a list that was held against the sequential model.
const KEYS: [&str; 4] = [
    "a key added",
    "a key gone",
    "a held key removed and gone",
    "a held key removed and added again",
];

#[derive(Default)]
pub struct Lists {
    counts: [u64; 2],
    keys: [u64; KEYS.len()],
    /// Lists in which such a number's client was gone, and which are not held against the sequential model.
    outside: u64,
}

impl Lists {
    /// Notes the undecided numbers without a reading at which they have expired, before and after their clients' closes.
    pub fn note(&mut self, left: &BTreeSet<u32>, outside: &BTreeSet<u32>) {
        match outside.is_empty() {
            true => self.counts[usize::from(!left.is_empty())] += 1,
            false => self.outside += 1,
        }
    }

    /// Notes the records before the first call and after the last, and the keys that were removed while slots held them.
    pub fn note_keys(&mut self, first: &Store, last: &Store, removed: &Removed) {
        let lacks = |store: &Store, key: &Key| !store.has_line(key);
        let noted = [
            last.records.iter().any(|line| lacks(first, &line.key)),
            first.records.iter().any(|line| lacks(last, &line.key)),
            removed.keys().any(|key| lacks(last, key)),
            removed.keys().any(|key| last.has_line(key)),
        ];
        for (count, noted) in self.keys.iter_mut().zip(noted) {
            *count += u64::from(noted);
        }
    }

    /// What should have been seen and wasn't.
    pub fn amiss(&self) -> Vec<String> {
        let kinds = unseen("lists", &KINDS, &self.counts);
        kinds.chain(unseen("lists", &KEYS, &self.keys)).collect()
    }
}

impl fmt::Display for Lists {
    fn fmt(&self, out: &mut fmt::Formatter) -> fmt::Result {
        let Lists {
            counts: [none, own],
            keys,
            outside,
        } = self;
        let lists = none + own + outside;
        let without = own + outside;
        write!(
            out,
            "{lists} lists of demand 3, {without} with a number that no reading expires: {own} decided by its own client, {outside} left out; lists with {}",
            named(&KEYS, keys)
        )
    }
}
