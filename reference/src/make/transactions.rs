//! Transactions that no call returned, most of them not well formed.

use super::arguments::{columns, key_of};
use super::random::Random;
use crate::plain::coordinator::Decision;
use crate::plain::groups::groups;
use crate::plain::key::Key;
use crate::plain::record::{Image, Record, State, MOST_VERSION, NOTHING};
use crate::plain::steps::to_validate;
use crate::plain::store::Store;
use crate::plain::transaction::*;

/// Another transaction with some fields changed, or made to fit a phase that it may never have reached.
pub fn forged(random: &mut Random, mut base: Transaction, store: &Store) -> Transaction {
    if random.below(6) < 4 {
        if !random.once_in(4) {
            fill(random, &mut base, store);
        }
        base = unreached(random, base, store);
        if !random.once_in(4) {
            return base;
        }
    }
    for _ in 0..1 + random.below(2) {
        change(random, &mut base, &store.records);
    }
    base
}

/// A forged one of an issued number: for a step or a close, of which there are more kinds than of any other call.
pub fn forged_begun(random: &mut Random, store: &Store) -> Transaction {
    let number = 1 + random.below(store.coordinator.issued as usize) as u32;
    let base = Transaction::begun(number, random.once_in(2));
    forged(random, base, store)
}

/// The entries in any phase, with the verdict that goes with it.
fn unreached(random: &mut Random, base: Transaction, store: &Store) -> Transaction {
    let phase = random.pick(&[
        OPEN, OPEN, OPEN, PREPARE, PREPARE, CHECK, CHECK, DECIDE, DECIDE, WITHDRAW, FINISH, FINISH,
        UNDO, UNDO, DONE,
    ]);
    let verdict = match phase {
        _ if random.once_in(12) => random.below(3) as u32,
        FINISH => COMMITTED,
        UNDO => ABORTED,
        DONE => random.pick(&[COMMITTED, ABORTED]),
        _ => NO_VERDICT,
    };
    let number = match random.below(3) {
        0 => base.number,
        _ => number_for(random, phase, store).unwrap_or(base.number),
    };
    // Under small letters those that aren't checked come to check too.
    let seldom = match store.coordinator.has_small() {
        true => 2,
        false => 8,
    };
    let serializable = phase == CHECK && !random.once_in(seldom) || random.once_in(2);
    let mut unreached = Transaction {
        number,
        serializable: u32::from(serializable),
        ..base.entering(phase).with_verdict(verdict)
    };
    let places = places(random, &unreached, store);
    unreached.place = match places {
        0 => 0,
        _ if random.once_in(8) => places as u32,
        _ => random.below(places) as u32,
    };
    unreached
}

/// How many places the phase has, as far as the entries are as many as told and their storages have letters. At times
/// entries count that check doesn't go over.
fn places(random: &mut Random, t: &Transaction, store: &Store) -> usize {
    let few = t.count as usize <= MOST_ENTRIES;
    if !few || t.held().iter().any(|entry| !entry.key.in_range()) {
        return 0;
    }
    match t.phase {
        PREPARE | FINISH | UNDO => groups(t, &store.coordinator.units).len(),
        CHECK if random.once_in(4) => t.only_read().count(),
        CHECK => to_validate(t, &store.coordinator).len(),
        _ => 0,
    }
}

/// A number that the phase goes with, most often one that has prepared a line.
pub fn number_for(random: &mut Random, phase: u32, store: &Store) -> Option<u32> {
    let fits = |number: &u32| match phase {
        FINISH => store.decision(*number) == Decision::Committed,
        UNDO => store.decision(*number) == Decision::Aborted,
        _ => true,
    };
    let lines = store.records.iter();
    let owners = lines.filter(|line| line.state == State::Prepared);
    let owners: Vec<u32> = owners.map(|line| line.image.tx_id).filter(fits).collect();
    let issued: Vec<u32> = (1..=store.coordinator.issued).filter(fits).collect();
    match (owners.len(), issued.len()) {
        (_, 0) => None,
        (1.., _) if !random.once_in(3) => Some(random.pick(&owners)),
        _ => Some(random.pick(&issued)),
    }
}

/// An open transaction with as many entries as it may have, or one less, as far as there are lines.
pub fn full(random: &mut Random, base: Transaction, records: &[Record]) -> Transaction {
    let mut transaction = base.entering(OPEN).with_verdict(NO_VERDICT);
    let first = random.below(records.len().max(1));
    let lines = records.iter().cycle().skip(first);
    let most = MOST_ENTRIES - usize::from(random.once_in(4));
    let lines = lines.take(records.len().min(most));
    transaction.count = lines.clone().count() as u32;
    for (entry, line) in transaction.entries.iter_mut().zip(lines) {
        *entry = Entry::read(line);
    }
    transaction
}

/// Entries for some lines of the sheet, as if they had just been read, that keep the rules.
fn fill(random: &mut Random, transaction: &mut Transaction, store: &Store) {
    let lines = some_lines(random, &store.records);
    // Where few are out of date, groups are met of which some conditions hold and some don't.
    let seldom = random.pick(&[2, 4, 8]);
    for (entry, line) in transaction.entries.iter_mut().zip(&lines) {
        *entry = Entry::read(line);
        if random.once_in(10) {
            // The last version that may be put over, and the one that may not.
            entry.seen.version = random.pick(&[99_998, 99_999]);
            entry.absent &= entry.seen.tx_id.min(1);
        } else if random.once_in(seldom) {
            date_back(random, entry);
        } else if random.once_in(3) {
            other_absence(entry);
        } else if random.once_in(often_other(&line.key, store)) {
            other_columns(random, entry);
        }
        if entry.seen.version < MOST_VERSION {
            entry.wrote = random.below(2) as u32;
        }
        entry.put_1 = random.figure(0, 99_999_999);
        entry.put_2 = random.figure(0, 99_999_999);
    }
    transaction.count = lines.len() as u32;
    // Often all are put, so that groups have several lines.
    if random.once_in(2) {
        let held = &mut transaction.entries[..lines.len()];
        let may_put = held.iter_mut().filter(|e| e.seen.version < MOST_VERSION);
        may_put.for_each(|entry| entry.wrote = 1);
    }
    if random.once_in(2) && !lines.is_empty() {
        without_line(random, &mut transaction.entries[..lines.len()], store);
    }
}

/// As if the line of an entry had been taken away since it was read: the key beside it is held, which has none. Often it is
/// the first of its group, and at times it was read as absent, often without a put, so that it is to be checked.
fn without_line(random: &mut Random, held: &mut [Entry], store: &Store) {
    let entry = match random.below(2) {
        0 => held.iter_mut().min_by_key(|entry| entry.key).unwrap(),
        _ => &mut held[random.below(held.len())],
    };
    let clustering = match entry.key.clustering {
        0 => 1,
        other => other - 1,
    };
    let key = Key {
        clustering,
        ..entry.key
    };
    if !store.has_line(&key) {
        entry.key = key;
        if random.once_in(2) {
            (entry.seen, entry.absent) = (NOTHING, 1);
            entry.wrote *= random.below(2) as u32;
        }
    }
}

/// Up to eight lines that are neighbours, in rising or falling order; at times no PREPARED ones.
fn some_lines<'a>(random: &mut Random, records: &'a [Record]) -> Vec<&'a Record> {
    let settled = random.once_in(2);
    let lines = records.iter();
    let lines = lines.filter(|line| !settled || line.state != State::Prepared);
    let mut lines: Vec<&Record> = lines.collect();
    if lines.is_empty() {
        lines = records.iter().collect();
    }
    let first = random.below(lines.len().max(1));
    lines.rotate_left(first);
    lines.truncate(1 + random.below(MOST_ENTRIES));
    if random.once_in(2) {
        lines.reverse();
    }
    lines
}

/// As if the line had been written since: one part of the condition fails and no other does. What no number has written was
/// COMMITTED at layout.
pub fn date_back(random: &mut Random, entry: &mut Entry) {
    let seen = &mut entry.seen;
    match random.below(2) {
        1 if seen.tx_id == 0 && seen.version > 0 => seen.tx_id = 1,
        _ if seen.version == 0 => seen.version = 1 + random.below(3) as u32,
        0 if seen.version > 1 => seen.version -= 1,
        _ => seen.tx_id = seen.tx_id.saturating_sub(1),
    }
    entry.absent &= seen.tx_id.min(1);
}

/// Once in how many times columns differ from the line's. Under a capital letter the condition holds all the same.
fn often_other(key: &Key, store: &Store) -> usize {
    match store.coordinator.is_small(key.storage) {
        true => 6,
        false => 2,
    }
}

/// As if columns could differ where version and TxID agree.
pub fn other_columns(random: &mut Random, entry: &mut Entry) {
    let seen = &mut entry.seen;
    if entry.absent == 0 {
        match random.below(2) {
            0 => seen.column_1 = random.figure(0, 99_999_999),
            _ => seen.column_2 = random.figure(0, 99_999_999),
        }
    }
}

/// As if absence could differ where version and TxID agree. Under a capital letter the condition holds all the same.
pub fn other_absence(entry: &mut Entry) {
    let seen = &mut entry.seen;
    if seen.version >= 1 && seen.tx_id >= 1 {
        entry.absent = 1 - entry.absent;
        [seen.column_1, seen.column_2] = [0, 0];
    }
}

fn change(random: &mut Random, transaction: &mut Transaction, records: &[Record]) {
    let t = transaction;
    let beside = [t.number.wrapping_sub(1), t.number.wrapping_add(1)];
    match random.below(13) {
        0 => t.number = random.pick(&[0, 1, beside[0], beside[1], 999, 1_000, u32::MAX]),
        1 => t.serializable = random.pick(&[0, 1, 2, u32::MAX]),
        2 => t.phase = random.pick(&[0, 1, 2, 3, 4, 5, 6, 7, 8, u32::MAX]),
        3 => t.place = random.pick(&[0, 1, 2, 3, 8, u32::MAX]),
        4 => t.verdict = random.pick(&[0, 1, 2, 3, u32::MAX]),
        5 => t.count = random.pick(&[0, 1, 2, 7, 8, 9, u32::MAX]),
        6 => {
            let place = random.below(MOST_ENTRIES - 1);
            t.entries[place + 1].key = t.entries[place].key;
        }
        _ => {
            let held = t.count.clamp(1, MOST_ENTRIES as u32) as usize;
            let place = random.below(held);
            change_entry(random, &mut t.entries[place], records);
        }
    }
}

/// Images that an entry that is absent may have seen, and such as it may not.
const ABSENCES: [Image; 8] = [
    NOTHING,
    image(1, 1, 0, 0),
    image(1, 0, 0, 0),
    image(0, 1, 0, 0),
    image(0, 0, 1, 0),
    image(0, 0, 0, 1),
    image(1, 1, 1, 0),
    image(1, 1, 0, 1),
];

const fn image(version: u32, tx_id: u32, column_1: u32, column_2: u32) -> Image {
    Image {
        version,
        tx_id,
        column_1,
        column_2,
    }
}

fn change_entry(random: &mut Random, entry: &mut Entry, records: &[Record]) {
    match random.below(18) {
        0 => entry.key = key_of(random, 4, records),
        12 => entry.absent = random.pick(&[0, 1, 2, u32::MAX]),
        // An absence of any form, and the same of one that isn't absent.
        13..=15 => (entry.absent, entry.seen) = (1, random.pick(&ABSENCES)),
        16 => (entry.absent, entry.seen) = (0, random.pick(&ABSENCES)),
        // A version 0 with a field that it can't have.
        7 => (entry.seen.version, entry.seen.tx_id) = (0, 1),
        8 => (entry.seen.version, entry.seen.tx_id) = (0, 0),
        // Columns too large, which mean nothing without a put.
        9 => (entry.wrote, entry.put_1) = (random.below(2) as u32, 100_000_000),
        10 => (entry.wrote, entry.put_2) = (random.below(2) as u32, 100_000_000),
        11 => (entry.wrote, entry.seen.version) = (1, 99_999),
        1 => entry.seen.version = version(random, entry.seen.version),
        2 => entry.seen.tx_id = random.pick(&[0, 1, 2, 20, 999, 1_000, u32::MAX]),
        3 => entry.seen.column_1 = columns(random, true)[0],
        4 => entry.seen.column_2 = columns(random, true)[1],
        5 => entry.wrote = random.pick(&[0, 1, 2, u32::MAX]),
        _ => [entry.put_1, entry.put_2] = columns(random, true),
    }
}

/// Another version, near this one or at an end of the range.
fn version(random: &mut Random, version: u32) -> u32 {
    match random.below(2) {
        0 => random.pick(&[version.wrapping_sub(1), version.wrapping_add(1)]),
        _ => random.pick(&[0, 1, 99_998, 99_999, 100_000, u32::MAX]),
    }
}
