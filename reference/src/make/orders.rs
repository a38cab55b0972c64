//! Orders for a close to bring far: their lines are as they were read, in as many groups as may be.

use super::random::Random;
use super::transactions::{date_back, other_absence, other_columns};
use crate::plain::coordinator::Decision;
use crate::plain::record::{Record, State, MOST_VERSION};
use crate::plain::store::Store;
use crate::plain::transaction::{Entry, Transaction};

/// An order in open that has put what it read, with something to check beside at times.
pub fn order(random: &mut Random, store: &Store) -> Transaction {
    let mut order = Transaction::begun(number(random, store), !random.once_in(3));
    let lines = lines(random, &store.records);
    order.count = lines.len() as u32;
    for (entry, line) in order.entries.iter_mut().zip(&lines) {
        *entry = Entry::read(line);
        entry.wrote = 1;
        entry.put_1 = random.figure(0, 99_999_999);
        entry.put_2 = random.figure(0, 99_999_999);
        if random.once_in(8) {
            other_absence(entry);
        }
    }
    only_read(random, &mut order.entries[..lines.len()], store);
    order
}

/// At times the last entries are without a put. At times the very last is as if its line had been written since, so that
/// there is much to undo, or nothing: it is checked last, or its group is the last or the first.
fn only_read(random: &mut Random, entries: &mut [Entry], store: &Store) {
    let count = random.pick(&[0, 0, 0, 1, 3]);
    let stale = random.once_in(if count > 0 { 2 } else { 4 });
    for (place, entry) in entries.iter_mut().rev().enumerate() {
        if place < count {
            entry.wrote = 0;
        }
        if place == 0 && stale {
            match store.coordinator.is_small(entry.key.storage) && random.once_in(2) {
                true => other_columns(random, entry),
                false => date_back(random, entry),
            }
        }
    }
}

/// An issued number, undecided if there is such a one.
pub fn number(random: &mut Random, store: &Store) -> u32 {
    let issued = 1..=store.coordinator.issued;
    let undecided = |number: &u32| store.decision(*number) == Decision::Undecided;
    let undecided: Vec<u32> = issued.filter(undecided).collect();
    match undecided.len() {
        1.. if !random.once_in(8) => random.pick(&undecided),
        _ => 1 + random.below(store.coordinator.issued as usize) as u32,
    }
}

/// Lines that may be put, often as many as an order holds, in rising or falling order.
fn lines(random: &mut Random, records: &[Record]) -> Vec<Record> {
    let free = |line: &&Record| line.state != State::Prepared && line.image.version < MOST_VERSION;
    let mut lines: Vec<Record> = records.iter().filter(free).copied().collect();
    let most = random.pick(&[1, 2, 3, 5, 7, 8, 8, 8, 8, 8, 8, 8]);
    while lines.len() > most {
        lines.remove(random.below(lines.len()));
    }
    if random.once_in(2) {
        lines.reverse();
    }
    lines
}
