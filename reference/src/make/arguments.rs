//! Arguments of calls: keys, columns, clocks and limits, most often such that something happens.
//! What depends on all lines of a number stands in `expiry`.

use super::expiry::lines_of;
use super::random::Random;
use crate::plain::key::Key;
use crate::plain::record::{Record, State};
use std::collections::BTreeSet;

/// Elapsed ticks on both sides of every edge of the clock rule.
const EDGES: [u32; 9] = [
    0,
    1,
    14_999,
    15_000,
    15_001,
    2_147_483_646,
    2_147_483_647,
    2_147_483_648,
    u32::MAX,
];

/// Limits beyond all writes, some of which would be small if their higher bits were lost.
const LARGE: [u32; 7] = [19, 20, 256, 65_537, 1 << 31, u32::MAX - 1, u32::MAX];

/// Keys few and close together, so that they share units of every kind and clients meet. In some sheets all have the
/// same namespace or table, so that puts of one transaction often share a unit.
pub fn close_keys(random: &mut Random, count: usize) -> BTreeSet<[u32; 5]> {
    let same = match count {
        ..=6 => random.pick(&[0, 1, 2, 3]),
        _ => random.pick(&[0, 1, 2]),
    };
    let mut keys = BTreeSet::new();
    while keys.len() < count {
        let mut key = close_key(random);
        key[..same].fill(1);
        keys.insert(key);
    }
    keys
}

fn close_key(random: &mut Random) -> [u32; 5] {
    [
        random.pick(&[1, 2, 9]),
        random.pick(&[1, 1, 99]),
        random.pick(&[1, 1, 99]),
        random.pick(&[0, 1, 99_999]),
        random.pick(&[0, 1, 99_999]),
    ]
}

/// The key of some line, or any where all lines are spares.
fn some_key(random: &mut Random, records: &[Record]) -> [u32; 5] {
    match records.is_empty() {
        true => close_key(random),
        false => random.pick(records).key.numbers(),
    }
}

/// A place in the key and a number just out of its range.
const BEYOND: [(usize, u32); 8] = [
    (0, 0),
    (0, 10),
    (1, 0),
    (1, 100),
    (2, 0),
    (2, 100),
    (3, 100_000),
    (4, 100_000),
];

/// The key of a line, mostly; else one that may have no line, or with a field out of range.
pub fn any_key(random: &mut Random, records: &[Record]) -> Key {
    key_of(random, 16, records)
}

/// The same; once in so many times a key of each other kind.
pub fn key_of(random: &mut Random, times: usize, records: &[Record]) -> Key {
    let mut numbers = some_key(random, records);
    match random.below(times) {
        0 => numbers = close_key(random),
        1 => {
            let (field, beyond) = random.pick(&BEYOND);
            numbers[field] = random.pick(&[beyond, beyond, u32::MAX]);
        }
        _ => {}
    }
    Key::from_numbers(numbers)
}

/// A key to be looked up: most often as above, else one beside a line's.
pub fn sought_key(random: &mut Random, times: usize, records: &[Record]) -> Key {
    match random.once_in(3) {
        true => key_beside(random, records),
        false => key_of(random, times, records),
    }
}

/// A line's key with a field one more or less, or with the last fields of another's; seldom the least or the greatest key.
fn key_beside(random: &mut Random, records: &[Record]) -> Key {
    let mut numbers = some_key(random, records);
    let other = some_key(random, records);
    let field = random.below(5);
    match random.below(8) {
        0 => numbers = random.pick(&[[1, 1, 1, 0, 0], [9, 99, 99, 99_999, 99_999]]),
        1 | 2 => numbers[field..].copy_from_slice(&other[field..]),
        3..=5 => numbers[field] += 1,
        _ => numbers[field] = numbers[field].saturating_sub(1),
    }
    Key::from_numbers(numbers)
}

/// A target for two numbers, whose length is seldom another.
pub fn target(random: &mut Random) -> Vec<u32> {
    let length = random.pick(&[0, 1, 2, 2, 2, 2, 2, 2, 2, 2, 2, 2, 2, 2, 3, 4]);
    (0..length).map(|_| random.draw() as u32).collect()
}

/// Two put columns, seldom too large, more often where something else is wrong too.
pub fn columns(random: &mut Random, wrong: bool) -> [u32; 2] {
    let seldom = if wrong { 4 } else { 24 };
    let mut column = || match random.below(seldom) {
        0 => random.pick(&[100_000_000, u32::MAX]),
        _ => random.figure(0, 99_999_999),
    };
    [column(), column()]
}

/// Columns for the second call of a read: those of the line, now or before it was prepared, or any, often too large.
pub fn first_columns(random: &mut Random, key: &Key, records: &[Record]) -> [u32; 2] {
    let line = records.iter().find(|line| line.key == *key);
    match (random.below(8), line) {
        (0..=3, Some(line)) => line.image.columns(),
        (4 | 5, Some(line)) => line.before.columns(),
        _ => columns(random, true),
    }
}

/// How many writes a close may make. Small limits come more often, since few orders have many writes.
pub fn limit(random: &mut Random) -> u32 {
    match random.below(12) {
        0 => random.pick(&LARGE),
        1..=4 => random.below(3) as u32,
        5..=7 => random.below(6) as u32,
        _ => random.below(19) as u32,
    }
}

/// The PREPARED lines.
pub fn prepared(records: &[Record]) -> Vec<&Record> {
    let lines = records.iter();
    lines.filter(|r| r.state == State::Prepared).collect()
}

/// Any reading of a clock, most often near an edge of a prepared line's.
pub fn clock(random: &mut Random, records: &[Record]) -> u32 {
    let prepared = prepared(records);
    if prepared.is_empty() || random.once_in(6) {
        return random.figure(0, u32::MAX);
    }
    let record = random.pick(&prepared);
    reading_after(random, record)
}

/// A reading for a call on the line of this key: if it is prepared, near an edge of its own clock or of another line's that
/// the same number has prepared.
pub fn clock_for(random: &mut Random, key: &Key, records: &[Record]) -> u32 {
    let line = records.iter().find(|record| record.key == *key);
    match line {
        Some(record) if record.state == State::Prepared => {
            let own = lines_of(records, record.image.tx_id);
            let record = random.pick(&own);
            reading_after(random, record)
        }
        _ => clock(random, records),
    }
}

/// A reading at some time after the line was prepared, most often near an edge.
pub fn reading_after(random: &mut Random, record: &Record) -> u32 {
    let elapsed = match random.below(3) {
        0 => random.figure(0, u32::MAX),
        _ => random.pick(&EDGES),
    };
    record.prepare_clock.wrapping_add(elapsed)
}
