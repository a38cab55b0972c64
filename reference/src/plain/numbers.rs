//! Sheets to rows of numbers and back, as they are lent from C.
//!
//! A record is 16 numbers in the order of its fields, the state as ABSENT 0, COMMITTED 1, PREPARED 2, and the before state as
//! `-` 0, ABSENT 1, COMMITTED 2. A coordinator is the issued count, nine units (R 0, P 1, T 2, N 3, S 4) and for each line
//! `-` 0, COMMITTED 1, ABORTED 2. A spare is a record whose numbers are all 0, and stands last, as its line does.
//! A refusal leaves the target as it was.

use super::coordinator::{self, Coordinator, Decision, Unit};
use super::key::Key;
use super::record::{self, Image, Record};
use super::spares::{above_spares, is_spare_row};
use super::words::{BEFORES, STATES};
use super::{ACCEPTED, BAD_COORDINATOR, BAD_RECORDS};

/// Numbers of one record.
pub const RECORD_NUMBERS: usize = 16;
/// Numbers of a coordinator before its decisions.
pub const HEAD_NUMBERS: usize = 10;

const UNITS: [Unit; 5] = [
    Unit::Record,
    Unit::Partition,
    Unit::Table,
    Unit::Namespace,
    Unit::Storage,
];
const DECISIONS: [Decision; 3] = [Decision::Undecided, Decision::Committed, Decision::Aborted];

/// What the number stands for in a set of choices, if it is in it.
fn chosen<T: Copy>(choices: &[T], number: u32) -> Option<T> {
    choices.get(number as usize).copied()
}

/// The number that stands for a choice.
fn number_of<T: PartialEq>(choices: &[T], choice: T) -> u32 {
    choices.iter().position(|c| *c == choice).unwrap() as u32
}

fn image_numbers(i: &Image) -> [u32; 4] {
    [i.version, i.tx_id, i.column_1, i.column_2]
}

fn image_from(n: &[u32]) -> Image {
    Image {
        version: n[0],
        tx_id: n[1],
        column_1: n[2],
        column_2: n[3],
    }
}

fn write_record_numbers(target: &mut [u32], record: &Record) {
    target[0..5].copy_from_slice(&record.key.numbers());
    target[5] = number_of(&STATES, record.state);
    target[6..10].copy_from_slice(&image_numbers(&record.image));
    target[10] = number_of(&BEFORES, record.before_state);
    target[11..15].copy_from_slice(&image_numbers(&record.before));
    target[15] = record.prepare_clock;
}

fn record_from(n: &[u32]) -> Option<Record> {
    Some(Record {
        key: Key::from_numbers([n[0], n[1], n[2], n[3], n[4]]),
        state: chosen(&STATES, n[5])?,
        image: image_from(&n[6..10]),
        before_state: chosen(&BEFORES, n[10])?,
        before: image_from(&n[11..15]),
        prepare_clock: n[15],
    })
}

/// The records that rows of numbers stand for, if they may stand in a sheet. The other rows are spares.
fn records_from(numbers: &[u32]) -> Option<Vec<Record>> {
    let rows = above_spares(numbers, RECORD_NUMBERS, is_spare_row)?;
    let records: Option<Vec<Record>> = rows.into_iter().map(record_from).collect();
    records.filter(|r| record::keep_rules(r))
}

/// Record sheet to records: 16 numbers for each whole line.
pub fn records_to_numbers(sheet: &[u8], target: &mut [u32]) -> u32 {
    if target.len() != sheet.len() / record::LINE * RECORD_NUMBERS {
        return BAD_RECORDS;
    }
    let Some(records) = record::read_sheet(sheet) else {
        return BAD_RECORDS;
    };
    let (rows, spares) = target.split_at_mut(records.len() * RECORD_NUMBERS);
    for (row, record) in rows.chunks_mut(RECORD_NUMBERS).zip(&records) {
        write_record_numbers(row, record);
    }
    spares.fill(0);
    ACCEPTED
}

/// Records to record sheet: 108 bytes for each whole record.
pub fn numbers_to_records(numbers: &[u32], target: &mut [u8]) -> u32 {
    if target.len() != numbers.len() / RECORD_NUMBERS * record::LINE {
        return BAD_RECORDS;
    }
    let Some(records) = records_from(numbers) else {
        return BAD_RECORDS;
    };
    record::write_sheet(target, &records);
    ACCEPTED
}

fn write_coordinator_numbers(target: &mut [u32], coordinator: &Coordinator) {
    target[0] = coordinator.issued;
    for (number, unit) in target[1..HEAD_NUMBERS].iter_mut().zip(coordinator.units) {
        *number = number_of(&UNITS, unit);
    }
    let decisions = target[HEAD_NUMBERS..].iter_mut();
    for (number, decision) in decisions.zip(&coordinator.decisions) {
        *number = number_of(&DECISIONS, *decision);
    }
}

/// The coordinator that a row of numbers stands for, if it may stand in a sheet.
fn coordinator_from(numbers: &[u32]) -> Option<Coordinator> {
    if numbers.len() < HEAD_NUMBERS {
        return None;
    }
    let (head, lines) = numbers.split_at(HEAD_NUMBERS);
    let units: Option<Vec<Unit>> = head[1..].iter().map(|n| chosen(&UNITS, *n)).collect();
    let decisions: Option<Vec<Decision>> = lines.iter().map(|n| chosen(&DECISIONS, *n)).collect();
    let coordinator = Coordinator {
        issued: head[0],
        units: units?.try_into().unwrap(),
        small: [false; 9],
        decisions: decisions?,
    };
    coordinator.keeps_rules().then_some(coordinator)
}

/// Coordinator sheet to records: 10 numbers and one for each whole line after the head.
pub fn coordinator_to_numbers(sheet: &[u8], target: &mut [u32]) -> u32 {
    let decisions = (sheet.len() / coordinator::LINE).saturating_sub(1);
    if target.len() != HEAD_NUMBERS + decisions {
        return BAD_RECORDS;
    }
    let Some(coordinator) = coordinator::read_sheet(sheet) else {
        return BAD_COORDINATOR;
    };
    write_coordinator_numbers(target, &coordinator);
    ACCEPTED
}

/// Records to coordinator sheet: 15 bytes for the head and for each decision.
pub fn numbers_to_coordinator(numbers: &[u32], target: &mut [u8]) -> u32 {
    let decisions = numbers.len().saturating_sub(HEAD_NUMBERS);
    if target.len() != coordinator::LINE * (1 + decisions) {
        return BAD_RECORDS;
    }
    let Some(coordinator) = coordinator_from(numbers) else {
        return BAD_COORDINATOR;
    };
    coordinator::write_sheet(target, &coordinator);
    ACCEPTED
}
