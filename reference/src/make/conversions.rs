//! Sheets and lists of numbers to convert: good ones, damaged ones, and targets of another length than needed.

use super::absence::spoil_numbers;
use super::damage::before_state;
use super::old_lines;
use super::random::Random;
use super::sheets::{of_size, Mix, Size};
use super::spares::fill_up;
use super::{any, sheets, Sheets};
use crate::conversions::{by_plain, Conversion, Lent};
use crate::plain::numbers::{HEAD_NUMBERS, RECORD_NUMBERS};
use crate::plain::{coordinator, record};

/// Values at an end of some field's range, and past it.
const EDGES: [u32; 19] = [
    0,
    1,
    2,
    3,
    4,
    5,
    9,
    10,
    99,
    100,
    999,
    1_000,
    99_998,
    99_999,
    100_000,
    99_999_999,
    100_000_000,
    u32::MAX - 1,
    u32::MAX,
];

/// One conversion and what it is lent.
pub fn conversion(random: &mut Random) -> (Conversion, Lent) {
    match random.below(4) {
        0 => (Conversion::ReadRecords, read_records(random)),
        1 => (Conversion::WriteRecords, write_records(random)),
        2 => (Conversion::ReadCoordinator, read_coordinator(random)),
        _ => (Conversion::WriteCoordinator, write_coordinator(random)),
    }
}

fn read_records(random: &mut Random) -> Lent {
    let mut sheet = any_sheets(random).records;
    if random.once_in(8) {
        before_state(random, &mut sheet, old_lines::RECORDS);
    }
    let needed = sheet.len() / record::LINE * RECORD_NUMBERS;
    let numbers = target(random, needed, RECORD_NUMBERS);
    Lent { sheet, numbers }
}

fn read_coordinator(random: &mut Random) -> Lent {
    let sheet = any_sheets(random).coordinator;
    let decisions = (sheet.len() / coordinator::LINE).saturating_sub(1);
    let numbers = target(random, HEAD_NUMBERS + decisions, 1);
    Lent { sheet, numbers }
}

fn write_records(random: &mut Random) -> Lent {
    let sheet = good_sheets(random).records;
    let needed = sheet.len() / record::LINE * RECORD_NUMBERS;
    let mut numbers = said(Conversion::ReadRecords, sheet, needed);
    if !random.once_in(3) {
        change_rows(random, &mut numbers);
    }
    let needed = numbers.len() / RECORD_NUMBERS * record::LINE;
    let sheet = bytes(target(random, needed, record::LINE));
    Lent { sheet, numbers }
}

fn write_coordinator(random: &mut Random) -> Lent {
    let sheet = good_sheets(random).coordinator;
    let needed = HEAD_NUMBERS + sheet.len() / coordinator::LINE - 1;
    let mut numbers = said(Conversion::ReadCoordinator, sheet, needed);
    if !random.once_in(3) {
        change_coordinator(random, &mut numbers);
    }
    let decisions = numbers.len().saturating_sub(HEAD_NUMBERS);
    let needed = (1 + decisions) * coordinator::LINE;
    let sheet = bytes(target(random, needed, coordinator::LINE));
    Lent { sheet, numbers }
}

/// Sheets of every kind; some are all PREPARED, whose lines have the most fields.
fn any_sheets(random: &mut Random) -> Sheets {
    match random.below(3) {
        0 => good_sheets(random),
        _ => any(random),
    }
}

/// Accepted sheets, but for seldom one with a line too many.
fn good_sheets(random: &mut Random) -> Sheets {
    if !random.once_in(40) {
        return sheets::accepted(random);
    }
    let decisions = random.pick(&[1, 998, 999, 1_000]);
    let size = Size {
        records: random.pick(&[1, 499, 500, 501]),
        decisions,
        issued: random.below(decisions),
    };
    let mut sheets = of_size(random, size, Mix::Thirds);
    if random.once_in(2) {
        fill_up(&mut sheets.records, record::LINE, random.pick(&[500, 501]));
    }
    sheets
}

/// The numbers that a sheet says; of a sheet that is refused, those of a head or nothing.
fn said(conversion: Conversion, sheet: Vec<u8>, needed: usize) -> Vec<u32> {
    let numbers = vec![0; needed];
    let mut lent = Lent { sheet, numbers };
    by_plain(conversion, &mut lent);
    lent.numbers
}

/// A target of the length needed, mostly; else a little or much shorter or longer. Its numbers are any.
fn target(random: &mut Random, needed: usize, one: usize) -> Vec<u32> {
    let length = match random.below(12) {
        0 => needed.saturating_sub(1),
        1 => needed + 1,
        2 => needed.saturating_sub(one),
        3 => needed + one,
        4 => 0,
        _ => needed,
    };
    (0..length).map(|_| random.draw() as u32).collect()
}

fn bytes(numbers: Vec<u32>) -> Vec<u8> {
    numbers.into_iter().map(|number| number as u8).collect()
}

/// Another number in one field, other lengths, rows in another order, or a spare among them.
fn change_rows(random: &mut Random, numbers: &mut Vec<u32>) {
    let rows = numbers.len() / RECORD_NUMBERS;
    let row = random.below(rows) * RECORD_NUMBERS;
    let other = random.below(rows) * RECORD_NUMBERS;
    let place = row + random.below(RECORD_NUMBERS);
    match random.below(25) {
        0 | 10 => length(random, numbers, RECORD_NUMBERS),
        1 => numbers.copy_within(row..row + 5, other),
        2 => (0..RECORD_NUMBERS).for_each(|i| numbers.swap(row + i, other + i)),
        3 => numbers[place] = numbers[place].wrapping_add(1),
        4 => numbers[place] = numbers[place].wrapping_sub(1),
        12 => numbers[row..row + RECORD_NUMBERS].fill(0),
        13 => drop(numbers.splice(row..row, [0; RECORD_NUMBERS])),
        14 | 15 => spare_row(random, numbers),
        5 | 11 => numbers[row + 5] = random.pick(&[0, 1, 2, 3, 3]),
        16..=19 => {
            let row = prepared_row(random, numbers) * RECORD_NUMBERS;
            numbers[row + 10] = random.pick(&[0, 1, 2, 3, 3]);
        }
        20 => without_before_states(random, numbers),
        21..=23 => spoil_numbers(random, numbers),
        _ => numbers[place] = random.pick(&EDGES),
    }
}

/// A row whose state is PREPARED, or any where there is none.
fn prepared_row(random: &mut Random, numbers: &[u32]) -> usize {
    let rows = numbers.chunks(RECORD_NUMBERS).enumerate();
    let prepared = rows.filter(|(_, row)| row.get(5) == Some(&2));
    let places: Vec<usize> = prepared.map(|(place, _)| place).collect();
    match places.is_empty() {
        true => random.below(numbers.len() / RECORD_NUMBERS),
        false => random.pick(&places),
    }
}

/// Rows of 15 numbers, as records were before they had a before state. Sixteen are as long as fifteen of today.
fn without_before_states(random: &mut Random, numbers: &mut Vec<u32>) {
    let size = Size {
        records: random.pick(&[1, 15, 16, 16, 16, 32]),
        decisions: 3,
        issued: 2,
    };
    let sheet = of_size(random, size, Mix::Thirds).records;
    let rows = said(
        Conversion::ReadRecords,
        sheet,
        size.records * RECORD_NUMBERS,
    );
    let rows = rows.chunks(RECORD_NUMBERS);
    let narrowed = rows.flat_map(|row| [&row[..10], &row[11..]].concat());
    *numbers = narrowed.collect();
}

/// Spares below the others, at times with a number in the last, up to as many rows as there may be or one more.
fn spare_row(random: &mut Random, numbers: &mut Vec<u32>) {
    let rows = numbers.len() / RECORD_NUMBERS;
    let rows = match random.below(8) {
        0 => 500,
        1 => 501,
        _ => rows + 1 + random.below(2),
    };
    numbers.resize(rows * RECORD_NUMBERS, 0);
    if random.once_in(2) {
        let any = random.below(RECORD_NUMBERS);
        let place = numbers.len() - 1 - random.pick(&[0, any]);
        numbers[place] = random.pick(&[1, 1, 2, u32::MAX]);
    }
}

/// Another count, unit or decision, or another length.
fn change_coordinator(random: &mut Random, numbers: &mut Vec<u32>) {
    let decisions = (numbers.len() - HEAD_NUMBERS) as u32;
    let place = random.below(numbers.len());
    match random.below(9) {
        0 | 8 => length(random, numbers, 1),
        1 => numbers[0] = decisions + random.below(3) as u32,
        2 => numbers[0] = numbers[0].saturating_sub(1),
        3 => numbers[1 + random.below(9)] = random.below(7) as u32,
        4 | 5 if numbers[0] < decisions => {
            let above = (decisions - numbers[0]) as usize;
            let place = HEAD_NUMBERS + numbers[0] as usize + random.below(above);
            numbers[place] = 1 + random.below(3) as u32;
        }
        6 => numbers[place] = random.below(4) as u32,
        _ => numbers[place] = random.pick(&EDGES),
    }
}

/// A number, a few or a whole row too many or too few, or none at all.
fn length(random: &mut Random, numbers: &mut Vec<u32>, row: usize) {
    let length = numbers.len();
    match random.below(7) {
        0 => numbers.truncate(length - 1),
        1 => numbers.push(0),
        2 => numbers.truncate(length.saturating_sub(row)),
        3 => numbers.extend_from_within(length - row..),
        4 => numbers.truncate(random.below(length)),
        // A coordinator's head alone, with nothing else wrong.
        5 => {
            numbers.truncate(HEAD_NUMBERS);
            numbers[0] = 0;
        }
        _ => numbers.clear(),
    }
}
