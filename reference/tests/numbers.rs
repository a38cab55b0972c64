//! Sheets to rows of numbers and back: round trips, refusals, and targets left as they were.

use reference::make::random::Random;
use reference::make::sheets::accepted;
use reference::plain::numbers::{
    coordinator_to_numbers, numbers_to_coordinator, numbers_to_records, records_to_numbers,
};

const MARK: u32 = 77;

/// The numbers of an accepted record sheet.
fn record_numbers(sheet: &[u8]) -> Vec<u32> {
    let mut numbers = vec![MARK; sheet.len() / 108 * 16];
    assert_eq!(records_to_numbers(sheet, &mut numbers), 0);
    numbers
}

/// The numbers of an accepted coordinator sheet.
fn coordinator_numbers(sheet: &[u8]) -> Vec<u32> {
    let mut numbers = vec![MARK; 10 + sheet.len() / 15 - 1];
    assert_eq!(coordinator_to_numbers(sheet, &mut numbers), 0);
    numbers
}

/// What writing these records answers; a refusal must leave the target as it was.
fn write_records(numbers: &[u32], length: usize) -> u32 {
    let mut target = vec![b'x'; length];
    let refusal = numbers_to_records(numbers, &mut target);
    assert!(refusal == 0 || target.iter().all(|b| *b == b'x'));
    refusal
}

fn write_coordinator(numbers: &[u32], length: usize) -> u32 {
    let mut target = vec![b'x'; length];
    let refusal = numbers_to_coordinator(numbers, &mut target);
    assert!(refusal == 0 || target.iter().all(|b| *b == b'x'));
    refusal
}

fn read_records(sheet: &[u8], length: usize) -> u32 {
    let mut target = vec![MARK; length];
    let refusal = records_to_numbers(sheet, &mut target);
    assert!(refusal == 0 || target.iter().all(|n| *n == MARK));
    refusal
}

fn read_coordinator(sheet: &[u8], length: usize) -> u32 {
    let mut target = vec![MARK; length];
    let refusal = coordinator_to_numbers(sheet, &mut target);
    assert!(refusal == 0 || target.iter().all(|n| *n == MARK));
    refusal
}

#[test]
fn sheets_come_back() {
    let mut random = Random::new(3);
    for _ in 0..2_000 {
        let sheets = accepted(&mut random);
        let mut records = vec![0; sheets.records.len()];
        assert_eq!(
            numbers_to_records(&record_numbers(&sheets.records), &mut records),
            0
        );
        assert_eq!(records, sheets.records);
        let mut coordinator = vec![0; sheets.coordinator.len()];
        let numbers = coordinator_numbers(&sheets.coordinator);
        assert_eq!(numbers_to_coordinator(&numbers, &mut coordinator), 0);
        assert_eq!(coordinator, sheets.coordinator);
    }
}

const LINE: &[u8; 108] = b" 3  4 15     6    17  PREPARED    10   8      500      250 COMMITTED     9   7       11       12       5000\n";
const ROW: [u32; 16] = [3, 4, 15, 6, 17, 2, 10, 8, 500, 250, 2, 9, 7, 11, 12, 5000];

#[test]
fn a_record_in_numbers() {
    assert_eq!(record_numbers(LINE), ROW);
    let committed = b" 9 99 99 99999     0 COMMITTED     1   0        0        0         -     0   0        0        0          0\n";
    let row = [9, 99, 99, 99_999, 0, 1, 1, 0, 0, 0, 0, 0, 0, 0, 0, 0];
    assert_eq!(record_numbers(committed), row);
}

#[test]
fn a_coordinator_in_numbers() {
    let sheet = b"   3 RPTNSSSSR\n   1 COMMITTED\n   2   ABORTED\n   3         -\n   4         -\n";
    let row = [3, 0, 1, 2, 3, 4, 4, 4, 4, 0, 1, 2, 0, 0];
    assert_eq!(coordinator_numbers(sheet), row);
}

#[test]
fn records_that_break_a_rule() {
    let highest = [
        9, 99, 99, 99_999, 99_999, 2, 99_999, 999, 99_999_999, 99_999_999,
    ];
    for (place, most) in highest.into_iter().enumerate() {
        let mut row = ROW;
        row[place] = most + 1;
        assert_eq!(write_records(&row, 108), 1, "{row:?}");
        row[place] = u32::MAX;
        assert_eq!(write_records(&row, 108), 1, "{row:?}");
    }
    for (place, value) in [
        (0, 0),
        (1, 0),
        (2, 0),
        (5, 0),
        (5, 1),
        (6, 11),
        (7, 0),
        (10, 0),
        (10, 1),
        (10, 3),
        (10, u32::MAX),
        (11, 0),
        (11, u32::MAX),
        (12, 1_000),
        (14, 100_000_000),
    ] {
        let mut row = ROW;
        row[place] = value;
        assert_eq!(write_records(&row, 108), 1, "{row:?}");
    }
    assert_eq!(write_records(&[ROW, ROW].concat(), 216), 1);
    let mut row = ROW;
    row[15] = u32::MAX;
    assert_eq!(write_records(&row, 108), 0);
}

#[test]
fn record_lengths() {
    assert_eq!(write_records(&ROW, 108), 0);
    assert_eq!(write_records(&ROW, 107), 1);
    assert_eq!(write_records(&ROW, 109), 1);
    assert_eq!(write_records(&ROW, 216), 1);
    assert_eq!(write_records(&ROW[..15], 0), 1);
    assert_eq!(write_records(&[], 0), 1);
    assert_eq!(read_records(LINE, 16), 0);
    assert_eq!(read_records(LINE, 15), 1);
    assert_eq!(read_records(LINE, 32), 1);
    assert_eq!(read_records(b"", 0), 1);
    assert_eq!(read_records(&LINE[..107], 0), 1);
}

#[test]
fn coordinator_lengths_go_before_its_rules() {
    let sheet = b"   1 SSSSSSSSS\n   1 COMMITTED\n";
    assert_eq!(read_coordinator(sheet, 11), 0);
    assert_eq!(read_coordinator(sheet, 10), 1);
    assert_eq!(read_coordinator(sheet, 12), 1);
    assert_eq!(read_coordinator(&sheet[..29], 10), 2);
    assert_eq!(read_coordinator(&sheet[..29], 11), 1);
    assert_eq!(read_coordinator(&sheet[..15], 10), 2);
    assert_eq!(read_coordinator(b"", 10), 2);
    assert_eq!(read_coordinator(b"", 0), 1);
    let row = [1, 4, 4, 4, 4, 4, 4, 4, 4, 4, 1];
    assert_eq!(write_coordinator(&row, 30), 0);
    assert_eq!(write_coordinator(&row, 29), 1);
    assert_eq!(write_coordinator(&row, 45), 1);
    assert_eq!(write_coordinator(&row[..10], 15), 2);
    assert_eq!(write_coordinator(&row[..9], 15), 2);
    assert_eq!(write_coordinator(&[], 15), 2);
    assert_eq!(write_coordinator(&[], 0), 1);
}

#[test]
fn coordinators_that_break_a_rule() {
    let row = [1, 4, 4, 4, 4, 4, 4, 4, 4, 4, 1, 0];
    assert_eq!(write_coordinator(&row, 45), 0);
    for (place, value) in [
        (0, 3),
        (0, u32::MAX),
        (0, 0),
        (1, 5),
        (9, u32::MAX),
        (10, 3),
        (11, 1),
        (11, 2),
    ] {
        let mut row = row;
        row[place] = value;
        assert_eq!(write_coordinator(&row, 45), 2, "{row:?}");
    }
    let most = [vec![999, 0, 0, 0, 0, 0, 0, 0, 0, 0], vec![2; 999]].concat();
    assert_eq!(write_coordinator(&most, 15_000), 0);
    let over = [most, vec![0]].concat();
    assert_eq!(write_coordinator(&over, 15_015), 2);
}
