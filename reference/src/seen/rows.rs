//! The lines that a call was made on, as numbers, whatever rules they break.

use crate::make::damage::RECORD_LINE;
use crate::make::two_sheets::BOOKKEEPING_LINE;
use crate::plain::field::read_figure;
use crate::plain::numbers::{numbers_to_records, RECORD_NUMBERS};
use crate::plain::record::LINE;
use crate::plain::words::{Before, State, BEFORES, STATES};
use crate::plain::{ACCEPTED, BAD_RECORDS};
use crate::replay::laid_out::LaidOut;

/// By what the lines were looked at. Those on two sheets come behind those on the joined one.
pub const ASKED: &[&str] = &[
    "replay",
    "replay of two sheets",
    "for C",
    "for C on two sheets",
    "visiting program",
    "to numbers",
    "from numbers",
];
pub const REPLAY: usize = 0;
pub const FOR_C: usize = 2;
pub const ON_VISITS: usize = 4;
pub const TO_NUMBERS: usize = 5;
pub const FROM_NUMBERS: usize = 6;

/// Of long sheets only the first lines are looked at, and fewer of those that are let pass, since there are many.
const MOST_LINES: usize = 60;
const MOST_PASSED: usize = 16;

/// The numbers of a record.
pub type Row = [u32; RECORD_NUMBERS];

/// Columns of a record line and what they hold.
const FIGURES: [(usize, usize, usize); 14] = [
    (0, 0, 2),
    (1, 2, 5),
    (2, 5, 8),
    (3, 8, 14),
    (4, 14, 20),
    (6, 30, 36),
    (7, 36, 40),
    (8, 40, 49),
    (9, 49, 58),
    (11, 68, 74),
    (12, 74, 78),
    (13, 78, 87),
    (14, 87, 96),
    (15, 96, 107),
];

pub struct Rows {
    /// By who asked.
    pub asked: usize,
    /// Whether refusal 1 was given.
    pub refused: bool,
    pub rows: Vec<Row>,
}

/// The numbers of a record line that is well set.
fn row_of(line: &[u8]) -> Option<Row> {
    let state = State::read(&line[20..30])?;
    let before = Before::read(&line[58..68])?;
    let mut row = [0; RECORD_NUMBERS];
    row[5] = STATES.iter().position(|other| *other == state)? as u32;
    row[10] = BEFORES.iter().position(|other| *other == before)? as u32;
    for (place, start, end) in FIGURES {
        row[place] = read_figure(&line[start..end])?;
    }
    Some(row)
}

/// A bookkeeping line as a record line whose columns are 0.
fn joined(line: &[u8]) -> Vec<u8> {
    [&line[..40], b"        0        0", &line[40..]].concat()
}

/// Whether the record could stand in a sheet alone.
pub fn passes(row: &Row) -> bool {
    numbers_to_records(row, &mut [0; LINE]) == ACCEPTED
}

fn lines(refusal: u32) -> usize {
    match refusal {
        BAD_RECORDS => MOST_LINES,
        _ => MOST_PASSED,
    }
}

impl Rows {
    fn new(asked: usize, refusal: u32, rows: Vec<Row>) -> Rows {
        Rows {
            asked,
            refused: refusal == BAD_RECORDS,
            rows,
        }
    }

    /// Of sheets on which a call was answered so. Any answer but 1 lets their lines pass.
    pub fn of(asked: usize, refusal: u32, sheets: &LaidOut) -> Rows {
        match sheets {
            LaidOut::Joined(sheets) => Rows::of_records(asked, refusal, &sheets.records),
            LaidOut::Two(sheets) => {
                let lines = sheets.bookkeeping.chunks_exact(BOOKKEEPING_LINE);
                let lines = lines.take(self::lines(refusal));
                let rows = lines.filter_map(|line| row_of(&joined(line)));
                Rows::new(asked + 1, refusal, rows.collect())
            }
        }
    }

    pub fn of_records(asked: usize, refusal: u32, records: &[u8]) -> Rows {
        let lines = records.chunks_exact(RECORD_LINE).take(lines(refusal));
        Rows::new(asked, refusal, lines.filter_map(row_of).collect())
    }

    pub fn of_numbers(asked: usize, refusal: u32, numbers: &[u32]) -> Rows {
        let rows = numbers.chunks_exact(RECORD_NUMBERS).take(lines(refusal));
        let rows = rows.map(|row| row.try_into().expect("it is cut so long"));
        Rows::new(asked, refusal, rows.collect())
    }
}
