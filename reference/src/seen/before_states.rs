//! Which before states lines of each state had, where the sheets were let pass, and where one was the only thing wrong; and
//! sheets refused because their lines have none.

use super::rows::{passes, Row, Rows, ASKED, FROM_NUMBERS};
use super::table::Table;
use crate::make::old_lines::{widened, BOOKKEEPING, RECORDS};
use crate::plain::numbers::RECORD_NUMBERS;
use crate::plain::record::read_sheet;
use crate::plain::two_sheets::read_bookkeeping;
use crate::plain::words::{Before, State, BEFORES, STATES};
use crate::plain::BAD_RECORDS;
use crate::replay::laid_out::LaidOut;
use std::fmt;

/// Lines that are let pass.
const RIGHT: [(State, Before); 4] = [
    (State::Absent, Before::Nothing),
    (State::Committed, Before::Nothing),
    (State::Prepared, Before::Absent),
    (State::Prepared, Before::Committed),
];

/// Lines that refusal 1 was given for, and the before state with which they would pass.
const WRONG: [(State, Before, Before); 8] = [
    (State::Absent, Before::Absent, Before::Nothing),
    (State::Absent, Before::Committed, Before::Nothing),
    (State::Committed, Before::Absent, Before::Nothing),
    (State::Committed, Before::Committed, Before::Nothing),
    (State::Prepared, Before::Nothing, Before::Absent),
    (State::Prepared, Before::Nothing, Before::Committed),
    (State::Prepared, Before::Absent, Before::Committed),
    (State::Prepared, Before::Committed, Before::Absent),
];

/// The place of sheets whose lines have no before state, behind the lines right and wrong.
const OLD: usize = RIGHT.len() + WRONG.len();

pub struct BeforeStates(Table);

impl Default for BeforeStates {
    fn default() -> BeforeStates {
        let right = RIGHT.map(|(state, before)| format!("{} over {}", state.word(), before.word()));
        let wrong = WRONG.map(|(state, before, other)| {
            let [state, before, other] = [state.word(), before.word(), other.word()];
            format!("1 by {state} over {before}, not {other}")
        });
        let old = "1 by lines without it, of a length that fits".to_string();
        let kinds = right.into_iter().chain(wrong).chain([old]);
        BeforeStates(Table::new("before states", ASKED, kinds))
    }
}

/// The place of a line's kind, if its numbers are those of words.
fn kind_of(row: &Row, refused: bool) -> Option<usize> {
    let state = *STATES.get(row[5] as usize)?;
    let before = *BEFORES.get(row[10] as usize)?;
    if !refused {
        return RIGHT.iter().position(|kind| *kind == (state, before));
    }
    let with = |other: &usize| {
        let mut row = *row;
        row[10] = *other as u32;
        passes(&row)
    };
    let other = (0..BEFORES.len()).find(with)?;
    let kind = (state, before, BEFORES[other]);
    let place = WRONG.iter().position(|wrong| *wrong == kind)?;
    (!passes(row)).then_some(RIGHT.len() + place)
}

/// Whether these are the numbers of records without before states, as many as whole records of today have.
fn are_old(numbers: &[u32]) -> bool {
    let old = RECORD_NUMBERS - 1;
    let fits = numbers.len().is_multiple_of(RECORD_NUMBERS) && numbers.len().is_multiple_of(old);
    let passes = |row: &[u32]| {
        let with = |before| [&row[..10], &[before], &row[10..]].concat();
        let rows = [0, 1, 2].map(|before| with(before).try_into().expect("it has one more"));
        rows.iter().any(passes)
    };
    fits && numbers.chunks(old).all(passes)
}

impl BeforeStates {
    /// Notes the lines that were let pass or refused.
    pub fn note(&mut self, rows: &Rows) {
        let kinds = rows.rows.iter();
        let kinds = kinds.filter_map(|row| kind_of(row, rows.refused));
        self.0.count(rows.asked, kinds);
    }

    /// Notes sheets of old lines, with nothing else wrong, as long as today's.
    pub fn note_old(&mut self, asked: usize, refusal: u32, sheets: &LaidOut) {
        match sheets {
            LaidOut::Joined(sheets) => self.note_old_records(asked, refusal, &sheets.records),
            LaidOut::Two(sheets) => {
                let sheet = &sheets.bookkeeping;
                let wide =
                    || widened(sheet, BOOKKEEPING).and_then(|sheet| read_bookkeeping(&sheet));
                let fits = sheet.len().is_multiple_of(BOOKKEEPING.line);
                let old = refusal == BAD_RECORDS && fits && wide().is_some();
                self.0.count(asked + 1, old.then_some(OLD));
            }
        }
    }

    pub fn note_old_records(&mut self, asked: usize, refusal: u32, records: &[u8]) {
        let wide = || widened(records, RECORDS).and_then(|sheet| read_sheet(&sheet));
        let fits = records.len().is_multiple_of(RECORDS.line);
        let old = refusal == BAD_RECORDS && fits && wide().is_some();
        self.0.count(asked, old.then_some(OLD));
    }

    pub fn note_old_numbers(&mut self, refusal: u32, numbers: &[u32]) {
        let old = refusal == BAD_RECORDS && are_old(numbers);
        self.0.count(FROM_NUMBERS, old.then_some(OLD));
    }

    pub fn amiss(&self) -> Vec<String> {
        self.0.amiss()
    }
}

impl fmt::Display for BeforeStates {
    fn fmt(&self, out: &mut fmt::Formatter) -> fmt::Result {
        self.0.fmt(out)
    }
}
