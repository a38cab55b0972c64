//! What stood in the lines that calls were made on, by every way in.

use super::absence::Absence;
use super::before_states::BeforeStates;
use super::rows::{Rows, FROM_NUMBERS};
use crate::replay::laid_out::LaidOut;
use std::fmt;

#[derive(Default)]
pub struct LinesMet {
    before_states: BeforeStates,
    absence: Absence,
}

impl LinesMet {
    fn note_rows(&mut self, rows: &Rows) {
        self.before_states.note(rows);
        self.absence.note(rows);
    }

    /// Notes what a call was answered on these sheets.
    pub fn note(&mut self, asked: usize, refusal: u32, sheets: &LaidOut) {
        self.note_rows(&Rows::of(asked, refusal, sheets));
        self.before_states.note_old(asked, refusal, sheets);
    }

    pub fn note_records(&mut self, asked: usize, refusal: u32, records: &[u8]) {
        self.note_rows(&Rows::of_records(asked, refusal, records));
        self.before_states.note_old_records(asked, refusal, records);
    }

    /// Notes numbers that were to be written to a sheet.
    pub fn note_numbers(&mut self, refusal: u32, numbers: &[u32]) {
        self.note_rows(&Rows::of_numbers(FROM_NUMBERS, refusal, numbers));
        self.before_states.note_old_numbers(refusal, numbers);
    }

    pub fn amiss(&self) -> Vec<String> {
        let mut amiss = self.before_states.amiss();
        amiss.extend(self.absence.amiss());
        amiss
    }
}

impl fmt::Display for LinesMet {
    fn fmt(&self, out: &mut fmt::Formatter) -> fmt::Result {
        write!(out, "{}\n\n{}", self.before_states, self.absence)
    }
}
