//! What calls by place have met: every refusal of every call, every step, how closes ended and what reads answered.

use super::answers::{Answers, Row};
use super::closes::Closes;
use super::steps::{Steps, ADVANCES};
use super::{named, unseen};
use crate::plain::by_place::{Asked, ADVANCE, CLOSE, FIRST, READ, SECOND};
use crate::plain::transaction::Transaction;
use crate::replay::Layout;
use std::fmt;

/// The calls by their numbers.
const CALLS: &[Row] = &[
    ("begin", &[0, 1, 2, 3, 8]),
    ("begin checked", &[0, 1, 2, 3, 8]),
    ("read", &[0, 1, 2, 3, 4, 5, 6, 9, 12]),
    ("put", &[0, 1, 2, 3, 4, 5, 6, 7, 10, 11]),
    ("advance", &[0, 1, 2, 3, 4]),
    ("abort", &[0, 1, 2, 3, 4]),
    ("close", &[0, 1, 2, 3, 4]),
    ("no such call", &[1, 2, 3]),
];

const CALLS_ON_TWO: &[Row] = &[
    ("begin", &[0, 1, 2, 13, 3, 8]),
    ("begin checked", &[0, 1, 2, 13, 3, 8]),
    ("read", &[0, 1, 2, 13, 3, 4, 5, 6, 9, 12]),
    ("put", &[0, 1, 2, 13, 3, 4, 5, 6, 7, 10, 11]),
    ("advance", &[0, 1, 2, 13, 3, 4]),
    ("abort", &[0, 1, 2, 13, 3, 4]),
    ("close", &[0, 1, 2, 13, 3, 4]),
    ("second", &[0, 1, 2, 13, 3, 4, 5, 6, 7, 9, 12]),
    ("no such call", &[1, 2, 13, 3]),
];

/// What a read answers, on two sheets by its first call and by its second.
const READINGS: &[&str] = &["absent", "columns", "again"];
const READINGS_ON_TWO: &[&str] = &[
    "absent",
    "columns",
    "again",
    "first",
    "second absent",
    "second columns",
    "second again",
];
const FIRST_READING: usize = 3;

pub struct ByPlace {
    calls: Answers,
    steps: Steps,
    closes: Closes,
    readings: &'static [&'static str],
    read: Vec<u64>,
}

impl ByPlace {
    pub fn new(layout: Layout) -> ByPlace {
        let (calls, readings) = match layout {
            Layout::Joined => (CALLS, READINGS),
            Layout::Two => (CALLS_ON_TWO, READINGS_ON_TWO),
        };
        ByPlace {
            calls: Answers::new(calls),
            steps: Steps::new("step to", &ADVANCES),
            closes: Closes::default(),
            readings,
            read: vec![0; readings.len()],
        }
    }

    /// Notes a call and its refusal.
    pub fn note(&mut self, asked: &Asked, refusal: u32) {
        let call = self.calls.last_row().min(asked.call as usize);
        self.calls.note(call, refusal);
    }

    /// Notes an accepted call's answer, and the transaction before and after it.
    pub fn note_accepted(
        &mut self,
        asked: &Asked,
        answer: u64,
        taken: &Transaction,
        returned: &Transaction,
    ) {
        match asked.call {
            READ if answer >= FIRST => self.read[FIRST_READING] += 1,
            READ => self.read[answer as usize] += 1,
            SECOND => self.read[FIRST_READING + 1 + answer as usize] += 1,
            ADVANCE => self.steps.note(taken, returned),
            CLOSE => self
                .closes
                .note(asked.limit, answer as u32, taken, returned),
            _ => {}
        }
    }

    pub fn total(&self) -> u64 {
        self.calls.total()
    }

    /// What should have been seen and wasn't, or was seen and shouldn't have been.
    pub fn amiss(&self) -> Vec<String> {
        let mut amiss = self.calls.amiss();
        amiss.extend(self.steps.amiss("advance"));
        amiss.extend(self.closes.amiss("close"));
        amiss.extend(unseen("read", self.readings, &self.read));
        let by_place = amiss.into_iter();
        by_place.map(|what| format!("by place, {what}")).collect()
    }
}

impl fmt::Display for ByPlace {
    fn fmt(&self, out: &mut fmt::Formatter) -> fmt::Result {
        write!(
            out,
            "{}\n\n{}\n\n{}\n\n",
            self.calls, self.steps, self.closes
        )?;
        write!(out, "read: {}", named(self.readings, &self.read))
    }
}
