//! What a replay's calls on two sheets have met: every refusal of every call, every step, and what small letters change.

use super::answers::{Answers, Row};
use super::steps::{Steps, ADVANCES};
use super::two_kinds::{of_ill_formed, of_line, of_read, of_refusal, of_step, Kind, KINDS};
use super::unseen;
use crate::plain::transaction::Transaction;
use crate::plain::ILL_FORMED;
use crate::replay::laid_out::LaidOut;
use crate::replay::line::Line;
use crate::replay::reply::Reply;
use std::fmt;

/// The calls in the order of those on a joined sheet, and the second call of a read.
const CALLS: &[Row] = &[
    ("check", &[0, 1, 2, 13]),
    ("begin", &[0, 1, 2, 13, 8]),
    ("read", &[0, 1, 2, 13, 3, 4, 5, 6, 9, 12]),
    ("put", &[0, 1, 2, 13, 3, 4, 5, 6, 7, 10, 11]),
    ("advance", &[0, 1, 2, 13, 3, 4]),
    ("abort", &[0, 1, 2, 13, 3, 4]),
    ("close", &[0, 1, 2, 13, 3, 4]),
    ("visit", &[0, 1, 2, 13, 5, 6, 12]),
    ("lookup", &[0, 1, 13, 5]),
    ("line", &[0]),
    ("add", &[0, 1, 2, 13, 5, 14, 15]),
    ("remove", &[0, 1, 2, 13, 5, 6, 16]),
    ("second", &[0, 1, 2, 13, 3, 4, 5, 6, 7, 9, 12]),
];

pub struct OnTwoSheets {
    calls: Answers,
    steps: Steps,
    kinds: [u64; KINDS.len()],
}

impl Default for OnTwoSheets {
    fn default() -> OnTwoSheets {
        OnTwoSheets {
            calls: Answers::new(CALLS),
            steps: Steps::new("step to", &ADVANCES),
            kinds: [0; KINDS.len()],
        }
    }
}

impl OnTwoSheets {
    pub fn note(&mut self, call: usize, refusal: u32) {
        self.calls.note(call, refusal);
    }

    pub fn total(&self) -> u64 {
        self.calls.total()
    }

    fn count(&mut self, kinds: impl IntoIterator<Item = Kind>) {
        for kind in kinds {
            self.kinds[kind as usize] += 1;
        }
    }

    /// Notes which kinds a call is of, by the sheets before it, the transaction that it took and the reply.
    pub fn note_kinds(
        &mut self,
        line: &Line,
        taken: Option<&Transaction>,
        reply: &Reply,
        before: &LaidOut,
    ) {
        if let (LaidOut::Two(sheets), Reply::Refused(refusal)) = (before, reply) {
            self.count(of_refusal(*refusal, sheets));
        }
        if let Line::LineOf { sheet, .. } = line {
            self.count(of_line(*sheet, reply, before));
        }
        let (Some(taken), Some(store)) = (taken, before.store()) else {
            return;
        };
        match reply {
            Reply::Read(reading) => self.count(of_read(line, taken, reading, &store)),
            Reply::Advanced(returned) => {
                self.steps.note(taken, returned);
                self.count(of_step(taken, returned, &store));
            }
            Reply::Refused(ILL_FORMED) => self.count(of_ill_formed(taken, &store)),
            _ => {}
        }
    }

    /// What should have been seen and wasn't, or was seen and shouldn't have been.
    pub fn amiss(&self) -> Vec<String> {
        let mut amiss = self.calls.amiss();
        amiss.extend(self.steps.amiss("advance"));
        amiss.extend(unseen("kind", &KINDS, &self.kinds));
        amiss
    }
}

impl fmt::Display for OnTwoSheets {
    fn fmt(&self, out: &mut fmt::Formatter) -> fmt::Result {
        write!(out, "{}\n\n{}\n", self.calls, self.steps)?;
        for (kind, count) in KINDS.iter().zip(&self.kinds) {
            write!(out, "\n{count:>8}  {kind}")?;
        }
        Ok(())
    }
}
