//! How often it mattered that a number has several PREPARED lines: visits and reads that found its line undecided.

use super::{count, unseen};
use crate::exported::{refusal_of, Call};
use crate::make::expiry::{lines_of, reading_for};
use crate::plain::key::Key;
use crate::plain::record::{read_sheet, Record, State};
use crate::plain::store::Visit;
use crate::plain::transaction::Reading;
use crate::plain::{by_place, visitor, BUSY};
use crate::replay::line::Line;
use crate::replay::reply::Reply;
use std::fmt;

/// The calls that ask whether a number has expired.
const CALLS: [&str; 4] = ["visit", "read", "visit for C", "read by place"];

/// What such a call came to.
const KINDS: [&str; 3] = [
    "again, clocks differ",
    "12, line has expired",
    "12, no reading",
];

/// A visit or a read that found its line undecided.
pub struct Found<'a> {
    /// Its place among the calls.
    call: usize,
    key: &'a Key,
    now: u32,
    /// Whether it was answered *again*; else it was refused with 12.
    again: bool,
}

impl Found<'_> {
    /// The line of a replay, if it is such a call by its reply.
    pub fn in_replay<'a>(line: &'a Line, reply: &Reply) -> Option<Found<'a>> {
        let again = match reply {
            Reply::Visited(Visit::Again) | Reply::Read(Reading::Again) => true,
            Reply::Refused(BUSY) => false,
            _ => return None,
        };
        let (call, key, now) = match line {
            Line::Visit { key, now } => (0, key, *now),
            Line::Read { key, now, .. } => (1, key, *now),
            _ => return None,
        };
        Some(Found {
            call,
            key,
            now,
            again,
        })
    }

    /// The call of a function for C, if it is such a one by its answer.
    pub fn for_c(exported: &Call, answer: u64) -> Option<Found<'_>> {
        let (call, key, now, said_again) = match exported {
            Call::Visit { key, now } => (2, key, *now, 3),
            Call::At { asked, .. } if asked.call == by_place::READ => (3, &asked.key, asked.now, 2),
            _ => return None,
        };
        let again = answer == said_again;
        let found = again || refusal_of(exported, answer) == BUSY;
        found.then_some(Found {
            call,
            key,
            now,
            again,
        })
    }
}

#[derive(Default)]
pub struct Expiry {
    counts: [[u64; 3]; 4],
    /// Lines that the visiting program left PREPARED though they have expired themselves.
    left_prepared: u64,
}

impl Expiry {
    /// Notes a call and the record sheet before it or after: *again* and 12 leave it.
    pub fn note(&mut self, found: Option<Found>, records: &[u8]) {
        let Some(Found {
            call,
            key,
            now,
            again,
        }) = found
        else {
            return;
        };
        let records = read_sheet(records).expect("the call looked at a line");
        let line = records.iter().find(|line| line.key == *key);
        let line = line.expect("the call looked at this line");
        let lines = lines_of(&records, line.image.tx_id);
        let clocks: Vec<u32> = lines.iter().map(|line| line.prepare_clock).collect();
        let differ = clocks.iter().any(|clock| *clock != clocks[0]);
        let counts = &mut self.counts[call];
        counts[0] += u64::from(again && differ);
        counts[1] += u64::from(!again && line.has_expired(now));
        counts[2] += u64::from(!again && reading_for(&clocks).is_none());
    }

    /// Notes an output of the visiting program with both sheets. A line that it leaves PREPARED has an undecided owner.
    pub fn note_visits(&mut self, input: &[u8], output: &[u8]) {
        let Some((_, records, clock)) = visitor::parts(input) else {
            return;
        };
        let records = output.len().checked_sub(records.len());
        let records = records.and_then(|start| read_sheet(&output[start..]));
        let lines = records.unwrap_or_default().into_iter();
        let left = |line: &Record| line.state == State::Prepared && line.has_expired(clock);
        self.left_prepared += lines.filter(left).count() as u64;
    }

    /// What should have been seen and wasn't.
    pub fn amiss(&self) -> Vec<String> {
        let calls = CALLS.iter().zip(&self.counts);
        let calls = calls.flat_map(|(call, counts)| unseen(call, &KINDS, counts));
        let mut amiss: Vec<String> = calls.collect();
        if self.left_prepared == 0 {
            amiss.push("visiting program: a line left PREPARED that has expired".into());
        }
        amiss
    }
}

impl fmt::Display for Expiry {
    fn fmt(&self, out: &mut fmt::Formatter) -> fmt::Result {
        write!(out, "{:<15}", "expiry")?;
        for kind in KINDS {
            write!(out, "{kind:>24}")?;
        }
        for (call, counts) in CALLS.iter().zip(&self.counts) {
            write!(out, "\n{call:<15}")?;
            for number in counts {
                write!(out, "{:>24}", count(*number))?;
            }
        }
        let left = self.left_prepared;
        write!(
            out,
            "\nvisiting program: {left} lines left PREPARED that have expired themselves"
        )
    }
}
