//! The sheets and the transactions in sixteen slots: what the lines of a replay work on.

use super::laid_out::LaidOut;
use super::line::{Line, SLOTS};
use super::reply::Reply;
use crate::plain;
use crate::plain::key::Key;
use crate::plain::request::{Answer, Request};
use crate::plain::transaction::{Entry, Transaction};

pub struct ReplayState {
    pub sheets: LaidOut,
    /// A slot that no call has used is all 0.
    pub slots: [Transaction; SLOTS],
}

impl ReplayState {
    pub fn new(sheets: LaidOut) -> ReplayState {
        ReplayState {
            sheets,
            slots: [Transaction::begun(0, false); SLOTS],
        }
    }

    /// Makes the call of a line. A refusal leaves sheets and slots as they were.
    pub fn make(&mut self, line: &Line) -> Reply {
        match *line {
            Line::Check => self.check(),
            Line::Lookup { key } => self.rank(key),
            Line::LineOf { sheet, key } => self.line_of(sheet, key),
            Line::Show { slot } => Reply::Shown(self.slots[slot]),
            Line::Set { slot, fields } => {
                self.slots[slot] = self.slots[slot].with_fields(fields);
                Reply::Done
            }
            Line::Entry {
                slot,
                place,
                numbers,
            } => {
                self.slots[slot].entries[place] = Entry::from_numbers(numbers);
                Reply::Done
            }
            Line::Sheets => Reply::Sheets(self.sheets.clone()),
            _ => self.call(line),
        }
    }

    fn check(&self) -> Reply {
        match self.sheets.check() {
            plain::ACCEPTED => Reply::Done,
            refusal => Reply::Refused(refusal),
        }
    }

    fn rank(&self, key: Key) -> Reply {
        match self.sheets.rank(key) {
            Ok(rank) => Reply::Ranked(rank),
            Err(refusal) => Reply::Refused(refusal),
        }
    }

    /// Nothing is told where no line is handed back.
    fn line_of(&self, sheet: Option<u32>, key: Key) -> Reply {
        let line = self.sheets.line_of(sheet, key);
        match line.split_last() {
            Some((_, line)) => Reply::Line(line.to_vec()),
            None => Reply::Done,
        }
    }

    /// One of the calls that may write.
    fn call(&mut self, line: &Line) -> Reply {
        let Some((slot, request)) = self.request(line) else {
            return Reply::BadLine;
        };
        let answer = match self.sheets.ask(request) {
            Ok(answer) => answer,
            Err(refusal) => return Reply::Refused(refusal),
        };
        if let (Some(slot), Some(returned)) = (slot, answer.returned()) {
            self.slots[slot] = *returned;
        }
        match (request, answer) {
            (_, Answer::Visited(visit)) => Reply::Visited(visit),
            (_, Answer::Read(_, reading)) => Reply::Read(reading),
            (_, Answer::Closed(t, writes)) => Reply::Closed(t, writes),
            (Request::Begin { .. }, Answer::Returned(t)) => Reply::Begun(t.number),
            (Request::Advance { .. }, Answer::Returned(t)) => Reply::Advanced(t),
            (_, Answer::Returned(_) | Answer::Done) => Reply::Done,
        }
    }

    /// The call of a line that makes one of these, and the slot that it takes and fills.
    pub fn request(&self, line: &Line) -> Option<(Option<usize>, Request)> {
        Some(match *line {
            Line::Begin { slot, serializable } => (Some(slot), Request::Begin { serializable }),
            Line::Visit { key, now } => (None, Request::Visit { key, now }),
            Line::Add { key } => (None, Request::Add { key }),
            Line::Remove { key } => (None, Request::Remove { key }),
            Line::Read { slot, .. }
            | Line::Second { slot, .. }
            | Line::Put { slot, .. }
            | Line::Advance { slot, .. }
            | Line::Abort { slot }
            | Line::Close { slot, .. } => (Some(slot), request_of(self.slots[slot], line)?),
            _ => return None,
        })
    }
}

/// The call of a line that takes this transaction.
fn request_of(transaction: Transaction, line: &Line) -> Option<Request> {
    Some(match *line {
        Line::Read { key, now, .. } => Request::Read {
            transaction,
            key,
            now,
        },
        Line::Second {
            key, now, columns, ..
        } => Request::Second {
            transaction,
            key,
            now,
            columns,
        },
        Line::Put { key, columns, .. } => Request::Put {
            transaction,
            key,
            columns,
        },
        Line::Advance { now, .. } => Request::Advance { transaction, now },
        Line::Abort { .. } => Request::Abort { transaction },
        Line::Close { now, limit, .. } => Request::Close {
            transaction,
            now,
            limit,
        },
        _ => return None,
    })
}
