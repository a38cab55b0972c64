//! A history of clients that keep their transactions in lists of their own, on the same sheets, held call by call.

use super::Subject;
use crate::exported::{Call, Lent};
use crate::make::lists::unused;
use crate::make::Sheets;
use crate::plain::transaction::Transaction;
use crate::replay::laid_out::LaidOut;
use std::mem::take;
use std::sync::Arc;

pub struct ClientHistory {
    pub sheets: LaidOut,
    /// How long each client's list is. All are unused at first.
    pub lengths: Vec<usize>,
    pub turns: Vec<Turn>,
}

pub enum Turn {
    /// The client loses its list and goes on with an unused one.
    Crash {
        client: usize,
    },
    Call(Expected),
}

/// A call that a client makes, and what is expected of it.
pub struct Expected {
    pub client: usize,
    pub call: Call,
    pub answer: u64,
    /// The client's list afterwards.
    pub list: Vec<Transaction>,
    /// The sheets afterwards, the same as before where nothing is written.
    pub sheets: Arc<LaidOut>,
    pub written: Option<Written>,
}

/// What is told of joined sheets before and after a call: the answer, and which lines.
#[derive(Clone, Copy, Debug, PartialEq, Eq)]
pub struct Written {
    pub answer: u32,
    pub lines: [u32; 2],
}

impl Written {
    /// As `tell` answers; nothing of two sheets. The lines are to be overwritten.
    pub fn told(
        before: &LaidOut,
        after: &LaidOut,
        tell: impl FnOnce(&Sheets, &Sheets, &mut [u32]) -> u32,
    ) -> Option<Written> {
        let (LaidOut::Joined(before), LaidOut::Joined(after)) = (before, after) else {
            return None;
        };
        let mut lines = [u32::MAX; 2];
        let answer = tell(before, after, &mut lines);
        Some(Written { answer, lines })
    }
}

/// What the subject made of a call.
pub struct Made {
    pub answer: u64,
    pub lent: Lent,
    pub written: Option<Written>,
}

/// The first call that departs from what is expected, counted from 1.
pub struct Difference<'a> {
    pub place: u64,
    pub expected: &'a Expected,
    pub made: Made,
}

impl Expected {
    fn make(&self, subject: &impl Subject, mut lent: Lent) -> Made {
        let before = lent.sheets.clone();
        let answer = subject.call(&self.call, &mut lent);
        let written = Written::told(&before, &lent.sheets, |before, after, lines| {
            subject.written(before, after, lines)
        });
        Made {
            answer,
            lent,
            written,
        }
    }

    fn is(&self, made: &Made) -> bool {
        self.answer == made.answer
            && self.list == made.lent.list
            && *self.sheets == made.lent.sheets
            && self.written == made.written
    }
}

impl ClientHistory {
    /// The calls on the sheets; what is told of each beside it isn't counted.
    pub fn calls(&self) -> u64 {
        let calls = self.turns.iter();
        calls.filter(|turn| matches!(turn, Turn::Call(_))).count() as u64
    }

    /// Runs it on the subject, whose lists and sheets go from call to call.
    pub fn difference(&self, subject: &impl Subject) -> Option<Difference<'_>> {
        let mut sheets = self.sheets.clone();
        let lists = self.lengths.iter().map(|length| vec![unused(); *length]);
        let mut lists: Vec<Vec<Transaction>> = lists.collect();
        let mut place = 0;
        for turn in &self.turns {
            let expected = match turn {
                Turn::Crash { client } => {
                    lists[*client].fill(unused());
                    continue;
                }
                Turn::Call(expected) => expected,
            };
            place += 1;
            let list = take(&mut lists[expected.client]);
            let made = expected.make(subject, Lent { sheets, list });
            if !expected.is(&made) {
                return Some(Difference {
                    place,
                    expected,
                    made,
                });
            }
            sheets = made.lent.sheets;
            lists[expected.client] = made.lent.list;
        }
        None
    }
}
