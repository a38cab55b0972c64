//! The comparison: cases made from seeds, each with what is expected of it, and an implementation held against them.

pub mod clients;
pub mod ranked;
pub mod rounds;

use crate::conversions::{self, Conversion};
use crate::exported::{self, Call, Lent};
use crate::make::Sheets;
use crate::plain::key::Key;
use crate::plain::visitor;
use crate::replay::laid_out::LaidOut;
use crate::replay::{self, replay, Layout};
use crate::seen::is_call;
use clients::ClientHistory;
use ranked::Ranked;

/// What is held against `plain`: three programs, and the functions for C.
pub trait Subject {
    /// The whole output of a replay program, or how it failed.
    fn replay(&self, layout: Layout, input: &[u8]) -> Result<Vec<u8>, String>;
    /// The same of the visiting program.
    fn visitor(&self, input: &[u8]) -> Result<Vec<u8>, String>;
    fn call(&self, call: &Call, lent: &mut Lent) -> u64;
    fn convert(&self, conversion: Conversion, lent: &mut conversions::Lent) -> u32;
    /// What differs between the sheets, with the lines told.
    fn written(&self, before: &Sheets, after: &Sheets, lines: &mut [u32]) -> u32;
    /// Where the key stands, told in the target.
    fn rank(&self, sheets: &LaidOut, key: Key, target: &mut [u32]) -> u32;
}

/// An input and what `plain` makes of it.
pub enum Case {
    Replay {
        layout: Layout,
        input: Vec<u8>,
        expected: Vec<u8>,
        calls: u64,
    },
    Visit {
        input: Vec<u8>,
        expected: Vec<u8>,
    },
    Call {
        call: Call,
        lent: Lent,
        answer: u64,
        after: Lent,
    },
    Convert {
        conversion: Conversion,
        lent: conversions::Lent,
        answer: u32,
        after: conversions::Lent,
    },
    /// Sheets before and after, and the target before and after it is told which lines differ.
    Written {
        sheets: [Sheets; 2],
        lines: Vec<u32>,
        answer: u32,
        told: Vec<u32>,
    },
    Rank(Ranked),
    Clients(ClientHistory),
}

impl Case {
    /// An input of a replay program that is refused whole, most often.
    pub fn bad_input(layout: Layout, input: Vec<u8>) -> Case {
        Case::Replay {
            layout,
            expected: replay(layout, &input),
            input,
            calls: 0,
        }
    }

    pub fn visit(input: Vec<u8>) -> Case {
        Case::Visit {
            expected: visitor::output(&input),
            input,
        }
    }

    pub fn call(call: Call, lent: Lent) -> Case {
        let mut after = lent.clone();
        let answer = exported::by_plain(&call, &mut after);
        Case::Call {
            call,
            lent,
            answer,
            after,
        }
    }

    pub fn convert(conversion: Conversion, lent: conversions::Lent) -> Case {
        let mut after = lent.clone();
        let answer = conversions::by_plain(conversion, &mut after);
        Case::Convert {
            conversion,
            lent,
            answer,
            after,
        }
    }

    pub fn written(before: Sheets, after: Sheets, lines: Vec<u32>) -> Case {
        let mut told = lines.clone();
        let answer = exported::written_by_plain(&before, &after, &mut told);
        Case::Written {
            sheets: [before, after],
            lines,
            answer,
            told,
        }
    }

    /// How many calls it makes.
    pub fn calls(&self) -> u64 {
        match self {
            Case::Replay { calls, .. } => *calls,
            Case::Clients(history) => history.calls(),
            Case::Visit { .. }
            | Case::Call { .. }
            | Case::Convert { .. }
            | Case::Written { .. }
            | Case::Rank(_) => 1,
        }
    }

    /// Whether the subject answers and leaves what is expected, byte for byte.
    pub fn holds(&self, subject: &impl Subject) -> bool {
        match self {
            Case::Replay {
                layout,
                input,
                expected,
                ..
            } => subject.replay(*layout, input).as_ref() == Ok(expected),
            Case::Visit { input, expected } => subject.visitor(input).as_ref() == Ok(expected),
            Case::Call {
                call,
                lent,
                answer,
                after,
            } => leaves(lent, |l| subject.call(call, l), answer, after),
            Case::Convert {
                conversion,
                lent,
                answer,
                after,
            } => leaves(lent, |l| subject.convert(*conversion, l), answer, after),
            Case::Written {
                sheets: [before, after],
                lines,
                answer,
                told,
            } => leaves(lines, |l| subject.written(before, after, l), answer, told),
            Case::Rank(ranked) => ranked.holds(subject),
            Case::Clients(history) => history.difference(subject).is_none(),
        }
    }
}

/// Whether the call answers this and leaves what it is lent like this.
fn leaves<L: Clone + PartialEq, A: PartialEq>(
    lent: &L,
    call: impl FnOnce(&mut L) -> A,
    answer: &A,
    after: &L,
) -> bool {
    let mut lent = lent.clone();
    call(&mut lent) == *answer && lent == *after
}

/// How many calls a replay has made when it prints the byte at this place of its output.
pub fn calls_until(layout: Layout, input: &[u8], place: usize) -> u64 {
    let mut printed = 0;
    let answers = replay::answers(layout, input).into_iter();
    let begun = answers.take_while(|(_, answer)| {
        let start = printed;
        printed += answer.len();
        start <= place
    });
    begun.filter(|(line, _)| is_call(layout, line)).count() as u64
}
