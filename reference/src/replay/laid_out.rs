//! Sheets, joined or two: the calls on them, how an input of a replay tells them and how they are printed.

use super::{Layout, MOST_BYTES};
use crate::make::{Sheets, TwoSheets};
use crate::plain::by_place::{self, Asked};
use crate::plain::field::read_figure;
use crate::plain::key::Key;
use crate::plain::rank::Rank;
use crate::plain::request::{Answer, Request};
use crate::plain::store::Store;
use crate::plain::transaction::Transaction;
use crate::plain::two_sheets::{self, BOOKKEEPING_LINE, PLAIN_LINE};
use crate::plain::{self, coordinator, record};
use std::fmt;

#[derive(Clone, Debug, PartialEq, Eq)]
pub enum LaidOut {
    Joined(Sheets),
    Two(TwoSheets),
}

/// The numbers of lines that a first line tells, and what follows it.
fn counts(figures: usize, input: &[u8]) -> Option<(Vec<usize>, &[u8])> {
    let (first, rest) = input.split_at_checked(figures * 4 + 1)?;
    let (end, columns) = first.split_last()?;
    if *end != b'\n' {
        return None;
    }
    let counts: Option<Vec<u32>> = columns.chunks(4).map(read_figure).collect();
    let counts = counts?.into_iter().map(|count| count as usize);
    Some((counts.collect(), rest))
}

/// The sheets, as long as the first line tells, and the calls.
pub fn parts(layout: Layout, input: &[u8]) -> Option<(LaidOut, &[u8])> {
    if input.len() > MOST_BYTES {
        return None;
    }
    match layout {
        Layout::Joined => joined_parts(input),
        Layout::Two => two_parts(input),
    }
}

fn joined_parts(input: &[u8]) -> Option<(LaidOut, &[u8])> {
    let (counts, rest) = counts(2, input)?;
    let (coordinator, rest) = rest.split_at_checked((counts[1] + 1) * coordinator::LINE)?;
    let (records, calls) = rest.split_at_checked(counts[0] * record::LINE)?;
    let sheets = Sheets {
        records: records.to_vec(),
        coordinator: coordinator.to_vec(),
    };
    Some((LaidOut::Joined(sheets), calls))
}

fn two_parts(input: &[u8]) -> Option<(LaidOut, &[u8])> {
    let (counts, rest) = counts(3, input)?;
    let (coordinator, rest) = rest.split_at_checked((counts[2] + 1) * coordinator::LINE)?;
    let (plain, rest) = rest.split_at_checked(counts[0] * PLAIN_LINE)?;
    let (bookkeeping, calls) = rest.split_at_checked(counts[1] * BOOKKEEPING_LINE)?;
    let sheets = TwoSheets {
        plain: plain.to_vec(),
        bookkeeping: bookkeeping.to_vec(),
        coordinator: coordinator.to_vec(),
    };
    Some((LaidOut::Two(sheets), calls))
}

impl LaidOut {
    /// These sheets, or the two that they join.
    pub fn of(layout: Layout, sheets: Sheets) -> LaidOut {
        match layout {
            Layout::Joined => LaidOut::Joined(sheets),
            Layout::Two => LaidOut::Two(TwoSheets::of(&sheets)),
        }
    }

    /// The sheets joined. Two must have the same keys.
    pub fn joined(&self) -> Sheets {
        match self {
            LaidOut::Joined(sheets) => sheets.clone(),
            LaidOut::Two(sheets) => sheets.joined(),
        }
    }

    pub fn layout(&self) -> Layout {
        match self {
            LaidOut::Joined(_) => Layout::Joined,
            LaidOut::Two(_) => Layout::Two,
        }
    }

    /// How many lines the record sheet or the plain sheet has, spares counted.
    pub fn lines(&self) -> usize {
        match self {
            LaidOut::Joined(s) => s.records.len() / record::LINE,
            LaidOut::Two(s) => s.plain.len() / PLAIN_LINE,
        }
    }

    /// The sheets in the order of an input.
    fn sheets(&self) -> Vec<u8> {
        match self {
            LaidOut::Joined(s) => [&s.coordinator[..], &s.records].concat(),
            LaidOut::Two(s) => [&s.coordinator[..], &s.plain, &s.bookkeeping].concat(),
        }
    }

    /// As they are printed, after the last answer too.
    pub fn printed(&self) -> Vec<u8> {
        [b"sheets\n", &self.sheets()[..]].concat()
    }

    /// An input without calls on sheets of whole lines, as far as four columns hold their numbers.
    pub fn input(&self) -> Vec<u8> {
        let decisions = |sheet: &[u8]| sheet.len() / coordinator::LINE - 1;
        let counts = match self {
            LaidOut::Joined(s) => vec![self.lines(), decisions(&s.coordinator)],
            LaidOut::Two(s) => vec![
                self.lines(),
                s.bookkeeping.len() / BOOKKEEPING_LINE,
                decisions(&s.coordinator),
            ],
        };
        let first = counts.iter().map(|count| format!("{count:>4}"));
        let first: String = first.chain(["\n".into()]).collect();
        [first.as_bytes(), &self.sheets()].concat()
    }

    pub fn ask(&mut self, request: Request) -> Result<Answer, u32> {
        match self {
            LaidOut::Joined(sheets) => sheets.ask(request),
            LaidOut::Two(sheets) => sheets.ask(request),
        }
    }

    /// The call of the one at this place of a list.
    pub fn call_at(
        &mut self,
        list: &mut [Transaction],
        place: usize,
        asked: &Asked,
    ) -> Result<u64, u32> {
        match self {
            LaidOut::Joined(s) => {
                by_place::call_at(&mut s.records, &mut s.coordinator, list, place, asked)
            }
            LaidOut::Two(s) => {
                let (plain, bookkeeping) = (&mut s.plain, &mut s.bookkeeping);
                by_place::call_at_two(plain, bookkeeping, &mut s.coordinator, list, place, asked)
            }
        }
    }

    /// 0 where the sheets are accepted, else the refusal.
    pub fn check(&self) -> u32 {
        match self {
            LaidOut::Joined(s) => plain::check(&s.records, &s.coordinator),
            LaidOut::Two(s) => two_sheets::check(&s.plain, &s.bookkeeping, &s.coordinator),
        }
    }

    /// The records, if the sheets are accepted.
    pub fn store(&self) -> Option<Store> {
        let store = match self {
            LaidOut::Joined(s) => Store::read(&s.records, &s.coordinator),
            LaidOut::Two(s) => Store::read_two(&s.plain, &s.bookkeeping, &s.coordinator),
        };
        store.ok()
    }

    /// Where the key stands among the lines.
    pub fn rank(&self, key: Key) -> Result<Rank, u32> {
        match self {
            LaidOut::Joined(s) => plain::rank(&s.records, key.numbers()),
            LaidOut::Two(s) => two_sheets::rank(&s.plain, &s.bookkeeping, key),
        }
    }

    /// The place of the key's line.
    pub fn lookup(&self, key: Key) -> Result<usize, u32> {
        self.rank(key)?.place()
    }

    /// The line of the key, on two sheets of the one named.
    pub fn line_of(&self, sheet: Option<u32>, key: Key) -> &[u8] {
        match (self, sheet) {
            (LaidOut::Joined(s), _) => plain::line_of(&s.records, key.numbers()),
            (LaidOut::Two(s), Some(sheet)) => {
                two_sheets::line_of(&s.plain, &s.bookkeeping, sheet, key)
            }
            (LaidOut::Two(_), None) => &[],
        }
    }
}

impl fmt::Display for LaidOut {
    fn fmt(&self, out: &mut fmt::Formatter) -> fmt::Result {
        match self {
            LaidOut::Joined(sheets) => sheets.fmt(out),
            LaidOut::Two(sheets) => sheets.fmt(out),
        }
    }
}
