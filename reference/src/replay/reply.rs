//! What a line is answered, and how the answer is written.

use super::laid_out::LaidOut;
use super::line::words;
use crate::plain::rank::Rank;
use crate::plain::store::Visit;
use crate::plain::transaction::{Reading, Transaction, MOST_ENTRIES};

#[derive(Clone, Debug, PartialEq, Eq)]
pub enum Reply {
    Refused(u32),
    /// Accepted, and there is nothing to tell.
    Done,
    Begun(u32),
    Read(Reading),
    /// The transaction after the step.
    Advanced(Transaction),
    /// The transaction as it was left, and how many writes were made.
    Closed(Transaction, u32),
    Visited(Visit),
    Ranked(Rank),
    /// A line of a sheet without its LF.
    Line(Vec<u8>),
    Shown(Transaction),
    /// All, as they stand.
    Sheets(LaidOut),
    BadLine,
}

impl Reply {
    /// One line, LF last, or all sheets.
    pub fn printed(&self) -> Vec<u8> {
        let line = match self {
            Reply::Refused(number) => format!("refused {number}"),
            Reply::Done => "ok".into(),
            Reply::Begun(number) => format!("ok {number}"),
            Reply::Read(reading) => format!("ok {}", reading_text(reading)),
            Reply::Advanced(t) => format!("ok {}", words(&[t.phase, t.place, t.verdict])),
            Reply::Closed(t, writes) => {
                format!("ok {}", words(&[*writes, t.phase, t.place, t.verdict]))
            }
            Reply::Visited(visit) => format!("ok {}", visit_text(*visit)),
            Reply::Ranked(rank) => format!("ok {}", words(&rank.numbers())),
            Reply::Line(line) => format!("ok {}", String::from_utf8_lossy(line)),
            Reply::Shown(transaction) => format!("ok {}", words(&shown(transaction))),
            Reply::Sheets(sheets) => return sheets.printed(),
            Reply::BadLine => "bad line".into(),
        };
        [line.as_bytes(), b"\n"].concat()
    }
}

fn reading_text(reading: &Reading) -> String {
    match reading {
        Reading::Absent => "absent".into(),
        Reading::Again => "again".into(),
        Reading::Columns(columns) => format!("columns {}", words(columns)),
        Reading::First(columns) => format!("first {}", words(columns)),
    }
}

fn visit_text(visit: Visit) -> &'static str {
    match visit {
        Visit::Stays => "stays",
        Visit::Forward => "forward",
        Visit::Back => "back",
        Visit::Again => "again",
    }
}

/// The fields, and the entries that count as far as there are any.
fn shown(transaction: &Transaction) -> Vec<u32> {
    let count = MOST_ENTRIES.min(transaction.count as usize);
    let entries = transaction.entries[..count].iter();
    let entries = entries.flat_map(|entry| entry.numbers());
    transaction.fields().into_iter().chain(entries).collect()
}
