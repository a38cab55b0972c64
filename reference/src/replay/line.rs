//! One call as a line of text: words and decimal numbers separated by single spaces.

use super::Layout;
use crate::plain::key::Key;
use crate::plain::transaction::MOST_ENTRIES;
use std::fmt;

/// Transactions that a replay keeps.
pub const SLOTS: usize = 16;

#[derive(Clone, Copy, Debug, PartialEq, Eq)]
pub enum Line {
    Check,
    Begin {
        slot: usize,
        serializable: bool,
    },
    Read {
        slot: usize,
        key: Key,
        now: u32,
    },
    /// The second call of a read, on two sheets only.
    Second {
        slot: usize,
        key: Key,
        now: u32,
        columns: [u32; 2],
    },
    Put {
        slot: usize,
        key: Key,
        columns: [u32; 2],
    },
    Advance {
        slot: usize,
        now: u32,
    },
    Abort {
        slot: usize,
    },
    Close {
        slot: usize,
        now: u32,
        limit: u32,
    },
    Visit {
        key: Key,
        now: u32,
    },
    Add {
        key: Key,
    },
    Remove {
        key: Key,
    },
    /// Where a key stands.
    Lookup {
        key: Key,
    },
    /// The line that the look-up hands back, on two sheets that of the sheet named.
    LineOf {
        sheet: Option<u32>,
        key: Key,
    },
    Show {
        slot: usize,
    },
    /// Forges a transaction's fields before its entries.
    Set {
        slot: usize,
        fields: [u32; 6],
    },
    /// Forges one entry.
    Entry {
        slot: usize,
        place: usize,
        numbers: [u32; 13],
    },
    /// All sheets as they stand.
    Sheets,
}

impl Line {
    /// The call of a line without its LF, or nothing where it has another form than this layout's replay knows.
    pub fn parse(layout: Layout, text: &[u8]) -> Option<Line> {
        let mut words = text.split(|byte| *byte == b' ');
        let call = words.next()?;
        let numbers: Option<Vec<u32>> = words.map(number).collect();
        let line = Line::of(call, &numbers?)?;
        line.is_for(layout).then_some(line)
    }

    fn is_for(&self, layout: Layout) -> bool {
        match self {
            Line::Second { .. } => layout == Layout::Two,
            Line::LineOf { sheet, .. } => sheet.is_some() == (layout == Layout::Two),
            _ => true,
        }
    }

    fn of(call: &[u8], numbers: &[u32]) -> Option<Line> {
        Some(match (call, numbers) {
            (b"check", []) => Line::Check,
            (b"sheets", []) => Line::Sheets,
            (b"visit", [key @ .., now]) => Line::Visit {
                key: key_of(key)?,
                now: *now,
            },
            (b"add", key) => Line::Add { key: key_of(key)? },
            (b"remove", key) => Line::Remove { key: key_of(key)? },
            (b"lookup", key) => Line::Lookup { key: key_of(key)? },
            (b"line", [sheet, key @ ..]) if key.len() == 5 => Line::LineOf {
                sheet: Some(*sheet),
                key: key_of(key)?,
            },
            (b"line", key) => Line::LineOf {
                sheet: None,
                key: key_of(key)?,
            },
            (_, [slot, rest @ ..]) => Line::on_slot(call, place_below(*slot, SLOTS)?, rest)?,
            _ => return None,
        })
    }

    /// A call that names a slot.
    fn on_slot(call: &[u8], slot: usize, numbers: &[u32]) -> Option<Line> {
        Some(match (call, numbers) {
            (b"begin", [checked @ (0 | 1)]) => Line::Begin {
                slot,
                serializable: *checked == 1,
            },
            (b"advance", [now]) => Line::Advance { slot, now: *now },
            (b"abort", []) => Line::Abort { slot },
            (b"close", [now, limit]) => Line::Close {
                slot,
                now: *now,
                limit: *limit,
            },
            (b"show", []) => Line::Show { slot },
            (b"set", fields) => Line::Set {
                slot,
                fields: fields.try_into().ok()?,
            },
            (b"entry", [place, numbers @ ..]) => Line::Entry {
                slot,
                place: place_below(*place, MOST_ENTRIES)?,
                numbers: numbers.try_into().ok()?,
            },
            _ => Line::on_key(call, slot, numbers)?,
        })
    }

    /// A call that names a slot and a key.
    fn on_key(call: &[u8], slot: usize, numbers: &[u32]) -> Option<Line> {
        Some(match (call, numbers) {
            (b"read", [key @ .., now]) => Line::Read {
                slot,
                key: key_of(key)?,
                now: *now,
            },
            (b"second", [key @ .., now, one, other]) => Line::Second {
                slot,
                key: key_of(key)?,
                now: *now,
                columns: [*one, *other],
            },
            (b"put", [key @ .., one, other]) => Line::Put {
                slot,
                key: key_of(key)?,
                columns: [*one, *other],
            },
            _ => return None,
        })
    }
}

/// A decimal number that a u32 holds, without sign or leading zero.
fn number(word: &[u8]) -> Option<u32> {
    let digits = !word.is_empty() && word.iter().all(u8::is_ascii_digit);
    if !digits || (word.len() > 1 && word[0] == b'0') {
        return None;
    }
    std::str::from_utf8(word).ok()?.parse().ok()
}

fn place_below(number: u32, end: usize) -> Option<usize> {
    let place = number as usize;
    (place < end).then_some(place)
}

fn key_of(numbers: &[u32]) -> Option<Key> {
    numbers.try_into().ok().map(Key::from_numbers)
}

/// Numbers separated by single spaces.
pub fn words(numbers: &[u32]) -> String {
    let words: Vec<String> = numbers.iter().map(u32::to_string).collect();
    words.join(" ")
}

impl fmt::Display for Line {
    /// The text that parses to the line.
    fn fmt(&self, out: &mut fmt::Formatter) -> fmt::Result {
        let key = |key: &Key| words(&key.numbers());
        match self {
            Line::Check => write!(out, "check"),
            Line::Begin { slot, serializable } => {
                write!(out, "begin {slot} {}", u32::from(*serializable))
            }
            Line::Read { slot, key: k, now } => write!(out, "read {slot} {} {now}", key(k)),
            Line::Second {
                slot,
                key: k,
                now,
                columns,
            } => write!(out, "second {slot} {} {now} {}", key(k), words(columns)),
            Line::Put {
                slot,
                key: k,
                columns,
            } => write!(out, "put {slot} {} {}", key(k), words(columns)),
            Line::Advance { slot, now } => write!(out, "advance {slot} {now}"),
            Line::Abort { slot } => write!(out, "abort {slot}"),
            Line::Close { slot, now, limit } => write!(out, "close {slot} {now} {limit}"),
            Line::Visit { key: k, now } => write!(out, "visit {} {now}", key(k)),
            Line::Add { key: k } => write!(out, "add {}", key(k)),
            Line::Remove { key: k } => write!(out, "remove {}", key(k)),
            Line::Lookup { key: k } => write!(out, "lookup {}", key(k)),
            Line::LineOf { sheet, key: k } => match sheet {
                Some(sheet) => write!(out, "line {sheet} {}", key(k)),
                None => write!(out, "line {}", key(k)),
            },
            Line::Show { slot } => write!(out, "show {slot}"),
            Line::Set { slot, fields } => write!(out, "set {slot} {}", words(fields)),
            Line::Entry {
                slot,
                place,
                numbers,
            } => write!(out, "entry {slot} {place} {}", words(numbers)),
            Line::Sheets => write!(out, "sheets"),
        }
    }
}
