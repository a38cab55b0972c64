//! On which sheets with spares calls were made, and what was wrong with spares where they were refused.

use super::{named, unseen};
use crate::make::damage::RECORD_LINE;
use crate::make::spares::is_spare;
use crate::make::two_sheets::{BOOKKEEPING_LINE, PLAIN_LINE};
use crate::make::TwoSheets;
use crate::plain::record::MOST_LINES;
use crate::plain::{BAD_COORDINATOR, BAD_RECORDS, SHEETS_DIFFER};
use crate::replay::laid_out::LaidOut;
use std::fmt;

/// By what the call was made, on the joined sheet and on two.
const ASKED: [[&str; 2]; 4] = [
    ["replay", "replay of two sheets"],
    ["for C", "for C on two sheets"],
    ["visiting program", ""],
    ["to numbers", ""],
];
pub const REPLAY: usize = 0;
pub const FOR_C: usize = 1;
pub const ON_VISITS: usize = 2;
pub const TO_NUMBERS: usize = 3;

/// Of sheets that were let pass, and of those that refusal 1 was given for.
const KINDS: [&str; 6] = [
    "let pass",
    "500 lines let pass",
    "all spares let pass",
    "1 by a spare above a record line",
    "1 by over 500 lines",
    "1 by a line that is nearly a spare",
];

/// What refusal 13 was given for.
const DIFFER: [&str; 2] = ["a spare beside a record line", "the number of spares"];

#[derive(Default)]
pub struct Spares {
    joined: [[u64; KINDS.len()]; ASKED.len()],
    on_two: [[u64; KINDS.len()]; ASKED.len()],
    differ: [u64; DIFFER.len()],
}

/// A line that one byte keeps from being a spare.
fn is_nearly_spare(line: &[u8]) -> bool {
    let (columns, end) = line.split_at(line.len() - 1);
    let others = columns.iter().filter(|column| **column != b' ');
    others.count() + usize::from(end != b"\n") == 1
}

/// The kind of a sheet that has to do with spares.
fn kind_of(refusal: u32, sheet: &[u8], width: usize) -> Option<usize> {
    let lines: Vec<&[u8]> = sheet.chunks_exact(width).collect();
    let spares = lines.iter().filter(|line| is_spare(line)).count();
    let above = lines.len() - spares;
    let misplaced = lines[..above].iter().any(|line| is_spare(line));
    match refusal {
        BAD_RECORDS if misplaced => Some(3),
        BAD_RECORDS if spares > 0 && lines.len() > MOST_LINES => Some(4),
        BAD_RECORDS => lines.iter().any(|l| is_nearly_spare(l)).then_some(5),
        BAD_COORDINATOR | SHEETS_DIFFER => None,
        _ if spares == 0 => None,
        _ if above == 0 => Some(2),
        _ => Some(usize::from(lines.len() == MOST_LINES)),
    }
}

/// What spares have to do with refusal 13.
fn difference(sheets: &TwoSheets) -> Option<usize> {
    let plain: Vec<&[u8]> = sheets.plain.chunks(PLAIN_LINE).collect();
    let bookkeeping: Vec<&[u8]> = sheets.bookkeeping.chunks(BOOKKEEPING_LINE).collect();
    let mut pairs = plain.iter().zip(&bookkeeping);
    let fronts_agree = pairs.clone().all(|(one, other)| one[..20] == other[..20]);
    match plain.len() == bookkeeping.len() {
        true => pairs
            .any(|(one, other)| is_spare(one) != is_spare(other))
            .then_some(0),
        false => fronts_agree.then_some(1),
    }
}

impl Spares {
    /// Notes what a call was answered on these sheets.
    pub fn note(&mut self, asked: usize, refusal: u32, sheets: &LaidOut) {
        match sheets {
            LaidOut::Joined(sheets) => self.note_joined(asked, refusal, &sheets.records),
            LaidOut::Two(sheets) => {
                let kind = kind_of(refusal, &sheets.plain, PLAIN_LINE);
                let other = || kind_of(refusal, &sheets.bookkeeping, BOOKKEEPING_LINE);
                if let Some(kind) = kind.or_else(other) {
                    self.on_two[asked][kind] += 1;
                }
                if refusal == SHEETS_DIFFER {
                    let kind = difference(sheets);
                    kind.into_iter().for_each(|kind| self.differ[kind] += 1);
                }
            }
        }
    }

    pub fn note_joined(&mut self, asked: usize, refusal: u32, records: &[u8]) {
        if let Some(kind) = kind_of(refusal, records, RECORD_LINE) {
            self.joined[asked][kind] += 1;
        }
    }

    /// The counts by what the calls were made.
    fn rows(&self) -> impl Iterator<Item = (&'static str, &[u64; KINDS.len()])> {
        let rows = ASKED.iter().zip(self.joined.iter().zip(&self.on_two));
        let rows =
            rows.flat_map(|(names, (joined, on_two))| [(names[0], joined), (names[1], on_two)]);
        rows.filter(|(name, _)| !name.is_empty())
    }

    /// What should have been seen and wasn't.
    pub fn amiss(&self) -> Vec<String> {
        let rows = self.rows();
        let mut amiss: Vec<String> = rows
            .flat_map(|(asked, counts)| unseen(asked, &KINDS, counts))
            .map(|what| format!("spares, {what}"))
            .collect();
        amiss.extend(unseen("spares, 13", &DIFFER, &self.differ));
        amiss
    }
}

impl fmt::Display for Spares {
    fn fmt(&self, out: &mut fmt::Formatter) -> fmt::Result {
        for (asked, counts) in self.rows() {
            writeln!(out, "spares, {asked}: {}", named(&KINDS, counts))?;
        }
        write!(out, "spares, 13 by: {}", named(&DIFFER, &self.differ))
    }
}
