//! Where the keys looked up stood, and what a target of another length went before.

use super::{named, unseen};
use crate::compare::ranked::Ranked;
use crate::make::damage::RECORD_LINE;
use crate::make::spares::is_spare;
use crate::make::two_sheets::PLAIN_LINE;
use crate::plain::rank::Rank;
use crate::plain::{KEY_OUT_OF_RANGE, SHEETS_DIFFER};
use crate::replay::laid_out::LaidOut;
use crate::replay::reply::Reply;
use crate::replay::Layout;
use std::fmt;

/// By what it was asked.
const ASKED: [&str; 4] = [
    "replay",
    "replay of two sheets",
    "for C",
    "for C on two sheets",
];

/// Of which line the key is, or between which it has none.
const PLACES: [&str; 6] = [
    "first line",
    "inner line",
    "last line",
    "none below",
    "none between",
    "none above",
];

/// What else would have refused the call.
const TARGETS: [&str; 3] = ["alone", "before 5", "before 13"];

#[derive(Default)]
pub struct Ranks {
    places: [[u64; PLACES.len()]; ASKED.len()],
    targets: [u64; TARGETS.len()],
}

/// The place of a rank among the kinds of places. The line of a sheet that has no other counts as the first.
fn place_of(rank: &Rank, lines: usize) -> usize {
    match (rank.present, rank.below) {
        (true, 0) => 0,
        (true, below) if below + 1 < lines => 1,
        (true, _) => 2,
        (false, 0) => 3,
        (false, below) if below < lines => 4,
        (false, _) => 5,
    }
}

/// How many lines of accepted sheets are no spares.
fn record_lines(sheets: &LaidOut) -> usize {
    let lines = match sheets {
        LaidOut::Joined(sheets) => sheets.records.chunks(RECORD_LINE),
        LaidOut::Two(sheets) => sheets.plain.chunks(PLAIN_LINE),
    };
    lines.filter(|line| !is_spare(line)).count()
}

impl Ranks {
    fn count(&mut self, for_c: bool, rank: &Rank, sheets: &LaidOut) {
        let on_two = sheets.layout() == Layout::Two;
        let row = 2 * usize::from(for_c) + usize::from(on_two);
        self.places[row][place_of(rank, record_lines(sheets))] += 1;
    }

    /// Notes the reply to a line of a replay, if it tells a rank.
    pub fn note(&mut self, reply: &Reply, sheets: &LaidOut) {
        if let Reply::Ranked(rank) = reply {
            self.count(false, rank, sheets);
        }
    }

    /// Notes a call of the function for C.
    pub fn note_for_c(&mut self, ranked: &Ranked) {
        let sheets = &ranked.sheets;
        match (sheets.rank(ranked.key), ranked.target.len()) {
            (Ok(rank), 2) => self.count(true, &rank, sheets),
            (_, 2) => {}
            (Ok(_), _) => self.targets[0] += 1,
            (Err(KEY_OUT_OF_RANGE), _) => self.targets[1] += 1,
            (Err(SHEETS_DIFFER), _) => self.targets[2] += 1,
            (Err(_), _) => {}
        }
    }

    /// What should have been seen and wasn't.
    pub fn amiss(&self) -> Vec<String> {
        let places = ASKED.iter().zip(&self.places);
        let mut amiss: Vec<String> = places
            .flat_map(|(asked, counts)| unseen(asked, &PLACES, counts))
            .map(|what| format!("rank, {what}"))
            .collect();
        amiss.extend(unseen("rank, 1 by the target", &TARGETS, &self.targets));
        amiss
    }
}

impl fmt::Display for Ranks {
    fn fmt(&self, out: &mut fmt::Formatter) -> fmt::Result {
        write!(out, "{:<21}", "rank")?;
        for place in PLACES {
            write!(out, "{place:>14}")?;
        }
        for (asked, counts) in ASKED.iter().zip(&self.places) {
            write!(out, "\n{asked:<21}")?;
            for count in counts {
                write!(out, "{count:>14}")?;
            }
        }
        let targets = named(&TARGETS, &self.targets);
        write!(out, "\nrank, 1 by the target: {targets}")
    }
}
