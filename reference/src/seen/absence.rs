//! Which lines were ABSENT, or PREPARED over ABSENT, with a version and without, and where that was the only thing wrong.

use super::rows::{passes, Row, Rows, ASKED};
use super::table::Table;
use crate::plain::words::{Before, State, BEFORES, STATES};
use std::fmt;

/// Of the line itself, and from the fifth on of its before image. Those with a 1 are refused.
const KINDS: [&str; 10] = [
    "ABSENT of version 0",
    "ABSENT of a version",
    "1 by ABSENT, a version without a TxID",
    "1 by ABSENT, a TxID without a version",
    "1 by ABSENT of a version, a column",
    "PREPARED over ABSENT of version 0",
    "PREPARED over ABSENT of a version",
    "1 by PREPARED over ABSENT, a version without a TxID",
    "1 by PREPARED over ABSENT, a TxID without a version",
    "1 by PREPARED over ABSENT of a version, a column",
];
const WITH_COLUMN: usize = 4;
const BEFORE: usize = 5;

pub struct Absence(Table);

impl Default for Absence {
    fn default() -> Absence {
        let table = Table::new("absence", ASKED, KINDS);
        // A bookkeeping line has no columns of its own.
        Absence(table.without(&[1, 3], WITH_COLUMN))
    }
}

/// The place of an absence that was let pass, or alone refused, among its kinds.
fn of_image(image: &[u32], refused: bool) -> Option<usize> {
    let columns = image[2] > 0 || image[3] > 0;
    match (refused, image[0] > 0, image[1] > 0, columns) {
        (false, version, _, _) => Some(usize::from(version)),
        (true, true, false, false) => Some(2),
        (true, false, true, false) => Some(3),
        (true, true, true, true) => Some(4),
        _ => None,
    }
}

/// The place of a line's kind.
fn kind_of(row: &Row, refused: bool) -> Option<usize> {
    let state = STATES.get(row[5] as usize)?;
    let before = BEFORES.get(row[10] as usize)?;
    let (start, first) = match (state, before) {
        (State::Absent, Before::Nothing) => (6, 0),
        (State::Prepared, Before::Absent) => (11, BEFORE),
        _ => return None,
    };
    let mut repaired = *row;
    repaired[start..start + 4].fill(0);
    if first == BEFORE && row[6] == row[11].wrapping_add(1) {
        repaired[6] = 1;
    }
    let alone = !refused || !passes(row) && passes(&repaired);
    let kind = of_image(&row[start..start + 4], refused)?;
    alone.then_some(first + kind)
}

impl Absence {
    /// Notes the lines that were let pass or refused.
    pub fn note(&mut self, rows: &Rows) {
        let kinds = rows.rows.iter();
        let kinds = kinds.filter_map(|row| kind_of(row, rows.refused));
        self.0.count(rows.asked, kinds);
    }

    pub fn amiss(&self) -> Vec<String> {
        self.0.amiss()
    }
}

impl fmt::Display for Absence {
    fn fmt(&self, out: &mut fmt::Formatter) -> fmt::Result {
        self.0.fmt(out)
    }
}
