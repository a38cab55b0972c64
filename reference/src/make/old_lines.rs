//! Sheets as they were before lines had a before state: record lines of 98 bytes, and bookkeeping lines of 80. Nothing else is
//! wrong with them, and some are as long as sheets of today's lines.

use super::damage::RECORD_LINE;
use super::random::Random;
use super::sheets::{of_size, Mix, Size};
use super::spares::{fill_up, is_spare, spare};
use super::two_sheets::BOOKKEEPING_LINE;
use super::{Sheets, TwoSheets};

/// A line of today, and where its before state stands.
#[derive(Clone, Copy)]
pub struct Width {
    pub line: usize,
    pub before_state: usize,
}

pub const RECORDS: Width = Width {
    line: RECORD_LINE,
    before_state: 58,
};
pub const BOOKKEEPING: Width = Width {
    line: BOOKKEEPING_LINE,
    before_state: 40,
};

/// Columns of a before state.
const COLUMNS: usize = 10;

/// The least number of old lines that are as long as whole lines of today.
pub const FITTING_RECORDS: usize = 54;
const FITTING_BOOKKEEPING: usize = 9;

/// A sheet of whole lines without its before states, spares a little narrower too.
pub fn narrowed(sheet: &[u8], width: Width) -> Vec<u8> {
    let lines = sheet.chunks_exact(width.line);
    let (start, end) = (width.before_state, width.before_state + COLUMNS);
    lines
        .flat_map(|line| [&line[..start], &line[end..]].concat())
        .collect()
}

/// The sheet of today that an old one stands for, if it has whole lines.
pub fn widened(sheet: &[u8], width: Width) -> Option<Vec<u8>> {
    let old = width.line - COLUMNS;
    let whole = sheet.len().is_multiple_of(old) && sheet.chunks(old).all(|l| l.ends_with(b"\n"));
    let wider = |line: &[u8]| match is_spare(line) {
        true => spare(width.line),
        false => with_before_state(line, width),
    };
    whole.then(|| sheet.chunks(old).flat_map(wider).collect())
}

fn with_before_state(line: &[u8], width: Width) -> Vec<u8> {
    let (front, back) = line.split_at(width.before_state);
    let word: &[u8; COLUMNS] = match (&line[20..30] == b"  PREPARED", &back[..6]) {
        (false, _) => b"         -",
        (true, b"     0") => b"    ABSENT",
        (true, _) => b" COMMITTED",
    };
    [front, word, back].concat()
}

/// Good lines, of which so many times so many have a length that fits; seldom any other number.
fn lines(random: &mut Random, fitting: usize) -> usize {
    match random.below(8) {
        0 => 1 + random.below(8),
        1 => fitting * (1 + random.below(500 / fitting)),
        _ => fitting,
    }
}

/// Accepted sheets of so many lines, some of which may be spares.
fn of_lines(random: &mut Random, lines: usize) -> Sheets {
    let spares = random.pick(&[0, 0, 1, lines - 1, lines]);
    let size = Size {
        records: lines - spares,
        decisions: 4,
        issued: 3,
    };
    let mut sheets = of_size(random, size, Mix::Thirds);
    fill_up(&mut sheets.records, RECORD_LINE, lines);
    sheets
}

/// A record sheet of old lines beside a good coordinator sheet.
pub fn old_records(random: &mut Random) -> Sheets {
    let lines = lines(random, FITTING_RECORDS);
    let mut sheets = of_lines(random, lines);
    sheets.records = narrowed(&sheets.records, RECORDS);
    sheets
}

/// A bookkeeping sheet of old lines beside good other sheets.
pub fn old_bookkeeping(random: &mut Random) -> TwoSheets {
    let lines = lines(random, FITTING_BOOKKEEPING);
    let mut sheets = TwoSheets::of(&of_lines(random, lines));
    sheets.bookkeeping = narrowed(&sheets.bookkeeping, BOOKKEEPING);
    sheets
}
