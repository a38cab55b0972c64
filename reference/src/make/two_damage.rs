//! Two sheets of which one is damaged, or both alike, or that don't join. At times the damage does none: the check decides.

use super::absence;
use super::damage::{before_state, damage_coordinator};
use super::old_lines::{self, old_bookkeeping};
use super::random::Random;
use super::scripts::damaged_or_forged;
use super::sheets::{of_size, Mix, Size};
use super::spares::{is_spare, misplace, spare};
use super::two_sheets::{BOOKKEEPING_LINE, PLAIN_LINE};
use super::{Sheets, TwoSheets};

/// What may be damaged alone.
#[derive(Clone, Copy, PartialEq, Eq)]
enum Part {
    Plain,
    Bookkeeping,
}

impl Part {
    fn any(random: &mut Random) -> Part {
        random.pick(&[Part::Plain, Part::Bookkeeping])
    }

    /// The sheet and the length of its lines.
    fn of(self, sheets: &mut TwoSheets) -> (&mut Vec<u8>, usize) {
        match self {
            Part::Plain => (&mut sheets.plain, PLAIN_LINE),
            Part::Bookkeeping => (&mut sheets.bookkeeping, BOOKKEEPING_LINE),
        }
    }
}

/// The parts of accepted sheets with something wrong.
pub fn damaged_two(random: &mut Random, sheets: &Sheets) -> TwoSheets {
    let mut two = TwoSheets::of(sheets);
    match random.below(12) {
        0 | 1 => return TwoSheets::of(&damaged_or_forged(random, sheets.clone())),
        2..=5 => spoil_one(random, sheets, &mut two),
        6 => absent_with_columns(random, &mut two),
        7 => damage_of_coordinator(random, sheets, &mut two),
        8 => differ(random, &mut two),
        // Keys that differ beside something that goes before, or that would matter only if they didn't.
        9 => {
            damage_of_coordinator(random, sheets, &mut two);
            differ(random, &mut two);
        }
        10 => {
            spoil_one(random, sheets, &mut two);
            differ(random, &mut two);
        }
        _ => {
            absent_with_columns(random, &mut two);
            differ(random, &mut two);
        }
    }
    two
}

/// Something wrong with one of the sheets alone.
fn spoil_one(random: &mut Random, sheets: &Sheets, two: &mut TwoSheets) {
    let part = Part::any(random);
    match random.below(16) {
        0 => twice(random, part, two),
        1 => other_size(random, part, two),
        2 => key_beyond(random, part, two),
        3 => line_end(random, part, two),
        4 => columns_beyond(random, two),
        5 => part_of_line(random, part, two),
        6 | 7 => {
            let (sheet, line) = part.of(two);
            misplace(random, sheet, line);
        }
        8 => *two = old_bookkeeping(random),
        9 | 11 | 12 => before_state(random, &mut two.bookkeeping, old_lines::BOOKKEEPING),
        10 => absence::spoil(random, &mut two.bookkeeping, old_lines::BOOKKEEPING),
        _ => {
            let mut damaged = TwoSheets::of(&damaged_or_forged(random, sheets.clone()));
            *part.of(two).0 = part.of(&mut damaged).0.clone();
        }
    }
}

/// The coordinator sheet is damaged, or a line names a number that isn't issued.
fn damage_of_coordinator(random: &mut Random, sheets: &Sheets, two: &mut TwoSheets) {
    let mut sheets = sheets.clone();
    damage_coordinator(random, &mut sheets);
    *two = TwoSheets::of(&sheets);
}

/// The first byte of a random line, if there is one.
fn some_start(random: &mut Random, sheet: &[u8], line: usize) -> Option<usize> {
    let lines = sheet.len() / line;
    (lines > 0).then(|| random.below(lines) * line)
}

/// A line stands there twice.
fn twice(random: &mut Random, part: Part, two: &mut TwoSheets) {
    let (sheet, line) = part.of(two);
    if let Some(start) = some_start(random, sheet, line) {
        let again = sheet[start..start + line].to_vec();
        sheet.splice(start..start, again);
    }
}

/// No lines, or seldom more than there may be.
fn other_size(random: &mut Random, part: Part, two: &mut TwoSheets) {
    let (sheet, _) = part.of(two);
    sheet.clear();
    if random.once_in(8) {
        let size = Size {
            records: 501,
            decisions: 1,
            issued: 0,
        };
        let mut large = TwoSheets::of(&of_size(random, size, Mix::Committed));
        *sheet = part.of(&mut large).0.clone();
    }
}

/// A few bytes too many or too few, so that the last line isn't whole. In a replay that part is cut off.
fn part_of_line(random: &mut Random, part: Part, two: &mut TwoSheets) {
    let (sheet, line) = part.of(two);
    let most = random.pick(&[1, line - 1]);
    let bytes = 1 + random.below(most);
    match random.once_in(2) {
        true => sheet.truncate(sheet.len() - bytes),
        false => sheet.extend_from_within(..bytes),
    }
}

/// A field of the last key just beyond its range, so that keys still rise.
fn key_beyond(random: &mut Random, part: Part, two: &mut TwoSheets) {
    let (sheet, line) = part.of(two);
    let columns = [
        (0, "10"),
        (2, "100"),
        (5, "100"),
        (8, "100000"),
        (14, "100000"),
    ];
    let (column, text) = random.pick(&columns);
    if let Some(start) = sheet.len().checked_sub(line) {
        sheet[start + column..][..text.len()].copy_from_slice(text.as_bytes());
    }
}

fn line_end(random: &mut Random, part: Part, two: &mut TwoSheets) {
    let (sheet, line) = part.of(two);
    if let Some(start) = some_start(random, sheet, line) {
        sheet[start + line - 1] = random.pick(b" 0\r\0");
    }
}

/// A column just beyond its range.
fn columns_beyond(random: &mut Random, two: &mut TwoSheets) {
    if let Some(start) = some_start(random, &two.plain, PLAIN_LINE) {
        let column = start + random.pick(&[20, 29]);
        two.plain[column..column + 9].copy_from_slice(b"100000000");
    }
}

/// Where nothing is left of a line but its columns, each sheet may stand alone and the joined one may not.
fn absent_with_columns(random: &mut Random, two: &mut TwoSheets) {
    let line = random.below(two.bookkeeping.len() / BOOKKEEPING_LINE);
    let rest = b"    ABSENT     0   0         -     0   0        0        0          0\n";
    two.bookkeeping[line * BOOKKEEPING_LINE + 20..][..70].copy_from_slice(rest);
    if random.once_in(2) {
        let columns = random.pick(&[b"        0        1", b"        1        0"]);
        two.plain[line * PLAIN_LINE + 20..][..18].copy_from_slice(columns);
    }
}

/// A line is left out of one sheet, or another one of each, or a key differs in one digit, or one sheet has another spare.
fn differ(random: &mut Random, two: &mut TwoSheets) {
    let part = Part::any(random);
    match random.below(7) {
        0 => leave_out(random, part, two),
        1 => {
            leave_out(random, Part::Plain, two);
            leave_out(random, Part::Bookkeeping, two);
        }
        2 | 3 => other_spares(random, part, two),
        _ => other_key(random, part, two),
    }
}

/// One sheet has a spare more, or one where the other has its last record line.
fn other_spares(random: &mut Random, part: Part, two: &mut TwoSheets) {
    let (sheet, line) = part.of(two);
    let last = sheet.chunks_exact(line).rposition(|l| !is_spare(l));
    match last {
        Some(last) if random.once_in(2) => {
            sheet[last * line..][..line].copy_from_slice(&spare(line));
        }
        _ => sheet.extend(spare(line)),
    }
}

fn leave_out(random: &mut Random, part: Part, two: &mut TwoSheets) {
    let (sheet, line) = part.of(two);
    match some_start(random, sheet, line) {
        Some(start) if sheet.len() > line => drop(sheet.drain(start..start + line)),
        _ => {}
    }
}

/// The last digit of a key field is another one. The last line's may rise without a loss of order.
fn other_key(random: &mut Random, part: Part, two: &mut TwoSheets) {
    let (sheet, line) = part.of(two);
    let last = sheet.len().checked_sub(line);
    let start = match random.once_in(2) {
        true => last,
        false => some_start(random, sheet, line),
    };
    let Some(start) = start else {
        return;
    };
    let digit = &mut sheet[start + random.pick(&[1, 4, 7, 13, 19])];
    *digit = match *digit {
        b'9' => b'8',
        digit => digit.saturating_add(1),
    };
}
