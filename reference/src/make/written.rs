//! Sheets before and after, whose differences are to be told: unlike in some lines, or such as no call leaves.

use super::arguments::target;
use super::damage::{damage, COORDINATOR_LINE, RECORD_LINE};
use super::random::Random;
use super::{any, sheets, Sheets};

/// Two pairs of sheets and the target for what is told of them.
pub fn unlike(random: &mut Random) -> (Sheets, Sheets, Vec<u32>) {
    let before = match random.once_in(6) {
        true => any(random),
        false => sheets::accepted(random),
    };
    let mut after = before.clone();
    match random.below(12) {
        0 => {}
        1 => after = any(random),
        2 => damage(random, &mut after),
        3 => length(random, &mut after.records, RECORD_LINE),
        4 => length(random, &mut after.coordinator, COORDINATOR_LINE),
        5 => {
            length(random, &mut after.records, RECORD_LINE);
            length(random, &mut after.coordinator, COORDINATOR_LINE);
        }
        _ => bytes(random, &mut after),
    }
    let (before, after) = alike_in_length(random, before, after);
    (before, after, target(random))
}

/// Seldom both have the same part of a line at their ends, or nothing at all.
fn alike_in_length(random: &mut Random, mut before: Sheets, mut after: Sheets) -> (Sheets, Sheets) {
    match random.below(16) {
        0 => {
            let part = 1 + random.below(RECORD_LINE - 1);
            before.records.extend(vec![b' '; part]);
            after.records.extend(vec![b' '; part]);
        }
        1 => {
            let part = 1 + random.below(COORDINATOR_LINE - 1);
            before.coordinator.extend(vec![b' '; part]);
            after.coordinator.extend(vec![b' '; part]);
        }
        2 => {
            before.records.clear();
            after.records.clear();
        }
        3 => {
            before.coordinator.clear();
            after.coordinator.clear();
        }
        _ => {}
    }
    (before, after)
}

/// A byte or a line too many or too few.
fn length(random: &mut Random, sheet: &mut Vec<u8>, line: usize) {
    match random.below(4) {
        0 => sheet.push(b'\n'),
        1 => sheet.extend(vec![b' '; line]),
        2 => drop(sheet.pop()),
        _ => sheet.truncate(sheet.len().saturating_sub(line)),
    }
}

/// One bit of a byte in some lines of either sheet, at the ends of a line more often.
fn bytes(random: &mut Random, sheets: &mut Sheets) {
    for _ in 0..random.below(4) {
        byte(random, &mut sheets.records, RECORD_LINE);
    }
    for _ in 0..random.below(3) {
        byte(random, &mut sheets.coordinator, COORDINATOR_LINE);
    }
}

fn byte(random: &mut Random, sheet: &mut [u8], line: usize) {
    let lines = sheet.len() / line;
    if lines > 0 {
        let column = random.below(line);
        let column = random.pick(&[0, column, column, line - 1]);
        sheet[random.below(lines) * line + column] ^= 1 << random.below(8);
    }
}
