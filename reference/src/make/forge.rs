//! Sheets put together from the columns of several good lines, or from bytes that mean something elsewhere.

use super::damage::{COORDINATOR_LINE, RECORD_LINE, TELLING};
use super::random::Random;
use super::sheets::{self, Mix, Size};
use super::Sheets;

/// Replaces lines of one of the sheets by forged ones.
pub fn forge(random: &mut Random, sheets: &mut Sheets) {
    let size = Size {
        records: 9,
        decisions: 12,
        issued: 12,
    };
    let source = sheets::of_size(random, size, Mix::Thirds);
    if random.once_in(4) {
        let lines = &mut sheets.coordinator[COORDINATOR_LINE..];
        let source = &source.coordinator[COORDINATOR_LINE..];
        forge_line(random, lines, source, COORDINATOR_LINE);
    } else {
        forge_line(random, &mut sheets.records, &source.records, RECORD_LINE);
    }
}

fn forge_line(random: &mut Random, sheet: &mut [u8], source: &[u8], line: usize) {
    let start = random.below(sheet.len() / line) * line;
    let target = &mut sheet[start..start + line];
    match random.below(4) {
        0 => cut(random, target, source),
        1 => mixed(random, target, source),
        2 => telling(random, target),
        _ => target.fill_with(|| random.draw() as u8),
    }
}

/// The columns from one place on are another line's.
fn cut(random: &mut Random, target: &mut [u8], source: &[u8]) {
    let line = target.len();
    let from = random.below(source.len() / line) * line;
    let place = random.below(line);
    target[place..].copy_from_slice(&source[from + place..from + line]);
}

/// Each column is from some line, so that it holds only what may stand there.
fn mixed(random: &mut Random, target: &mut [u8], source: &[u8]) {
    let line = target.len();
    for place in 0..line {
        if random.once_in(8) {
            target[place] = source[random.below(source.len() / line) * line + place];
        }
    }
}

/// A few neighbouring columns hold bytes that other columns may hold.
fn telling(random: &mut Random, target: &mut [u8]) {
    let place = random.below(target.len());
    let end = (place + 1 + random.below(4)).min(target.len());
    target[place..end].fill_with(|| random.pick(TELLING));
}
