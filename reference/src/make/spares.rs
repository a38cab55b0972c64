//! Spares at the end of a record sheet, and what may be wrong with them: on the joined sheet, or on either of two.

use super::damage::{RECORD_LINE, TELLING};
use super::random::Random;
use super::Sheets;

/// The most lines that a sheet may have, spares counted.
const MOST_LINES: usize = 500;

/// A spare of this width, LF counted.
pub fn spare(width: usize) -> Vec<u8> {
    let mut line = vec![b' '; width];
    line[width - 1] = b'\n';
    line
}

/// Whether this is a spare of any width.
pub fn is_spare(line: &[u8]) -> bool {
    let blanks = line.strip_suffix(b"\n");
    blanks.is_some_and(|blanks| blanks.iter().all(|byte| *byte == b' '))
}

/// Once in so many times a record sheet that has room ends in a few spares.
pub fn end_in_spares(random: &mut Random, times: usize, sheets: &mut Sheets) {
    if random.once_in(times) {
        let lines = sheets.records.len() / RECORD_LINE + random.pick(&[1, 1, 2, 3, 7]);
        fill_up(&mut sheets.records, RECORD_LINE, lines.min(MOST_LINES));
    }
}

/// The same; seldom there are as many spares as there may be, or no other line.
pub fn end_in_any_spares(random: &mut Random, times: usize, sheets: &mut Sheets) {
    end_in_spares(random, times, sheets);
    match random.below(300) {
        0 => fill_up(&mut sheets.records, RECORD_LINE, MOST_LINES),
        1..=4 => blank_all(&mut sheets.records, RECORD_LINE),
        _ => {}
    }
}

/// Spares below the lines until there are so many in all.
pub fn fill_up(sheet: &mut Vec<u8>, width: usize, lines: usize) {
    while sheet.len() < lines * width {
        sheet.extend(spare(width));
    }
}

/// No line but spares.
pub fn blank_all(sheet: &mut [u8], width: usize) {
    for line in sheet.chunks_exact_mut(width) {
        line.copy_from_slice(&spare(width));
    }
}

/// Something wrong with a spare, or with where it stands. At times nothing is: one more at the end, or no other line.
pub fn misplace(random: &mut Random, sheet: &mut Vec<u8>, width: usize) {
    let lines = sheet.len() / width;
    if lines == 0 {
        return;
    }
    let start = random.below(lines) * width;
    match random.below(16) {
        0..=2 => drop(sheet.splice(start..start, spare(width))),
        3 => sheet[start..start + width].copy_from_slice(&spare(width)),
        4..=8 => {
            let line = not_quite(random, width);
            sheet.extend(line);
        }
        9 => sheet.extend(spare(width)),
        10 => blank_all(sheet, width),
        _ => fill_up(sheet, width, MOST_LINES + random.pick(&[0, 1, 1, 1])),
    }
}

/// A spare with another byte in it, often the last or the first.
fn not_quite(random: &mut Random, width: usize) -> Vec<u8> {
    let mut line = spare(width);
    let any = random.below(width);
    let place = random.pick(&[0, any, any, width - 2, width - 1]);
    line[place] = match random.below(3) {
        0 => random.pick(b"\t\n\0 0"),
        1 => random.pick(b"0123456789"),
        _ => random.pick(TELLING),
    };
    line
}
