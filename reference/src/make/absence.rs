//! Lines that tell of an absence what can't be: a version without a TxID, a TxID without a version, or columns. It is told by an
//! ABSENT line itself, or by the before fields of a line prepared over one.

use super::damage::set_figure;
use super::old_lines::Width;
use super::random::Random;
use crate::plain::numbers::RECORD_NUMBERS;

/// Version, TxID and both columns of such an absence.
const WRONG: [[u64; 4]; 6] = [
    [3, 0, 0, 0],
    [3, 0, 0, 0],
    [0, 1, 0, 0],
    [0, 1, 0, 0],
    [3, 1, 0, 7],
    [3, 1, 7, 0],
];

/// Where the figures of an image begin and end, from its version's first column on.
const FIGURES: [(usize, usize); 4] = [(0, 6), (6, 10), (10, 19), (19, 28)];
/// A line's own version.
const VERSION: usize = 30;

/// Spoils one of a sheet's lines, if there is one that tells of an absence.
pub fn spoil(random: &mut Random, sheet: &mut [u8], width: Width) {
    let before = width.before_state..width.before_state + 10;
    let tells = |line: &[u8]| match &line[20..30] {
        b"    ABSENT" => Some(false),
        b"  PREPARED" if line[before.clone()] == *b"    ABSENT" => Some(true),
        _ => None,
    };
    let lines = sheet.chunks_exact_mut(width.line);
    let mut lines: Vec<(bool, &mut [u8])> = lines
        .filter_map(|line| Some((tells(line)?, line)))
        .collect();
    if lines.is_empty() {
        return;
    }
    let place = random.below(lines.len());
    let (is_before, line) = &mut lines[place];
    let image = random.pick(&WRONG);
    match is_before {
        true => {
            set_image(&mut line[before.end..], &FIGURES, image);
            set_figure(&mut line[VERSION..VERSION + 6], image[0] + 1);
        }
        // Columns are there only if the before state doesn't follow the TxID.
        false if before.start > VERSION + 10 => set_image(&mut line[VERSION..], &FIGURES, image),
        false => set_image(&mut line[VERSION..], &FIGURES[..2], image),
    }
}

fn set_image(columns: &mut [u8], figures: &[(usize, usize)], image: [u64; 4]) {
    for ((start, end), value) in figures.iter().zip(image) {
        set_figure(&mut columns[*start..*end], value);
    }
}

/// The same of records as numbers.
pub fn spoil_numbers(random: &mut Random, numbers: &mut [u32]) {
    let tells = |row: &&mut [u32]| row[5] == 0 || row[5] == 2 && row[10] == 1;
    let rows = numbers.chunks_exact_mut(RECORD_NUMBERS);
    let mut rows: Vec<&mut [u32]> = rows.filter(tells).collect();
    if rows.is_empty() {
        return;
    }
    let place = random.below(rows.len());
    let row = &mut rows[place];
    let image = random.pick(&WRONG).map(|number| number as u32);
    match row[5] {
        0 => row[6..10].copy_from_slice(&image),
        _ => {
            row[11..15].copy_from_slice(&image);
            row[6] = image[0] + 1;
        }
    }
}
