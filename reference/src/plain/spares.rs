//! Spares: the blank lines that a sheet of records may end in, so that a line can be added later. They count among its lines and
//! stand for no record. Adding uses one up, removing makes one, and every other call leaves them where they are.

use super::record::MOST_LINES;

/// Whether a line of any width is a spare: spaces and LF.
pub fn is_spare_line(line: &[u8]) -> bool {
    let (columns, end) = line.split_at(line.len() - 1);
    columns.iter().all(|column| *column == b' ') && end == b"\n"
}

pub fn write_spare_line(line: &mut [u8]) {
    let (end, columns) = line.split_last_mut().expect("a line has an end");
    columns.fill(b' ');
    *end = b'\n';
}

/// Whether the numbers of a record are those of a spare.
pub fn is_spare_row(row: &[u32]) -> bool {
    row.iter().all(|number| *number == 0)
}

/// Whether a sheet may have so many lines, spares counted.
fn is_size(lines: usize) -> bool {
    (1..=MOST_LINES).contains(&lines)
}

/// The lines of a sheet, or the rows of a list, that stand above its spares; nothing where one isn't whole, where there are too
/// many or none, or where a spare stands above another line.
pub fn above_spares<T>(
    sheet: &[T],
    width: usize,
    is_spare: impl Fn(&[T]) -> bool,
) -> Option<Vec<&[T]>> {
    if !sheet.len().is_multiple_of(width) || !is_size(sheet.len() / width) {
        return None;
    }
    let lines: Vec<&[T]> = sheet.chunks(width).collect();
    let others: Vec<&[T]> = lines
        .iter()
        .copied()
        .filter(|line| !is_spare(line))
        .collect();
    let below = &lines[others.len()..];
    below.iter().all(|line| is_spare(line)).then_some(others)
}
