//! What a call has written, told from the sheets before and after it. Whether a sheet is accepted isn't asked.

use super::record::LINE;
use super::{BAD_COORDINATOR, BAD_RECORDS};

/// The first line that differs and how many there are from it to the last that does; 0 and 0 where none does.
fn span(before: &[u8], after: &[u8]) -> [u32; 2] {
    let lines = before.chunks(LINE).zip(after.chunks(LINE));
    let places = (0..).zip(lines);
    let differ = places.filter(|(_, (one, other))| one != other);
    let differ: Vec<u32> = differ.map(|(place, _)| place).collect();
    match differ.as_slice() {
        [] => [0, 0],
        [first, ..] => [*first, differ[differ.len() - 1] - first + 1],
    }
}

/// 0 where nothing differs, 1 the coordinator sheet, 2 record lines, 3 both; `lines` are which of them. A refusal leaves
/// `lines` as they were.
pub fn written(
    records: [&[u8]; 2],
    coordinator: [&[u8]; 2],
    lines: &mut [u32],
) -> Result<u32, u32> {
    let whole = records.iter().all(|sheet| sheet.len().is_multiple_of(LINE));
    if !whole || records[0].len() != records[1].len() || lines.len() != 2 {
        return Err(BAD_RECORDS);
    }
    if coordinator[0].len() != coordinator[1].len() {
        return Err(BAD_COORDINATOR);
    }
    lines.copy_from_slice(&span(records[0], records[1]));
    let in_coordinator = u32::from(coordinator[0] != coordinator[1]);
    let in_records = u32::from(lines[1] > 0);
    Ok(in_coordinator + 2 * in_records)
}
