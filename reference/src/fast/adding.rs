//! Adding and removing a line: after the check the lines below shift in one move, and one line is written.

use super::line::{is_blank, ABSENT};
use super::records::SPARE;
use super::search::{find, rank, write_key};
use super::tables::LINE;
use super::{accepted, record_lines};
use crate::plain::key::Key;
use crate::plain::{KEY_HAS_LINE, NOT_REMOVABLE, NO_SPARE};

/// Puts an ABSENT line in key order, in place of the last spare.
pub fn add(records: &mut [u8], coordinator: &[u8], key: Key) -> Result<(), u32> {
    let (count, _) = accepted(records, coordinator)?;
    let Err(place) = rank(record_lines(records, count), &key)? else {
        return Err(KEY_HAS_LINE);
    };
    if count * LINE == records.len() {
        return Err(NO_SPARE);
    }
    let lines = record_lines(records, count + 1);
    lines.copy_within(place..count, place + 1);
    let line = &mut lines[place];
    write_key(line, &key);
    line[20..107].copy_from_slice(ABSENT);
    // The line that stood here or the spare has its LF already.
    Ok(())
}

/// Takes the key's line away and puts a spare below the last.
pub fn remove(records: &mut [u8], coordinator: &[u8], key: Key) -> Result<(), u32> {
    let (count, _) = accepted(records, coordinator)?;
    let lines = record_lines(records, count);
    let place = find(lines, &key)?;
    if !is_blank(&lines[place]) {
        return Err(NOT_REMOVABLE);
    }
    lines.copy_within(place + 1.., place);
    lines[count - 1] = SPARE;
    Ok(())
}
